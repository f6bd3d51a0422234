//! The nearest situation from which something is not possible any more.
//!
//! Whether there is one is known from the ends and the rounds that are never left:
//! from every situation one of them is reached, and in none of them can anything
//! else be reached. Which one is the nearest takes one more look at every
//! situation in which it is not so. They are gone through from the last one on,
//! since most steps lead to a later situation; only where all that one leads to is
//! not known yet is it kept what that is. Then these lists are gone through, to and
//! fro, until nothing more is known to reach it. They take no more memory than the
//! search did: what has no room is looked at again.

use super::model::Model;
use super::question::Question;
use super::search::{Cut, Found, Limits};
use super::steps::Stepper;
use super::store::{Batch, Index};

/// So many situations are gone on from together.
const TOGETHER: usize = 128;

/// The first situation from which none is reached in which the question is so.
///
/// # Errors
///
/// The limit that was met before that was known.
pub(super) fn first_without(
    model: &Model,
    found: &Found,
    question: &Question,
    limits: Limits,
) -> Result<Option<Index>, Cut> {
    let mut so = Vec::with_capacity(found.store.len());
    for index in found.store.indexes() {
        found
            .store
            .glance(index, |glance| so.push(question.holds(glance)));
    }
    let mut edges = Edges {
        found,
        stepper: Stepper::new(model),
        batch: Batch::default(),
    };
    let room = found.memory().saturating_sub(found.store.len());
    let back = Back::new(so, room / 4);
    back.first_without(
        |from, to| edges.find(from, to),
        |memory| limits.met(found.memory() + memory),
    )
}

/// What situations lead to, by steps that are made again.
struct Edges<'a> {
    found: &'a Found,
    stepper: Stepper<'a>,
    batch: Batch,
}

impl Edges<'_> {
    fn find(&mut self, from: &[Index], to: &mut Vec<Edge>) {
        let Edges {
            found,
            stepper,
            batch,
        } = self;
        batch.clear();
        to.clear();
        for index in from {
            found.store.go_on(stepper, *index, batch, |_, _| {}, |_| {});
        }
        found
            .store
            .find_batch(batch, |index, parent| to.push((parent, index)));
    }
}

/// From where, and to where.
type Edge = (Index, Index);

/// Which situations are known to reach what is asked for, and what those lead to of
/// which it is not known.
struct Back {
    reaching: Vec<bool>,
    /// Situations of which it is not known, marked by [`HEAD`], each before all that
    /// it leads to.
    lists: Vec<u32>,
    /// So many numbers of these have room.
    most: usize,
    /// Situations whose lists had none.
    again: Vec<Index>,
}

/// The mark of a list's first number.
const HEAD: u32 = 1 << 31;

impl Back {
    fn new(so: Vec<bool>, most: usize) -> Back {
        // Larger numbers have no bit to be marked by.
        let marked = u32::try_from(so.len()).is_ok_and(|members| members < HEAD);
        Back {
            reaching: so,
            lists: Vec::new(),
            most: if marked { most } else { 0 },
            again: Vec::new(),
        }
    }

    /// The first that reaches none in which it is so. Steps from situations are
    /// found by the one, those from one situation together; the other says which
    /// limit is met with so many bytes more.
    fn first_without(
        mut self,
        mut find: impl FnMut(&[Index], &mut Vec<Edge>),
        met: impl Fn(usize) -> Option<Cut>,
    ) -> Result<Option<Index>, Cut> {
        if !self.reaching.contains(&true) {
            return Ok(Some(0));
        }
        let mut edges = Vec::new();
        let mut together: Vec<Index> = Vec::new();
        let mut below = self.reaching.len();
        while below > 0 {
            together.clear();
            while below > 0 && together.len() < TOGETHER {
                below -= 1;
                if !self.reaches(below) {
                    together.extend(Index::try_from(below));
                }
            }
            stop_if(met(self.memory()))?;
            find(&together, &mut edges);
            self.take_in(&edges);
        }
        // Those without lists too, until nothing more is found to reach it.
        loop {
            while self.sweep_lists() {
                stop_if(met(self.memory()))?;
            }
            let mut left = std::mem::take(&mut self.again);
            left.retain(|index| !self.reaches(place(*index)));
            // The other way round than before.
            left.reverse();
            for together in left.chunks(TOGETHER) {
                stop_if(met(self.memory() + 4 * left.len()))?;
                find(together, &mut edges);
                self.take_in(&edges);
            }
            if self.again.len() == left.len() {
                let first = self.reaching.iter().position(|reaches| !reaches);
                return Ok(first.and_then(|first| Index::try_from(first).ok()));
            }
        }
    }

    fn memory(&self) -> usize {
        self.reaching.len() + 4 * (self.lists.len() + self.again.len())
    }

    fn reaches(&self, place: usize) -> bool {
        self.reaching.get(place).copied().unwrap_or(true)
    }

    fn mark(&mut self, index: Index) {
        if let Some(reaches) = self.reaching.get_mut(place(index)) {
            *reaches = true;
        }
    }

    /// Steps, those from one situation together.
    fn take_in(&mut self, edges: &[Edge]) {
        let mut rest = edges;
        while let Some((from, _)) = rest.first().copied() {
            let (own, others) = rest.split_at(rest.partition_point(|(it, _)| *it == from));
            rest = others;
            if own.iter().any(|(_, to)| self.reaches(place(*to))) {
                self.mark(from);
            } else if self.lists.len() + 1 + own.len() > self.most {
                self.again.push(from);
            } else {
                self.lists.push(from | HEAD);
                self.lists.extend(own.iter().map(|(_, to)| *to));
            }
        }
    }

    /// Goes through the lists, first from the last one on: then those that lead to
    /// earlier situations are known when they are needed. Whether something new is
    /// known to reach it.
    fn sweep_lists(&mut self) -> bool {
        let mut lists = std::mem::take(&mut self.lists);
        let mut any = false;
        let mut leads = false;
        for number in lists.iter().rev() {
            if number & HEAD == 0 {
                leads |= self.reaches(place(*number));
            } else if std::mem::take(&mut leads) {
                any = true;
                self.mark(number & !HEAD);
            }
        }
        // To the end, and without the lists that are not needed any more.
        let (mut kept, mut at) = (0, 0);
        while let Some(head) = lists.get(at).copied() {
            let others = lists.get(at + 1..).unwrap_or(&[]);
            let to = others.iter().take_while(|number| **number & HEAD == 0);
            let end = at + 1 + to.clone().count();
            let from = head & !HEAD;
            let known = self.reaches(place(from));
            if known || to.into_iter().any(|to| self.reaches(place(*to))) {
                any |= !known;
                self.mark(from);
            } else {
                lists.copy_within(at..end, kept);
                kept += end - at;
            }
            at = end;
        }
        lists.truncate(kept);
        self.lists = lists;
        any
    }
}

fn stop_if(cut: Option<Cut>) -> Result<(), Cut> {
    cut.map_or(Ok(()), Err)
}

fn place(index: Index) -> usize {
    usize::try_from(index).unwrap_or(usize::MAX)
}

#[cfg(test)]
#[allow(clippy::unwrap_used, clippy::indexing_slicing)]
mod tests {
    use super::super::search::Cut;
    use super::{place, Back, Edge, Index};

    /// A number that looks like chance.
    fn next(state: &mut u64, below: u64) -> u64 {
        *state = state
            .wrapping_mul(6_364_136_223_846_793_005)
            .wrapping_add(1_442_695_040_888_963_407);
        (*state >> 33) % below
    }

    /// Random graphs against a closure, with room for no lists, for few and for all.
    #[test]
    fn random_graphs() {
        let mut state = 1;
        let (mut none, mut later) = (0, 0);
        for _ in 0..3_000 {
            let members = 2 + next(&mut state, 300);
            let most = next(&mut state, 3);
            let graph: Vec<Vec<Index>> = (0..members)
                .map(|_| {
                    let edges = next(&mut state, most + 1);
                    (0..edges)
                        .map(|_| Index::try_from(next(&mut state, members)).unwrap())
                        .collect()
                })
                .collect();
            let rare = 1 + next(&mut state, 200);
            let so: Vec<bool> = graph.iter().map(|_| next(&mut state, rare) == 0).collect();
            let mut reaching = so.clone();
            for _ in &graph {
                for (at, to) in graph.iter().enumerate() {
                    reaching[at] |= to.iter().any(|to| reaching[place(*to)]);
                }
            }
            let expected = reaching.iter().position(|reaches| !reaches);
            none += usize::from(expected.is_none());
            later += usize::from(expected.is_some_and(|first| first > 0));
            for most in [0, 3, 40, usize::MAX] {
                let find = |from: &[Index], to: &mut Vec<Edge>| {
                    to.clear();
                    for from in from {
                        to.extend(graph[place(*from)].iter().map(|to| (*from, *to)));
                    }
                };
                let first = Back::new(so.clone(), most).first_without(find, |_| None);
                assert_eq!(
                    first.map(|first| first.map(place)),
                    Ok(expected),
                    "{graph:?}"
                );
            }
        }
        assert!(none > 10 && later > 100, "{none} {later}");
    }

    #[test]
    fn a_limit_that_is_met() {
        let find = |_: &[Index], to: &mut Vec<Edge>| to.clear();
        let met = |memory: usize| (memory >= 2).then_some(Cut::Memory);
        let answer = Back::new(vec![true, false], 9).first_without(find, met);
        assert_eq!(answer, Err(Cut::Memory));
    }
}
