//! What is kept of last rounds: sorts of them, and which questions they break.

use std::collections::{HashMap, HashSet};

use super::model::Model;
use super::rounds::{last_rounds, last_rounds_so_far, Codes, Members, Round};
use super::search::{Cut, Found, Limits, Questions};
use super::situations::Glance;
use super::store::Index;

/// Last rounds of a hall: all of them, or those found so far.
#[derive(Clone, Debug, Default, PartialEq, Eq)]
pub struct Rounds {
    /// How many there are.
    pub number: usize,
    /// Those in which each tray has the same least and most taken together, trays
    /// that may stay left out; once all are found, the nearest first.
    pub sorts: Vec<RoundSort>,
    /// For each question about ends the first situation of a round at which it
    /// is not so, and who acts in that round.
    pub broken: Vec<Option<(Index, Codes)>>,
    /// For each question of what is always possible the first situation of a round
    /// in all of which it is not so.
    pub impossible: Vec<Option<Index>>,
    /// Where a sort is among all.
    of_extremes: HashMap<Vec<(u8, u8)>, usize>,
}

/// Rounds in which each tray has the same least and most.
#[derive(Clone, Debug, PartialEq, Eq)]
pub struct RoundSort {
    /// For each slot the least and the most that its tray has in the round.
    pub extremes: Vec<(u8, u8)>,
    /// How many rounds.
    pub rounds: usize,
    /// The first situation of the nearest of them.
    pub first: Index,
    /// How many situations that one has.
    pub situations: u64,
    /// Who acts in it.
    pub acting: Codes,
}

/// Collects the last rounds of a hall all of whose situations were found, and shows
/// what was found so far behind each.
///
/// # Errors
///
/// The limit that was met before all were found; what was found by then stays with
/// the situations.
pub fn rounds(
    model: &Model,
    found: &mut Found,
    questions: &Questions,
    limits: Limits,
    mut show: impl FnMut(&Found, &Rounds),
) -> Result<Rounds, Cut> {
    let mut rounds = found.rounds.clone();
    let all = last_rounds(model, found, limits, |found, round| {
        rounds.take_in(questions, model, found, round);
        show(found, &rounds);
        let enough = questions.only_first && rounds.has_fault(questions);
        if enough {
            Err(Cut::Fault)
        } else {
            Ok(())
        }
    });
    if let Err(cut) = all {
        // Whatever is in the rounds behind, what these break is broken.
        found.rounds = rounds;
        return Err(cut);
    }
    rounds.sorts.sort_by_key(|sort| sort.first);
    rounds.of_extremes.clear();
    Ok(rounds)
}

/// Adds those among the situations found so far, of which the first `done` were
/// gone on from. A limit that is met ends nothing: the search looks at it too.
pub(super) fn rounds_so_far(
    model: &Model,
    found: &mut Found,
    done: usize,
    questions: &Questions,
    limits: Limits,
) {
    let mut rounds = std::mem::take(&mut found.rounds);
    let _ = last_rounds_so_far(model, found, done, limits, |found, round| {
        rounds.take_in(questions, model, found, round);
    });
    found.rounds = rounds;
}

impl Rounds {
    /// None yet, with these questions.
    pub(super) fn none(questions: &Questions) -> Rounds {
        Rounds {
            broken: vec![None; questions.ends.len()],
            impossible: vec![None; questions.possible.len()],
            ..Rounds::default()
        }
    }

    /// Whether one of them breaks a question that the text expects to hold.
    pub(super) fn has_fault(&self, questions: &Questions) -> bool {
        let ends = questions.ends.iter().zip(&self.broken);
        let possible = questions.possible.iter().zip(&self.impossible);
        let mut ends = ends.filter(|(_, broken)| broken.is_some());
        let mut possible = possible.filter(|(_, broken)| broken.is_some());
        ends.any(|(question, _)| !question.asking.breaks)
            || possible.any(|(question, _)| !question.asking.breaks)
    }

    fn take_in(&mut self, questions: &Questions, model: &Model, found: &Found, round: Round<'_>) {
        self.number += 1;
        let (seen, situations) = match round.members {
            Members::All => {
                let seen = look_at(questions, found, found.store.indexes());
                (seen, found.situations)
            }
            Members::Some(members) => {
                let seen = look_at(questions, found, members.iter().copied());
                let situations = if seen.noted {
                    readings(model, found, members)
                } else {
                    members.len()
                };
                (seen, u64::try_from(situations).unwrap_or(u64::MAX))
            }
        };
        for (broken, at) in self.broken.iter_mut().zip(seen.broken) {
            let Some(at) = at else { continue };
            if broken.map_or(true, |(before, _)| at < before) {
                *broken = Some((at, round.acting));
            }
        }
        for (broken, met) in self.impossible.iter_mut().zip(seen.met) {
            if !met {
                *broken = Some(broken.map_or(seen.first, |before| before.min(seen.first)));
            }
        }
        let sort = RoundSort {
            extremes: seen.extremes,
            rounds: 1,
            first: seen.first,
            situations,
            acting: round.acting,
        };
        self.sort(questions, sort);
    }

    fn sort(&mut self, questions: &Questions, sort: RoundSort) {
        let mut left_over = sort.extremes.clone();
        for slot in &questions.may_stay {
            if let Some(extremes) = left_over.get_mut(*slot) {
                *extremes = (0, 0);
            }
        }
        let known = self.of_extremes.get(&left_over).copied();
        let Some(nearest) = known.and_then(|at| self.sorts.get_mut(at)) else {
            self.of_extremes.insert(left_over, self.sorts.len());
            self.sorts.push(sort);
            return;
        };
        let rounds = nearest.rounds + 1;
        if sort.first < nearest.first {
            *nearest = sort;
        }
        nearest.rounds = rounds;
    }
}

/// What the situations of a round have, all of them taken together.
fn look_at(questions: &Questions, found: &Found, members: impl Iterator<Item = Index>) -> Seen {
    let mut seen = Seen {
        first: Index::MAX,
        noted: false,
        extremes: Vec::new(),
        broken: vec![None; questions.ends.len()],
        met: vec![false; questions.possible.len()],
    };
    for index in members {
        found.store.glance(index, |glance| {
            seen.take_in(index, glance, questions);
        });
    }
    seen
}

/// How many situations these are once notes are left out.
fn readings(model: &Model, found: &Found, members: &[Index]) -> usize {
    let read = |index: &Index| model.read_without_notes(&found.store.get(*index));
    members.iter().map(read).collect::<HashSet<_>>().len()
}

struct Seen {
    first: Index,
    /// Whether one of them has a note.
    noted: bool,
    extremes: Vec<(u8, u8)>,
    broken: Vec<Option<Index>>,
    /// Which questions of what is possible are so somewhere.
    met: Vec<bool>,
}

impl Seen {
    /// Situations come in their order, so the first one is the nearest.
    fn take_in(&mut self, index: Index, glance: Glance<'_>, questions: &Questions) {
        let Glance { counts, .. } = glance;
        self.first = self.first.min(index);
        self.noted |= glance.noted;
        if self.extremes.is_empty() {
            self.extremes = counts.iter().map(|count| (*count, *count)).collect();
        }
        for ((least, most), count) in self.extremes.iter_mut().zip(counts) {
            *least = (*least).min(*count);
            *most = (*most).max(*count);
        }
        for (broken, question) in self.broken.iter_mut().zip(&questions.ends) {
            if broken.is_none() && !question.holds(glance) {
                *broken = Some(index);
            }
        }
        for (met, question) in self.met.iter_mut().zip(&questions.possible) {
            *met = *met || question.holds(glance);
        }
    }
}
