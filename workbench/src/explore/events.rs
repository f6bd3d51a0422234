//! What can happen to a block next: it commits, an attempt finds no way, or what
//! an attempt has found is taken away from it.
//!
//! All of it is told from a situation, without notes of attempts. An attempt fails
//! where a way that it found is not there any more. If that ever happens, it
//! happens by a single step behind its opening: puts in between can wait until a
//! take needs their tokens, and what is put for a take is gone after it. So of the
//! ways that the block finds just before the step that robs it, the first one
//! fails. Only the limit of 64 stations can forbid the waiting.

use crate::text::asking::Event;

use super::model::{Kind, Model, Way, MOST_STATIONS};
use super::rounds::Codes;
use super::situations::Glance;

/// The slots that something takes from, and how many tokens.
type Needs = Vec<(usize, u8)>;

/// For each code what its stations can do but put.
#[derive(Clone, Debug, PartialEq, Eq)]
pub struct Doers {
    of_code: Vec<Doer>,
}

#[derive(Clone, Debug, PartialEq, Eq)]
struct Doer {
    /// What it may do, the first that can be done: what it needs, and how many
    /// stations more stand there afterwards.
    deeds: Vec<(Needs, usize)>,
    /// Whether it is a block that has not begun.
    waits: bool,
    /// Whether it is an attempt that found a way.
    noted: bool,
}

impl Doer {
    fn of(model: &Model, kind: &Kind) -> Doer {
        let way = |way: &Way| (way.needs.clone(), way.puts.len());
        let deeds = match kind {
            Kind::Put { .. } => Vec::new(),
            Kind::Take { slot, opens, .. } => vec![(vec![(*slot, 1)], opens.len())],
            Kind::Block { ways, .. } => ways.iter().map(way).collect(),
            Kind::Noted { block, way: at } => model
                .ways(*block)
                .iter()
                .skip(*at)
                .take(1)
                .map(way)
                .collect(),
        };
        Doer {
            deeds,
            waits: matches!(kind, Kind::Block { .. }),
            noted: matches!(kind, Kind::Noted { .. }),
        }
    }

    /// The first that the counts allow.
    fn first(&self, counts: &[u8]) -> Option<&(Needs, usize)> {
        self.deeds
            .iter()
            .find(|(needs, _)| enough(counts, needs, &[]))
    }

    /// What is taken if it acts among so many stations.
    fn acts(&self, glance: Glance<'_>) -> Option<&Needs> {
        let (needs, opens) = self.first(glance.counts)?;
        (glance.stations + opens <= MOST_STATIONS + 1).then_some(needs)
    }
}

/// Whether there is enough once something was taken.
fn enough(counts: &[u8], needs: &[(usize, u8)], taken: &[(usize, u8)]) -> bool {
    needs.iter().all(|(slot, need)| {
        let count = counts.get(*slot).copied().unwrap_or(0);
        let taken = taken.iter().filter(|(other, _)| other == slot);
        let left = taken.fold(count, |left, (_, taken)| left.saturating_sub(*taken));
        left >= *need
    })
}

impl Doers {
    /// Those of a model.
    #[must_use]
    pub fn of(model: &Model) -> Doers {
        let kinds = model.kinds().iter();
        Doers {
            of_code: kinds.map(|kind| Doer::of(model, kind)).collect(),
        }
    }

    /// Whether it can happen next to a block of one of these codes.
    #[must_use]
    pub fn can_happen(&self, event: Event, codes: Codes, glance: Glance<'_>) -> bool {
        let mut happens = false;
        glance.each_code(|code, number| {
            let Some(doer) = self.doer(code).filter(|_| codes.contains(code)) else {
                return;
            };
            happens |= match event {
                Event::Commits => doer.acts(glance).is_some(),
                Event::GivesUp => doer.waits && doer.first(glance.counts).is_none(),
                Event::Fails => match doer.first(glance.counts) {
                    Some((needs, _)) => self.robbed(code, number, needs, glance),
                    None => doer.noted,
                },
            };
        });
        happens
    }

    fn doer(&self, code: u8) -> Option<&Doer> {
        self.of_code.get(usize::from(code))
    }

    /// Whether another one can take what one of so many of this code needs.
    fn robbed(&self, code: u8, number: u8, needs: &Needs, glance: Glance<'_>) -> bool {
        let mut robbed = false;
        glance.each_code(|other, _| {
            if other == code && number < 2 {
                return;
            }
            let taken = self.doer(other).and_then(|other| other.acts(glance));
            robbed |= taken.is_some_and(|taken| !enough(glance.counts, needs, taken));
        });
        robbed
    }
}
