//! Last rounds: sets of situations that are never left once one of them is
//! reached, though something can always follow in them.
//!
//! Found by the walk of `never_left`, which is handed the least situation that
//! each one leads to: the search has kept these. A situation is gone on from once
//! at most, so this costs no more than the search did.
//!
//! While the search goes on, those among what it has found are looked for now and
//! then. Nearly all situations lead on to one that was not gone on from by a way
//! on which something was first reached: these are known without a look at a
//! step.

use super::model::Model;
use super::never_left::{never_left, Allowance, Graph};
use super::search::{Cut, Found, Limits};
use super::situations::Situations;
use super::steps::{Limit, Step, Stepper};
use super::store::{Batch, Index};

/// Codes of stations, a bit for each.
#[derive(Clone, Copy, Debug, Default, PartialEq, Eq)]
pub struct Codes([u64; 4]);

impl Codes {
    /// All that ever act, notes left out.
    fn acting(model: &Model, found: &Found) -> Codes {
        let mut codes = Codes::default();
        for (code, acted) in (0..=u8::MAX).zip(&found.marks.acted) {
            if *acted {
                codes.insert(model.without_note(code));
            }
        }
        codes
    }

    /// Whether a code is one of them.
    #[must_use]
    pub fn contains(self, code: u8) -> bool {
        let Codes(words) = self;
        let word = words.get(usize::from(code >> 6)).copied().unwrap_or(0);
        word >> (code & 63) & 1 == 1
    }

    pub(super) fn insert(&mut self, code: u8) {
        if let Some(word) = self.0.get_mut(usize::from(code >> 6)) {
            *word |= 1 << (code & 63);
        }
    }

    pub(super) fn extend(&mut self, other: Codes) {
        for (word, more) in self.0.iter_mut().zip(other.0) {
            *word |= more;
        }
    }

    /// Those that are not among the others.
    #[must_use]
    pub(super) fn without(mut self, other: Codes) -> Codes {
        for (word, less) in self.0.iter_mut().zip(other.0) {
            *word &= !less;
        }
        self
    }

    /// Whether one of them is among the others.
    pub(super) fn meets(self, other: Codes) -> bool {
        self.without(other) != self
    }
}

/// The situations of a round.
#[derive(Clone, Copy, Debug)]
pub enum Members<'a> {
    /// All that there are.
    All,
    /// These, in order.
    Some(&'a [Index]),
}

/// A last round.
#[derive(Clone, Copy, Debug)]
pub struct Round<'a> {
    /// Its situations.
    pub members: Members<'a>,
    /// Who acts in it.
    pub acting: Codes,
}

/// Shows every last round of a hall all of whose situations were found, but for
/// those that were shown before.
///
/// # Errors
///
/// The limit that was met before all were found, or what `show` returns.
pub fn last_rounds(
    model: &Model,
    found: &mut Found,
    limits: Limits,
    mut show: impl FnMut(&Found, Round<'_>) -> Result<(), Cut>,
) -> Result<(), Cut> {
    // Without one of these every run ends.
    let Some(mut least) = found.store.take_least().filter(|_| found.marks.repeats) else {
        return Ok(());
    };
    let allowance = Allowance {
        limits: left_of(limits, found.memory() + 4 * least.len()),
        members: usize::MAX,
    };
    let done = vec![false; found.store.len()];
    let mut any = false;
    walk(model, found, &mut least, done, allowance, |round| {
        any = true;
        show(found, round)
    })?;
    if any || found.rounds.number > 0 || !found.ends.is_empty() || !found.stuck.is_empty() {
        return Ok(());
    }
    show(
        found,
        Round {
            members: Members::All,
            acting: Codes::acting(model, found),
        },
    )
}

/// So much of the search may be gone through once more for the rounds among what
/// it has found: one situation in so many.
const SHARE_OF_SEARCH: usize = 8;

/// Shows last rounds among the situations found so far, of which the first `done`
/// were gone on from. They are never left, whatever is found later. Some may be
/// missing, if to find them would cost much; none is shown twice.
///
/// # Errors
///
/// The limit that was met.
pub(super) fn last_rounds_so_far(
    model: &Model,
    found: &mut Found,
    done: usize,
    limits: Limits,
    mut show: impl FnMut(&Found, Round<'_>),
) -> Result<(), Cut> {
    let allowance = Allowance {
        limits: left_of(limits, found.memory()),
        members: done / SHARE_OF_SEARCH,
    };
    if let Some(cut) = allowance.limits.met(2 * found.store.len()) {
        return Err(cut);
    }
    let Some(mut least) = found.store.take_least() else {
        return Ok(());
    };
    let open = leading_on(found, done);
    let walked = walk(model, found, &mut least, open, allowance, |round| {
        show(found, round);
        Ok(())
    });
    found.store.give_least(least);
    walked
}

/// Which situations lead to one that was not gone on from, by the ways on which
/// situations were first reached.
fn leading_on(found: &Found, done: usize) -> Vec<bool> {
    let mut leading = vec![false; found.store.len()];
    if let Some(open) = leading.get_mut(done..) {
        open.fill(true);
    }
    for (place, parent) in found.store.parents().iter().enumerate().rev() {
        let leads = leading.get(place).copied().unwrap_or(false);
        let parent = usize::try_from(*parent).unwrap_or(usize::MAX);
        if let Some(parent) = leading.get_mut(parent) {
            *parent |= leads;
        }
    }
    leading
}

fn left_of(limits: Limits, memory: usize) -> Limits {
    Limits {
        memory: limits.memory.saturating_sub(memory),
        ..limits
    }
}

/// Rounds that the opening is not in, and nothing that is done with.
fn walk(
    model: &Model,
    found: &Found,
    reaches: &mut [Index],
    mut done: Vec<bool>,
    allowance: Allowance,
    mut show: impl FnMut(Round<'_>) -> Result<(), Cut>,
) -> Result<(), Cut> {
    // A stuck attempt leads to nothing but stuck ones: what is followed from there
    // ends by itself.
    for end in found.ends.iter().chain([&0]) {
        let place = usize::try_from(*end).ok();
        if let Some(done) = place.and_then(|place| done.get_mut(place)) {
            *done = true;
        }
    }
    let graph = Onward {
        model,
        store: &found.store,
        stepper: Stepper::new(model),
        batch: Batch::default(),
    };
    never_left(graph, reaches, done, allowance, |members, acting| {
        show(Round {
            members: Members::Some(members),
            acting,
        })
    })
}

/// What situations lead to, by steps that are made again.
struct Onward<'a> {
    model: &'a Model,
    store: &'a Situations,
    stepper: Stepper<'a>,
    batch: Batch,
}

impl Graph for Onward<'_> {
    fn go_on(
        &mut self,
        from: impl Iterator<Item = Index>,
        acting: &mut Codes,
        reached: &mut Vec<Index>,
    ) {
        let Onward {
            model,
            store,
            stepper,
            batch,
        } = self;
        batch.clear();
        for index in from {
            let show = |step: Step, barred: Option<Limit>| {
                if barred.is_none() && step.deed.has_effect() {
                    acting.insert(model.without_note(step.code));
                }
            };
            store.go_on(stepper, index, batch, show, |_| {});
        }
        store.find_batch(batch, |index, _| reached.push(index));
    }
}
