//! Runs that never end: situations that are come back to.
//!
//! There are finitely many situations, so a run without end comes back to one
//! of them. Attempts that are abandoned for ever are none of this: they lead
//! from a situation to itself, and every waiting block has them.

use std::mem::size_of;

use super::model::{Kind, Model};
use super::search::{Cut, Found, Limits};
use super::situations::Situations;
use super::steps::{Deed, Stepper, Tried};
use super::store::Index;

/// Whether there is a run without end.
#[derive(Clone, Debug, PartialEq, Eq)]
pub enum Endless {
    /// Every run ends.
    No,
    /// These situations follow each other, and the last one is the first again.
    Round(Vec<Index>),
    /// It was not found out.
    Unknown(Cut),
}

/// Which steps a run may have.
#[derive(Clone, Copy, Debug, PartialEq, Eq)]
pub enum Allowed {
    /// All of them.
    Any,
    /// All but commits.
    NoCommit,
}

/// Looks for a run without end among the situations found. All steps but a
/// repeated take leave less to be done than before, so without one there is no
/// such run.
#[must_use]
pub fn endless(model: &Model, found: &Found, allowed: Allowed, limits: Limits) -> Endless {
    if found.marks.repeats && !feeds_nothing_round(model, allowed) {
        let walked = Walk::new(model, &found.store, allowed).walk(limits);
        if walked != Endless::No {
            return walked;
        }
    }
    match found.cut {
        None => Endless::No,
        Some(cut) => Endless::Unknown(cut),
    }
}

/// Whether the tokens that repeated takes bring about go round nowhere, so that
/// no run goes on for ever and no situation has to be looked at.
///
/// Say that a tray feeds another one if a repeated take of the first opens what
/// may put into the second without a further repeated take. In a run without end
/// some trays are taken from by repeated takes without end, so tokens are put
/// into each of them without end. All but finitely many of these puts come from
/// a repeated take, and so from one that acts without end: each of these trays
/// is fed by one of them. They are finitely many, so some tray feeds itself, at
/// once or through others.
#[must_use]
pub fn feeds_nothing_round(model: &Model, allowed: Allowed) -> bool {
    let puts = puts_of_codes(model, allowed);
    let mut fed: Vec<u16> = vec![0; model.trays().len()];
    for kind in model.kinds() {
        if let Kind::Take {
            slot, opens, stays, ..
        } = kind
        {
            if let Some(fed) = fed.get_mut(*slot).filter(|_| *stays) {
                *fed |= all_of(&puts, opens);
            }
        }
    }
    // What is fed through others too.
    for _ in 0..fed.len() {
        let by_others = fed.clone();
        for slots in &mut fed {
            let through = (0..)
                .zip(&by_others)
                .filter(|(at, _)| *slots >> at & 1 == 1);
            *slots = through.fold(*slots, |slots, (_, more)| slots | more);
        }
    }
    (0..).zip(&fed).all(|(at, slots)| slots >> at & 1 == 0)
}

/// For each code the slots that a station of it may put into, by itself and by
/// what it opens, a bit for each; behind a repeated take nothing is counted.
fn puts_of_codes(model: &Model, allowed: Allowed) -> Vec<u16> {
    let mut puts = vec![0; model.kinds().len()];
    // A station opens parts of itself alone, so this comes to an end.
    loop {
        let before = puts.clone();
        for (kind, puts) in model.kinds().iter().zip(&mut puts) {
            *puts |= match kind {
                Kind::Put { slot } => 1 << slot,
                Kind::Take { stays: true, .. } => 0,
                Kind::Take { opens, .. } => all_of(&before, opens),
                Kind::Block { ways, .. } if allowed == Allowed::Any => ways
                    .iter()
                    .fold(0, |slots, way| slots | all_of(&before, &way.puts)),
                Kind::Block { .. } => 0,
                Kind::Noted { block, .. } => all_of(&before, &[*block]),
            };
        }
        if puts == before {
            return puts;
        }
    }
}

fn all_of(puts: &[u16], codes: &[u8]) -> u16 {
    codes.iter().fold(0, |slots, code| {
        slots | puts.get(usize::from(*code)).copied().unwrap_or(0)
    })
}

/// How far a situation is gone through.
#[derive(Clone, Copy, Debug, PartialEq, Eq)]
enum State {
    New,
    /// The walk has come through it and may come back.
    Under,
    Done,
}

/// A situation of the walk, and where its followers begin.
struct Frame {
    index: Index,
    followers: usize,
}

struct Walk<'a> {
    stepper: Stepper<'a>,
    store: &'a Situations,
    /// The situation that is gone on from, and one that is looked for.
    situation: Vec<u8>,
    packed: Vec<u8>,
    allowed: Allowed,
    states: Vec<State>,
    frames: Vec<Frame>,
    /// The situations that are still to be looked at, those of the last frame
    /// last.
    followers: Vec<Index>,
}

const BETWEEN_LOOKS: u32 = 1 << 12;

impl<'a> Walk<'a> {
    fn new(model: &'a Model, store: &'a Situations, allowed: Allowed) -> Walk<'a> {
        Walk {
            stepper: Stepper::new(model),
            store,
            situation: Vec::new(),
            packed: Vec::new(),
            allowed,
            states: vec![State::New; store.len()],
            frames: Vec::new(),
            followers: Vec::new(),
        }
    }

    fn walk(mut self, limits: Limits) -> Endless {
        let mut until_look = 0;
        for root in self.store.indexes() {
            if self.state(root) == State::New {
                self.enter(root);
            }
            while let Some(frame) = self.frames.last() {
                if until_look == 0 {
                    until_look = BETWEEN_LOOKS;
                    if let Some(cut) = limits.met(self.memory()) {
                        return Endless::Unknown(cut);
                    }
                }
                until_look -= 1;
                if self.followers.len() > frame.followers {
                    if let Some(round) = self.look_at_next() {
                        return Endless::Round(round);
                    }
                } else {
                    self.leave();
                }
            }
        }
        Endless::No
    }

    fn look_at_next(&mut self) -> Option<Vec<Index>> {
        let next = self.followers.pop()?;
        match self.state(next) {
            State::New => self.enter(next),
            State::Under => return Some(self.round(next)),
            State::Done => {}
        }
        None
    }

    /// From where the situation was entered to where it is met again.
    fn round(&self, met: Index) -> Vec<Index> {
        self.frames
            .iter()
            .map(|frame| frame.index)
            .skip_while(|index| *index != met)
            .chain([met])
            .collect()
    }

    fn enter(&mut self, index: Index) {
        self.set(index, State::Under);
        self.frames.push(Frame {
            index,
            followers: self.followers.len(),
        });
        let Walk {
            stepper,
            store,
            situation,
            packed,
            allowed,
            followers,
            ..
        } = self;
        store.read(index, situation);
        stepper.each(situation, |step, tried| {
            let commit = matches!(step.deed, Deed::Commit(_));
            if commit && *allowed == Allowed::NoCommit {
                return;
            }
            if let Tried::To(next) = tried {
                // Only where the search was cut short is one not kept.
                followers.extend(store.find_with(next, packed));
            }
        });
    }

    fn leave(&mut self) {
        if let Some(frame) = self.frames.pop() {
            self.set(frame.index, State::Done);
        }
    }

    fn state(&self, index: Index) -> State {
        let at = usize::try_from(index).unwrap_or(usize::MAX);
        self.states.get(at).copied().unwrap_or(State::Done)
    }

    fn set(&mut self, index: Index, state: State) {
        let at = usize::try_from(index).unwrap_or(usize::MAX);
        if let Some(slot) = self.states.get_mut(at) {
            *slot = state;
        }
    }

    fn memory(&self) -> usize {
        self.store.memory()
            + self.states.len()
            + self.frames.len() * size_of::<Frame>()
            + self.followers.len() * size_of::<Index>()
    }
}
