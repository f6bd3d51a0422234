//! One choice, what an accepted one did, why one was refused, and what ends a
//! list of them.

use std::error::Error;
use std::fmt;

use crate::{say, Answer, Refusal, Sentence, Shortage};

/// One choice. Positions and nodes count from 0. A node of an attempt counts
/// before the sides below it, and those on the left before those on the right.
/// Further kinds may come.
///
/// ```
/// use ruonfidd::Choice;
///
/// let mut list = Vec::new();
/// Choice::Act { position: 0 }.write_to(&mut list);
/// Choice::Inside { position: 0, node: 3 }.write_to(&mut list);
/// assert_eq!(list, [1, 0, 2, 0, 3]);
/// ```
#[derive(Clone, Copy, Debug, PartialEq, Eq, Hash)]
#[non_exhaustive]
pub enum Choice {
    /// Kind 1: a station acts.
    Act {
        /// Which station.
        position: u8,
    },
    /// Kind 2: a move inside a station's attempt.
    Inside {
        /// Which station.
        position: u8,
        /// Which node of its attempt.
        node: u8,
    },
}

impl Choice {
    /// Adds the choice's bytes, two or three, to a list of choices.
    pub fn write_to(self, list: &mut Vec<u8>) {
        match self {
            Choice::Act { position } => list.extend([1, position]),
            Choice::Inside { position, node } => list.extend([2, position, node]),
        }
    }

    /// Kind, position and node, as [`say`] takes them. The node of a choice that
    /// has none is 0. In a list of choices such a one has two bytes, and not
    /// these: see [`Choice::write_to`].
    ///
    /// ```
    /// use ruonfidd::Choice;
    ///
    /// assert_eq!(Choice::Act { position: 5 }.to_bytes(), [1, 5, 0]);
    /// assert_eq!(Choice::Inside { position: 5, node: 3 }.to_bytes(), [2, 5, 3]);
    /// ```
    #[must_use]
    pub fn to_bytes(self) -> [u8; 3] {
        match self {
            Choice::Act { position } => [1, position, 0],
            Choice::Inside { position, node } => [2, position, node],
        }
    }

    /// The choice of these three bytes; kind 0 is none.
    pub(crate) fn from_bytes([kind, position, node]: [u8; 3]) -> Option<Choice> {
        match kind {
            0 => None,
            1 => Some(Choice::Act { position }),
            _ => Some(Choice::Inside { position, node }),
        }
    }
}

/// What an accepted choice did. It displays as its sentence.
///
/// Rules have the calculus's names, each an associated constant of this type.
///
/// ```
/// use ruonfidd::{Choice, Hall, Moved, Refusal};
///
/// // A put into tray 3.
/// let table = [2, 3, 13, 0];
/// let (mut hall, mut tally) = Hall::open(&table)?;
/// let moved = hall.step(&table, Choice::Act { position: 0 }, &mut tally)?;
/// assert_eq!(moved.rule, Moved::OUT);
/// assert_eq!(moved.to_string(), "Kind 1 at station 0 moved by rule 1, token put.");
///
/// // Two blocks that read tray 0, which has one token. Both begin and read, and the
/// // first is committed: the other, which stands first now, comes too late.
/// let table = [7, 9, 0, 0, 6, 1, 5, 2, 2, 12, 0, 1, 13, 3];
/// let (mut hall, mut tally) = Hall::open(&table)?;
/// hall.run(&table, &[1, 0, 1, 1, 2, 0, 0, 2, 1, 0, 1, 0], &mut tally)?;
/// let moved = hall.step(&table, Choice::Act { position: 0 }, &mut tally)?;
/// assert_eq!(moved.rule, Moved::ATFAIL);
/// let shortage = moved.shortage.unwrap();
/// assert_eq!((shortage.tray, shortage.by.get()), (0, 1));
/// assert_eq!(
///     moved.to_string(),
///     "Kind 1 at station 0 moved by rule 6, commit failed, tray 0 short by 1."
/// );
/// # Ok::<(), Refusal>(())
/// ```
#[derive(Clone, Copy, Debug, PartialEq, Eq, Hash)]
#[non_exhaustive]
pub struct Moved {
    /// The choice.
    pub choice: Choice,
    /// The number of the rule, 1 to 13.
    pub rule: u8,
    /// How many bytes the choice has in a list: what a run of this choice alone
    /// would give as its place.
    pub place: usize,
    /// The lowest tray that was short. [`Moved::ATFAIL`] and [`Moved::ARDF`] tell
    /// one, and no other rule does.
    pub shortage: Option<Shortage>,
}

/// Stations that are no attempts.
impl Moved {
    /// A token was put on a tray, and the station is gone.
    pub const OUT: u8 = 1;
    /// A token was taken, and what follows the take stands in its place.
    pub const IN: u8 = 2;
    /// The same by a repeated take, which stays behind what it opened.
    pub const REP: u8 = 3;
    /// A block began an attempt.
    pub const ATST: u8 = 4;
}

/// The end of an attempt.
impl Moved {
    /// It ended in retry, and the block waits again.
    pub const ATRE: u8 = 5;
    /// Its commit found too little, and the block waits again. The shortage is of
    /// the log's reads against the counts of now.
    pub const ATFAIL: u8 = 6;
    /// It was committed.
    pub const ATOK: u8 = 7;
}

/// Inside an attempt.
impl Moved {
    /// A read was logged.
    pub const ARDOK: u8 = 8;
    /// A read found too little and became a retry. The shortage is of the log's
    /// reads and this one against the attempt's snapshot: where a run from the
    /// opening reached the hall, it is of the tray that is read, by 1.
    pub const ARDF: u8 = 9;
    /// A write was logged.
    pub const AWR: u8 = 10;
    /// An alternative became a fork.
    pub const AOI: u8 = 11;
    /// A fork kept its right side.
    pub const AOF: u8 = 12;
    /// A fork kept its left side.
    pub const AOE: u8 = 13;
}

impl Moved {
    /// The choice and its rule in words, and what was short. Nothing is allocated.
    #[must_use]
    pub fn sentence(&self) -> Sentence {
        let Moved { rule, shortage, .. } = *self;
        say(self.choice.to_bytes(), Answer::Moved { rule, shortage })
    }
}

impl fmt::Display for Moved {
    fn fmt(&self, out: &mut fmt::Formatter<'_>) -> fmt::Result {
        fmt::Display::fmt(&self.sentence(), out)
    }
}

/// A choice that was refused. It displays as its sentence; the refusal, which
/// has the place too, is its source.
///
/// In a function that returns a [`Refusal`], `?` keeps the refusal alone.
///
/// ```
/// use ruonfidd::{Choice, Hall, Refusal};
///
/// // A put into tray 3.
/// let table = [2, 3, 13, 0];
/// let (mut hall, mut tally) = Hall::open(&table)?;
/// let refused = hall.step(&table, Choice::Act { position: 7 }, &mut tally).unwrap_err();
/// assert_eq!(refused.refusal.number, Refusal::NO_STATION);
/// assert_eq!(refused.to_string(), "Kind 1 at station 7 met refusal 14, no such station.");
/// # Ok::<(), Refusal>(())
/// ```
#[derive(Clone, Copy, Debug, PartialEq, Eq, Hash)]
#[non_exhaustive]
pub struct Refused {
    /// The choice.
    pub choice: Choice,
    /// Why it was refused, and where.
    pub refusal: Refusal,
}

impl Refused {
    /// The choice and its refusal in words. Nothing is allocated.
    #[must_use]
    pub fn sentence(&self) -> Sentence {
        say(self.choice.to_bytes(), Answer::Refused(self.refusal.number))
    }
}

impl fmt::Display for Refused {
    fn fmt(&self, out: &mut fmt::Formatter<'_>) -> fmt::Result {
        fmt::Display::fmt(&self.sentence(), out)
    }
}

impl Error for Refused {
    fn source(&self) -> Option<&(dyn Error + 'static)> {
        Some(&self.refusal)
    }
}

impl From<Refused> for Refusal {
    fn from(refused: Refused) -> Refusal {
        refused.refusal
    }
}

/// A run that was refused, and how many choices it had done by then.
///
/// Where the refusal is by the table or the hall, 1 to 11, none was done.
#[derive(Clone, Copy, Debug, PartialEq, Eq, Hash)]
#[non_exhaustive]
pub struct Stopped {
    /// Why it was refused, and where.
    pub refusal: Refusal,
    /// How many choices were done.
    pub done: usize,
}

impl fmt::Display for Stopped {
    fn fmt(&self, out: &mut fmt::Formatter<'_>) -> fmt::Result {
        let Stopped { refusal, done } = self;
        write!(out, "{refusal} ({done} done)")
    }
}

impl Error for Stopped {
    fn source(&self) -> Option<&(dyn Error + 'static)> {
        Some(&self.refusal)
    }
}

impl From<Stopped> for Refusal {
    fn from(stopped: Stopped) -> Refusal {
        stopped.refusal
    }
}

#[cfg(test)]
mod tests {
    use super::Choice;

    #[test]
    fn bytes_and_back() {
        for position in 0..=255 {
            let act = Choice::Act { position };
            assert_eq!(act.to_bytes(), [1, position, 0]);
            assert_eq!(Choice::from_bytes(act.to_bytes()), Some(act));
            for node in 0..=255 {
                let inside = Choice::Inside { position, node };
                assert_eq!(inside.to_bytes(), [2, position, node]);
                assert_eq!(Choice::from_bytes(inside.to_bytes()), Some(inside));
            }
        }
        assert_eq!(Choice::from_bytes([0, 0, 0]), None);
    }
}
