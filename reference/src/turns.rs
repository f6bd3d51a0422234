//! The opening as a loop: turn by turn over the terms still to open, at most
//! one station a turn (document 02, Q-4).
//!
//! [`stations_of`](crate::hall::stations_of), which opens halls here, goes down
//! both sides of a term by calling itself. The two share no code, so that each
//! can be held against the other.

use crate::hall::Station;
use crate::table::{Table, Term};

/// What one turn of an opening did.
#[derive(Clone, Debug, PartialEq, Eq)]
pub enum Turn {
    /// One station was laid down, to the right of those laid before.
    Laid {
        /// The station, waiting or putting.
        station: Station,
        /// How many terms are then still to open.
        to_open: usize,
    },
    /// No station was laid down: the term was nil, or two processes side by
    /// side, which then are the next two terms.
    Nothing {
        /// How many terms are then still to open.
        to_open: usize,
    },
    /// There is no such turn, since no term was left for it.
    PastTheEnd,
}

/// An opening under way.
#[derive(Clone, Debug)]
pub struct Opening<'a> {
    table: &'a Table,
    /// The terms still to open. The next one is the last, so that a term's sides
    /// can take its place without moving the others.
    stack: Vec<usize>,
}

impl Opening<'_> {
    /// An opening of which no turn was done: the start process alone is to open.
    pub fn new(table: &Table) -> Opening<'_> {
        Opening {
            table,
            stack: vec![table.start],
        }
    }

    /// The terms still to open, the next one first.
    pub fn terms(&self) -> Vec<usize> {
        self.stack.iter().rev().copied().collect()
    }

    /// Does the next turn.
    pub fn turn(&mut self) -> Turn {
        let Some(term) = self.stack.pop() else {
            return Turn::PastTheEnd;
        };
        let laid = self.open(term);
        let to_open = self.stack.len();
        match laid {
            Some(station) => Turn::Laid { station, to_open },
            None => Turn::Nothing { to_open },
        }
    }

    /// The station of a term that was taken off the stack, if it has one of its
    /// own. The sides of a side-by-side term go on the stack, the right one first:
    /// the left one is then next.
    fn open(&mut self, term: usize) -> Option<Station> {
        match self.table.terms[term] {
            Term::Nil => None,
            Term::SideBySide { left, right } => {
                self.stack.push(right);
                self.stack.push(left);
                None
            }
            Term::Put { tray } => Some(Station::Putting { tray }),
            _ => Some(Station::Waiting { term }),
        }
    }
}

/// The turn with this number, counted from 0, of a table's opening. No turn
/// follows one past the end, so the number may be as large as it likes.
pub fn turn_of(table: &Table, number: usize) -> Turn {
    let mut opening = Opening::new(table);
    for _ in 0..number {
        if opening.turn() == Turn::PastTheEnd {
            return Turn::PastTheEnd;
        }
    }
    opening.turn()
}
