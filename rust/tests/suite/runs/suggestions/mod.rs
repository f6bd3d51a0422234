//! Suggestions: the first accepted choice, lowest position and then lowest node,
//! to the byte; still where none is accepted.

mod by_chance;
mod of_one;
mod of_several;

use reference::choice::Choice;
use reference::run::Tally;

use crate::common::by_hand::{each_kind, hall};
use crate::common::calls::Sequence;
use crate::ffi;

/// A hall of the table with a term of each kind.
fn sequence(counts: &[u8], stations: &[u8]) -> Sequence {
    let mut stored = hall(stations);
    stored[..counts.len()].copy_from_slice(counts);
    Sequence::new(&each_kind::table(), &stored, Tally::FRESH)
}

fn act(position: u8) -> Choice {
    Choice::Act { position }
}

fn inside(position: u8, node: u8) -> Choice {
    Choice::Inside { position, node }
}

/// Whether a step of the engine accepts a choice of these bytes. Refused, it has
/// left the hall as it was.
fn step_accepts(table: &[u8], hall: &mut [u8], choice: [u8; 3]) -> bool {
    let (tally, shortage) = (&mut [0; 3], &mut [0; 2]);
    ffi::step(table, hall, choice, tally, &mut 0, shortage, &mut 0) == 0
}
