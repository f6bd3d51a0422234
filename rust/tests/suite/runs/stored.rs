//! Halls that no run reached, at the limits of the stored form: a full hall has
//! no byte behind its last station.

use reference::build::Builder;
use reference::run::Tally;
use ruonfidd::HALL_BYTES;

use crate::common::by_hand::{attempt, hall, joined, leaf, leaning_left, leaning_right};
use crate::common::by_hand::{BARE_RETRY, PUTTING, WAITING};
use crate::common::calls::{Met, Sequence};

const END: u8 = 0;
const RD: u8 = 1;
const BLOCK: u8 = 4;

/// An end, a read, a write, an alternative, a block of an end, a put.
fn table() -> Vec<u8> {
    let mut table = Builder::new();
    assert_eq!(table.end(), END);
    assert_eq!(table.rd(0, END), RD);
    let write = table.wt(15, RD);
    table.or_else(write, END);
    assert_eq!(table.atom(END), BLOCK);
    let put = table.put(0);
    table.start(put)
}

/// An attempt of 177 bytes, the most that one can take.
fn widest(leaves: &[Vec<u8>; 8], to_the_left: bool) -> Vec<u8> {
    let nodes = if to_the_left {
        leaning_left(leaves)
    } else {
        leaning_right(leaves)
    };
    attempt(BLOCK, &nodes)
}

/// Leaves with long logs; the first one has ended, and the last byte is no zero.
fn leaves() -> [Vec<u8>; 8] {
    let full = |term, length: u8| leaf(term, length, &vec![16; usize::from(length)]);
    [
        full(END, 16),
        full(RD, 0),
        full(RD, 15),
        full(2, 14),
        full(END, 1),
        full(END, 0),
        full(BARE_RETRY, 3),
        full(BARE_RETRY, 16),
    ]
}

/// Every choice at the first, a middle and the last station of a hall that
/// fills its bytes to the last one.
#[test]
fn every_choice_of_a_full_hall() {
    let mut met = Met::default();
    let stations: Vec<Vec<u8>> = (0..64)
        .map(|number| widest(&leaves(), number % 2 == 0))
        .collect();
    let stored = hall(&stations.concat());
    assert_eq!(stations.concat().len(), HALL_BYTES - 16);
    let sequence = Sequence::new(&table(), &stored, Tally::FRESH);
    for position in [0, 1, 31, 32, 62, 63] {
        for node in 0..16 {
            let mut copy = sequence.copy();
            copy.step([2, position, node]);
            // Once more on what the choice left, at its end and behind it.
            copy.step([2, position, 0]);
            copy.step([2, 63, 1]);
            copy.run(&[2, 63, 0, 2, 0, 3, 2, 62, 1]);
            copy.suggest();
            met.add(&copy.met);
        }
    }
    assert_eq!(met.calls, 6 * 16 * 5);
    // Reads, writes, and forks that keep a side.
    for rule in [9, 10, 12, 13] {
        assert!(met.rules[rule] >= 3, "rule {rule}: {met}");
    }
}

/// A full hall is emptied from the front and from the back, and each time zeros
/// are left behind.
#[test]
fn a_full_hall_that_shrinks() {
    let stations = widest(&leaves(), false).repeat(64);
    for position in [0, 30, 63] {
        let mut sequence = Sequence::new(&table(), &hall(&stations), Tally::FRESH);
        // The left side of the first fork has ended: one leaf remains.
        assert_eq!(sequence.step([2, position, 0]), (0, 3, 13));
        let used = HALL_BYTES - 177 + 37;
        assert!(sequence.hall[used..].iter().all(|byte| *byte == 0));
        assert_ne!(sequence.hall[used - 1], 0);
        // Sixteen writes do not fit.
        assert_eq!(sequence.step([1, position, 0]), (19, 0, 0));
    }
}

/// An alternative opens while every other station is as large as it can be.
#[test]
fn a_fork_that_fills_the_hall() {
    let mut leaves = leaves();
    // Seven leaves of which one has two branches.
    leaves[3] = leaf(3, 2, &[31, 31]);
    let seven = attempt(BLOCK, &leaning_right(&leaves[..7]));
    let full = widest(&self::leaves(), true);
    for position in [0, 40, 63] {
        let mut stations = vec![full.clone(); 64];
        stations[position] = seven.clone();
        let stored = hall(&stations.concat());
        let mut sequence = Sequence::new(&table(), &stored, Tally::FRESH);
        let place = u8::try_from(position).expect("a position");
        // Forks and leaves by turns: the fourth leaf is node 7.
        assert_eq!(sequence.step([2, place, 7]), (0, 3, 11));
        assert_ne!(sequence.hall[HALL_BYTES - 19], 0);
        assert_eq!(sequence.step([2, place, 8]), (0, 3, 10));
        assert_eq!(sequence.step([2, place, 8]), (0, 3, 9));
        assert_eq!(sequence.step([2, place, 7]), (0, 3, 12));
    }
}

/// Leaves and logs that do not come from their block, over trays that its terms
/// never name.
#[test]
fn foreign_leaves() {
    let log: Vec<u8> = (0..16).rev().collect();
    let stations = joined(&[
        &[PUTTING, 3],
        &attempt(BLOCK, &leaf(END, 16, &log)),
        &[WAITING, BLOCK],
    ]);
    for short in 0..16 {
        let mut stored = hall(&stations);
        stored[..16].copy_from_slice(&[1; 16]);
        let mut enough = Sequence::new(&table(), &stored, Tally::FRESH);
        assert_eq!(enough.step([1, 1, 0]), (0, 2, 7));
        assert!(enough.hall[..16] == [0; 16]);
        stored[short] = 0;
        let mut lacking = Sequence::new(&table(), &stored, Tally::FRESH);
        assert_eq!(lacking.step([1, 1, 0]), (0, 2, 6));
    }
}
