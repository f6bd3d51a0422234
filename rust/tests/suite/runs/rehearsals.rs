//! The scope's rehearsals that run choices, through the exports. (Those of the
//! table's limits are among the tests on tables.)

use reference::build::Builder;
use reference::run::Tally;

use crate::common::by_hand::{attempt, hall, leaf};
use crate::common::by_hand::{ATTEMPT, BARE_RETRY, EXAMPLE, PUTTING, WAITING};
use crate::common::calls::Sequence;

/// One choice: these three bytes are done by this rule.
#[track_caller]
fn does(sequence: &mut Sequence, choice: [u8; 3], rule: u8) {
    let place = if choice[0] == 1 { 2 } else { 3 };
    assert_eq!(sequence.step(choice), (0, place, rule), "{sequence}");
}

/// The hall has these counts, then zeros, and these stations.
#[track_caller]
fn stands(sequence: &Sequence, counts: &[u8], stations: &[u8]) {
    let mut expected = hall(stations);
    expected[..counts.len()].copy_from_slice(counts);
    assert!(sequence.hall == expected, "{sequence}");
}

fn tally(commits: u32, failed: u32, retries: u32) -> Tally {
    Tally {
        commits,
        failed,
        retries,
    }
}

#[test]
fn the_printed_run() {
    let mut sequence = Sequence::open(&EXAMPLE);
    let choices = [1, 0, 2, 0, 0, 2, 0, 0, 1, 0, 1, 0];
    assert_eq!(sequence.run(&choices), (0, 12, 5));
    stands(&sequence, &[0, 1], &[]);
    assert_eq!(sequence.tally, tally(1, 0, 0));
    // And choice by choice.
    let mut sequence = Sequence::open(&EXAMPLE);
    does(&mut sequence, [1, 0, 0], 4);
    does(&mut sequence, [2, 0, 0], 8);
    does(&mut sequence, [2, 0, 0], 10);
    stands(&sequence, &[1], &with_snapshot(&[1], &leaf(0, 2, &[0, 17])));
    does(&mut sequence, [1, 0, 0], 7);
    stands(&sequence, &[], &[PUTTING, 1]);
    does(&mut sequence, [1, 0, 0], 1);
    stands(&sequence, &[0, 1], &[]);
    assert_eq!(sequence.tally, tally(1, 0, 0));
}

/// An attempt at block 3 with these counts as its snapshot.
fn with_snapshot(counts: &[u8], nodes: &[u8]) -> Vec<u8> {
    let mut bytes = attempt(3, nodes);
    assert_eq!(bytes[0], ATTEMPT);
    bytes[2..2 + counts.len()].copy_from_slice(counts);
    bytes
}

/// The first path finds too little at its second read: its log goes with it.
#[test]
fn the_log_of_a_dropped_branch_is_gone() {
    let mut table = Builder::new();
    let end = table.end();
    let write = table.wt(2, end);
    let read = table.rd(1, write);
    let left = table.rd(0, read);
    let right = table.wt(3, end);
    let either = table.or_else(left, right);
    let block = table.atom(either);
    table.tokens(0, 1);
    // The right side writes beside the retry, or when it is alone.
    for beside in [true, false] {
        let mut sequence = Sequence::open(&table.start(block));
        does(&mut sequence, [1, 0, 0], 4);
        does(&mut sequence, [2, 0, 0], 11);
        does(&mut sequence, [2, 0, 1], 8);
        does(&mut sequence, [2, 0, 1], 9);
        if beside {
            does(&mut sequence, [2, 0, 2], 10);
            does(&mut sequence, [2, 0, 0], 12);
        } else {
            does(&mut sequence, [2, 0, 0], 12);
            does(&mut sequence, [2, 0, 0], 10);
        }
        let mut expected = with_snapshot(&[1], &leaf(end, 1, &[19]));
        expected[1] = block;
        stands(&sequence, &[1], &expected);
        does(&mut sequence, [1, 0, 0], 7);
        stands(&sequence, &[1], &[PUTTING, 3]);
        assert_eq!(sequence.tally, tally(1, 0, 0));
    }
}

/// Two reads of a tray with one token.
#[test]
fn reads_are_counted() {
    let mut table = Builder::new();
    let end = table.end();
    let one = table.rd(0, end);
    let two = table.rd(0, one);
    let block = table.atom(two);
    table.tokens(0, 1);
    let mut sequence = Sequence::open(&table.start(block));
    does(&mut sequence, [1, 0, 0], 4);
    does(&mut sequence, [2, 0, 0], 8);
    does(&mut sequence, [2, 0, 0], 9);
    let mut expected = with_snapshot(&[1], &leaf(BARE_RETRY, 1, &[0]));
    expected[1] = block;
    stands(&sequence, &[1], &expected);
    does(&mut sequence, [1, 0, 0], 5);
    stands(&sequence, &[1], &[WAITING, block]);
    assert_eq!(sequence.tally, tally(0, 0, 1));
}

/// The commit is held against the counts of now and not the snapshot.
#[test]
fn two_blocks_for_one_token() {
    let mut table = Builder::new();
    let end = table.end();
    let read = table.rd(0, end);
    let block = table.atom(read);
    let both = table.side_by_side(block, block);
    table.tokens(0, 1);
    let mut sequence = Sequence::open(&table.start(both));
    does(&mut sequence, [1, 0, 0], 4);
    does(&mut sequence, [1, 1, 0], 4);
    does(&mut sequence, [2, 0, 0], 8);
    does(&mut sequence, [2, 1, 0], 8);
    does(&mut sequence, [1, 0, 0], 7);
    does(&mut sequence, [1, 0, 0], 6);
    stands(&sequence, &[], &[WAITING, block]);
    assert_eq!(sequence.tally, tally(1, 1, 0));
}

/// An attempt goes by its snapshot though its tray has gained meanwhile.
#[test]
fn a_tray_that_gains_during_an_attempt() {
    let mut table = Builder::new();
    let end = table.end();
    let write = table.wt(1, end);
    let left = table.rd(0, write);
    let right = table.wt(2, end);
    let either = table.or_else(left, right);
    let block = table.atom(either);
    let put = table.put(0);
    let both = table.side_by_side(put, block);
    let mut sequence = Sequence::open(&table.start(both));
    does(&mut sequence, [1, 1, 0], 4);
    does(&mut sequence, [1, 0, 0], 1);
    does(&mut sequence, [2, 0, 0], 11);
    does(&mut sequence, [2, 0, 1], 9);
    does(&mut sequence, [2, 0, 0], 12);
    does(&mut sequence, [2, 0, 0], 10);
    does(&mut sequence, [1, 0, 0], 7);
    stands(&sequence, &[1], &[PUTTING, 2]);
}

/// What an attempt has written itself is not there for it to read.
#[test]
fn a_read_behind_a_write() {
    let mut table = Builder::new();
    let end = table.end();
    let read = table.rd(0, end);
    let write = table.wt(0, read);
    let block = table.atom(write);
    let mut sequence = Sequence::open(&table.start(block));
    does(&mut sequence, [1, 0, 0], 4);
    does(&mut sequence, [2, 0, 0], 10);
    does(&mut sequence, [2, 0, 0], 9);
    does(&mut sequence, [1, 0, 0], 5);
    stands(&sequence, &[], &[WAITING, block]);
}

#[test]
fn a_put_at_254_and_at_255() {
    let mut table = Builder::new();
    let put = table.put(0);
    let both = table.side_by_side(put, put);
    table.tokens(0, 254);
    let mut sequence = Sequence::open(&table.start(both));
    does(&mut sequence, [1, 1, 0], 1);
    stands(&sequence, &[255], &[PUTTING, 0]);
    assert_eq!(sequence.step([1, 0, 0]), (20, 0, 0));
    assert_eq!(sequence.run(&[1, 0]), (20, 0, 0));
    stands(&sequence, &[255], &[PUTTING, 0]);
}
