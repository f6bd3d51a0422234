//! Leaves: their terms, their logs, and both together.

use reference::build::Builder;

use super::nodes_are;
use crate::common::answers::{hall_gives, ACCEPTED};
use crate::common::by_hand::BARE_RETRY;
use crate::common::by_hand::{attempt, each_kind, hall, leaf, leaning_left, leaning_right};

/// Expressions, and 255 for a retry without a record.
#[test]
fn every_term_at_a_leaf() {
    for term in 0..=255 {
        let is_expression = each_kind::EXPRESSIONS.contains(&term) || term == BARE_RETRY;
        nodes_are(&leaf(term, 0, &[]), is_expression);
    }
}

/// A leaf need not come from its block.
#[test]
fn a_leaf_of_another_expression() {
    let mut table = Builder::new();
    let end = table.end();
    let block = table.atom(end);
    let other = table.wt(3, end);
    let bytes = table.start(block);
    hall_gives(
        &bytes,
        &hall(&attempt(block, &leaf(other, 0, &[]))),
        ACCEPTED,
    );
}

/// A retry without a record is there though the table has one, or none.
#[test]
fn a_retry_without_a_record() {
    let table = [7, 6, 0, 13, 1];
    let running = hall(&attempt(1, &leaf(BARE_RETRY, 0, &[])));
    hall_gives(&table, &running, ACCEPTED);
    nodes_are(&leaf(BARE_RETRY, 0, &[]), true);
    nodes_are(&leaf(each_kind::RETRY, 0, &[]), true);
}

/// 0 to 16, behind an end; the log is as long as it says, or full.
#[test]
fn every_log_length() {
    for length in 0..=255 {
        let entries = usize::from(length).min(16);
        nodes_are(
            &leaf(each_kind::END, length, &vec![31; entries]),
            length <= 16,
        );
        nodes_are(&leaf(each_kind::END, length, &[]), length <= 16);
    }
}

/// Reads and writes of the 16 trays, at the first place, in the middle and at
/// the last place.
#[test]
fn every_log_byte() {
    for byte in 0..=255 {
        for at in [0, 7, 15] {
            let mut log = [5; 16];
            log[at] = byte;
            nodes_are(&leaf(each_kind::END, 16, &log), byte <= 31);
        }
        nodes_are(&leaf(each_kind::END, 1, &[byte]), byte <= 31);
    }
}

/// Behind the log's entries there are zeros, up to the sixteenth byte.
#[test]
fn a_byte_past_the_log_length() {
    for length in 0..16 {
        let entries = usize::from(length);
        for at in entries..16 {
            for byte in [1, 16, 31, 255] {
                let mut log = [0; 16];
                log[..entries].fill(9);
                log[at] = byte;
                nodes_are(&leaf(each_kind::END, length, &log), false);
            }
        }
    }
}

/// A log may be longer than its snapshot has tokens, and may read and write the
/// same tray any number of times.
#[test]
fn a_log_need_not_fit_its_snapshot() {
    nodes_are(&leaf(each_kind::END, 16, &[3; 16]), true);
    nodes_are(&leaf(each_kind::END, 16, &[19; 16]), true);
    nodes_are(&leaf(each_kind::RETRY, 2, &[3, 19]), true);
}

/// A table in which term `n`, 0 to 16, is an expression of length `n`, and its
/// last term a block.
fn lengths(kinds: [u8; 2], end: u8) -> (Vec<u8>, u8) {
    let mut table = Builder::new();
    let mut last = table.term(&[end]);
    for kind in kinds.repeat(8) {
        last = table.term(&[kind, 4, last]);
    }
    assert_eq!(last, 16);
    let block = table.atom(0);
    (table.start(block), block)
}

/// The log's length and the length of the term are at most 16 together.
#[test]
fn log_length_and_term_length() {
    for kinds in [[9, 9], [10, 10], [9, 10]] {
        for end in [7, 8] {
            let (table, block) = lengths(kinds, end);
            for term in 0..=16 {
                for length in 0..=16 {
                    let nodes = leaf(term, length, &vec![2; usize::from(length)]);
                    let answer = if term + length <= 16 {
                        ACCEPTED
                    } else {
                        (11, 0)
                    };
                    hall_gives(&table, &hall(&attempt(block, &nodes)), answer);
                }
            }
        }
    }
}

/// Of an alternative the longer side counts.
#[test]
fn log_length_and_the_length_of_an_alternative() {
    let mut table = Builder::new();
    let end = table.end();
    let short = table.rd(0, end);
    let long = (0..6).fold(end, |all, _| table.wt(1, all));
    let left = table.or_else(long, short);
    let right = table.or_else(short, long);
    let block = table.atom(end);
    let bytes = table.start(block);
    for term in [left, right] {
        for length in 0..=16 {
            let nodes = leaf(term, length, &vec![2; usize::from(length)]);
            let answer = if length <= 10 { ACCEPTED } else { (11, 0) };
            hall_gives(&bytes, &hall(&attempt(block, &nodes)), answer);
        }
    }
}

/// A retry without a record has length 0: its log may have 16 entries.
#[test]
fn log_length_of_a_retry_without_a_record() {
    for length in 0..=17 {
        let log = vec![31; usize::from(length).min(16)];
        nodes_are(&leaf(BARE_RETRY, length, &log), length <= 16);
    }
}

/// Each leaf of a tree is tested, not the first alone.
#[test]
fn every_leaf_of_a_tree() {
    let good = leaf(each_kind::END, 1, &[17]);
    let bad = [
        leaf(each_kind::NIL, 0, &[]),
        leaf(each_kind::END, 17, &[]),
        leaf(each_kind::END, 1, &[32]),
        leaf(each_kind::END, 0, &[1]),
        leaf(each_kind::WT, 15, &[1; 15]),
    ];
    for leaves in 1..=8 {
        let all = vec![good.clone(); leaves];
        nodes_are(&leaning_left(&all), true);
        nodes_are(&leaning_right(&all), true);
        for at in 0..leaves {
            for bad in &bad {
                let mut one_bad = all.clone();
                one_bad[at].clone_from(bad);
                nodes_are(&leaning_left(&one_bad), false);
                nodes_are(&leaning_right(&one_bad), false);
            }
        }
    }
}
