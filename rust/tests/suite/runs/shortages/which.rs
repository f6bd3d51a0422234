//! Which of several trays is told, and by which counts.

use reference::choice::whole_choices;
use reference::edges::{lines, Line};
use reference::moves::{ARDF, ARDOK, ATFAIL, ATOK};
use reference::print::table_end;

use super::{commit, commit_fails, counts, log, made, read, read_fails, reads, BLOCK, END};
use crate::common::by_hand::{attempt, hall, joined, leaf, leaning_right};
use crate::common::by_hand::{FORK, PUTTING, WAITING};
use crate::common::calls::Sequence;
use crate::common::choices::step_bytes;

/// The lowest is told with its own shortage, wherever it stands in the log, and
/// whether it lacks more than the others or less.
#[test]
fn the_lowest_of_two() {
    for low in 0..15 {
        for high in low + 1..16 {
            for (of_low, of_high) in [(1, 1), (1, 3), (3, 1)] {
                let there = counts(&[(low, 0), (high, 0)]);
                let told = (low, u8::try_from(of_low).expect("a shortage"));
                let low_first = log(&[(low, of_low), (high, of_high)]);
                let high_first = log(&[(high, of_high), (low, of_low)]);
                for all in [&low_first, &high_first] {
                    commit_fails(there, all, told);
                    let (last, so_far) = all.split_last().expect("a read");
                    read_fails(there, so_far, *last, told);
                }
            }
        }
    }
}

/// A lower tray that is read as often as it has tokens is not short.
#[test]
fn a_lower_tray_that_has_enough() {
    for (count, told) in [(1, (2, 2)), (2, (2, 1)), (3, (9, 4)), (4, (9, 4))] {
        let there = counts(&[(2, count), (9, 1)]);
        let all = log(&[(9, 5), (2, 3)]);
        commit_fails(there, &all, told);
        read_fails(there, &all[1..], 9, told);
    }
}

/// All sixteen trays are short, then all but the first, and so on.
#[test]
fn the_lowest_of_all() {
    let all: Vec<u8> = (0..16).rev().collect();
    for lowest in 0..16 {
        let enough: Vec<(u8, u8)> = (0..16)
            .map(|tray| (tray, u8::from(tray < lowest)))
            .collect();
        let there = counts(&enough);
        commit_fails(there, &all, (lowest, 1));
        let (last, so_far) = all.split_last().expect("a read");
        read_fails(there, so_far, *last, (lowest, 1));
    }
}

/// A tray that is empty and not read is not short.
#[test]
fn an_empty_tray_that_is_not_read() {
    let there = counts(&[(0, 0), (3, 0), (15, 0)]);
    commit_fails(there, &[3], (3, 1));
    read_fails(there, &[], 3, (3, 1));
    commit_fails(there, &[16, 3, 31], (3, 1));
    assert_eq!(commit(there, [255; 16], &[1, 2]), (ATOK, None));
}

/// At the commit the counts of now are told of, though the snapshot lacks another
/// tray, or the same one by more or by less.
#[test]
fn a_commit_goes_by_the_counts_of_now() {
    let all = log(&[(4, 3), (6, 2)]);
    for snapshot in [
        [0; 16],
        [255; 16],
        counts(&[(4, 0)]),
        counts(&[(4, 2)]),
        counts(&[(6, 1)]),
    ] {
        let told = |now| commit(now, snapshot, &all);
        assert_eq!(told(counts(&[(4, 1)])), (ATFAIL, Some((4, 2))));
        assert_eq!(told(counts(&[(4, 0)])), (ATFAIL, Some((4, 3))));
        assert_eq!(told(counts(&[(6, 1)])), (ATFAIL, Some((6, 1))));
        assert_eq!(told(counts(&[(4, 3), (6, 2)])), (ATOK, None));
    }
}

/// A read is told of by the snapshot, whatever the counts of now are.
#[test]
fn a_read_goes_by_the_snapshot() {
    let so_far = log(&[(4, 3), (6, 1)]);
    for now in [
        [0; 16],
        [255; 16],
        counts(&[(4, 0)]),
        counts(&[(4, 2)]),
        counts(&[(6, 1)]),
    ] {
        let told = |snapshot| read(now, snapshot, &so_far, 6);
        assert_eq!(told(counts(&[(4, 1)])), (ARDF, Some((4, 2))));
        assert_eq!(told(counts(&[(4, 0)])), (ARDF, Some((4, 3))));
        assert_eq!(told(counts(&[(6, 1)])), (ARDF, Some((6, 1))));
        assert_eq!(told(counts(&[(6, 0)])), (ARDF, Some((6, 2))));
        assert_eq!(told(counts(&[(4, 3), (6, 2)])), (ARDOK, None));
    }
}

/// A read behind a log that the snapshot lacks tells of the log: another tray than
/// the one read, which has enough, and by more than one. (No run comes to such a
/// log.)
#[test]
fn another_tray_than_the_one_read() {
    read_fails(counts(&[(7, 0)]), &log(&[(7, 5)]), 2, (7, 5));
    read_fails(counts(&[(7, 0)]), &log(&[(7, 5)]), 12, (7, 5));
    // The one read is short too: the lower one is told.
    read_fails(counts(&[(7, 0), (2, 0)]), &log(&[(7, 5)]), 2, (2, 1));
    read_fails(counts(&[(7, 0), (12, 0)]), &log(&[(7, 5)]), 12, (7, 5));
    // The same tray, of which the log had too many before.
    read_fails(counts(&[(7, 1)]), &log(&[(7, 5)]), 7, (7, 5));
}

/// Stations before and behind an attempt, each part as it is stored.
fn among(before: &[u8], of_block: &[u8], behind: &[u8]) -> Vec<u8> {
    hall(&joined(&[before, of_block, behind]))
}

/// The station that the choice names, and the node.
#[test]
fn one_attempt_of_several() {
    let short_of = |tray, times| attempt(BLOCK, &leaf(END, times, &vec![tray; usize::from(times)]));
    let three = joined(&[&short_of(3, 1), &short_of(5, 2), &short_of(0, 3)]);
    let stored = among(&[PUTTING, 9], &three, &[WAITING, BLOCK]);
    for (position, told) in [(1, (3, 1)), (2, (5, 2)), (3, (0, 3))] {
        assert_eq!(made(&stored, [1, position, 0]), (ATFAIL, Some(told)));
    }
    // Leaves below forks, each with a log of its own.
    let nodes = leaning_right(&[
        leaf(reads(8), 0, &[]),
        leaf(reads(1), 2, &[1, 1]),
        leaf(reads(11), 1, &[4]),
    ]);
    assert_eq!(nodes[0], FORK);
    let stored = among(&[WAITING, BLOCK], &attempt(BLOCK, &nodes), &[PUTTING, 9]);
    for (node, told) in [(1, (8, 1)), (3, (1, 3)), (4, (4, 1))] {
        assert_eq!(made(&stored, [2, 1, node]), (ARDF, Some(told)));
    }
}

/// The examples of the document on the byte forms: what stands above the run of
/// rule 6, and of rule 9, is what its last choice tells.
#[test]
fn the_examples_of_the_byte_forms() {
    const FORMAT: &str = include_str!("../../../../../docs/FORMAT.md");
    for (name, rule) in [("ATFAIL", ATFAIL), ("ARDF", ARDF)] {
        let heading = format!("\n**{rule} {name}**");
        let (_, part) = FORMAT.split_once(&heading).expect("a rule's paragraph");
        let (words, block) = part.split_once("\n```run\n").expect("an example");
        let input = block.lines().next().expect("an input's line");
        let Line::Input { input, .. } = &lines(&format!("example:{input}\n"))[0] else {
            panic!("{input} is not an input");
        };
        let (table, choices) = input.split_at(table_end(input));
        let mut sequence = Sequence::open(table);
        let mut last = (0, None);
        for choice in whole_choices(choices) {
            let ((_, _, rule), told) = sequence.step_told(step_bytes(choice, 0));
            last = (rule, told);
        }
        let (tray, by) = last.1.expect("a shortage");
        assert_eq!(last.0, rule);
        assert!(words.contains(&format!("`{tray} {by}`")), "{words}");
    }
}
