//! The ten rehearsals of document 01.

use reference::build::Builder;
use reference::calls::check_table;
use reference::choice::Choice;
use reference::hall::{opening, Action, Hall, Node, Station};
use reference::moves::{accepted_choices, make_move, Outcome};
use reference::print::printed_run;
use reference::run::Tally;
use reference::table::Table;

use crate::common::{accepted, act, answer, inside, moved, run_answer, run_from_opening};
use crate::common::{EXAMPLE_CHOICES, EXAMPLE_TABLE};

fn tally(commits: u32, failed: u32, retries: u32) -> Tally {
    Tally {
        commits,
        failed,
        retries,
    }
}

fn counts(first: &[u8]) -> [u8; 16] {
    let mut counts = [0; 16];
    counts[..first.len()].copy_from_slice(first);
    counts
}

/// The log of the only leaf of the attempt at the position.
fn single_log(hall: &Hall, position: usize) -> Vec<Action> {
    match &hall.stations[position] {
        Station::Attempt {
            tree: Node::Leaf(leaf),
            ..
        } => leaf.log.entries.clone(),
        other => panic!("no single leaf: {other:?}"),
    }
}

#[test]
fn rehearsal_1_the_printed_example() {
    let run = run_from_opening(&EXAMPLE_TABLE, &EXAMPLE_CHOICES);
    assert_eq!(run.answer, run_answer(0, 12, 5));
    assert_eq!(run.rules, [4, 8, 10, 7, 1]);
    assert_eq!(run.tally, tally(1, 0, 0));
    assert_eq!(run.hall.counts, counts(&[0, 1]));
    assert_eq!(run.hall.stations, []);
    let mut input = EXAMPLE_TABLE.to_vec();
    input.extend(EXAMPLE_CHOICES);
    assert_eq!(
        printed_run(&input),
        b"R 0 12 5\nC 1 0 0\nT 0 1 -1 0\nT 1 0 1 1\n"
    );
}

#[test]
fn rehearsal_1_step_by_step() {
    let expected: [&[u8]; 6] = [
        b"R 0 0 0\nC 0 0 0\nT 0 1 0 1\nW 3\n",
        b"R 0 2 1\nC 0 0 0\nT 0 1 0 1\nA 3 1\n",
        b"R 0 5 2\nC 0 0 0\nT 0 1 0 1\nA 3 1\n",
        b"R 0 8 3\nC 0 0 0\nT 0 1 0 1\nA 3 1\n",
        b"R 0 10 4\nC 1 0 0\nT 0 1 -1 0\nP 1\n",
        b"R 0 12 5\nC 1 0 0\nT 0 1 -1 0\nT 1 0 1 1\n",
    ];
    for (ends, lines) in [0, 2, 5, 8, 10, 12].iter().zip(expected) {
        let mut input = EXAMPLE_TABLE.to_vec();
        input.extend(&EXAMPLE_CHOICES[..*ends]);
        assert_eq!(printed_run(&input), lines);
    }
}

/// Two reads and a write, or else a write to tray 3; one token in tray 0.
fn table_of_rehearsal_2() -> Vec<u8> {
    let mut table = Builder::new();
    let end = table.end();
    let wt_2 = table.wt(2, end);
    let rd_1 = table.rd(1, wt_2);
    let rd_0 = table.rd(0, rd_1);
    let wt_3 = table.wt(3, end);
    let both = table.or_else(rd_0, wt_3);
    let block = table.atom(both);
    table.tokens(0, 1);
    table.start(block)
}

#[test]
fn rehearsal_2_the_given_up_branch_leaves_nothing() {
    let bytes = table_of_rehearsal_2();
    let choices = [
        1, 0, 2, 0, 0, 2, 0, 1, 2, 0, 1, 2, 0, 2, 2, 0, 0, //
    ];
    let run = run_from_opening(&bytes, &choices);
    assert_eq!(run.answer, run_answer(0, 17, 6));
    assert_eq!(run.rules, [4, 11, 8, 9, 10, 12]);
    assert_eq!(single_log(&run.hall, 0), [Action::Write(3)]);
    let mut all = choices.to_vec();
    all.extend([1, 0]);
    let run = run_from_opening(&bytes, &all);
    assert_eq!(run.answer, run_answer(0, 19, 7));
    assert_eq!(run.rules, [4, 11, 8, 9, 10, 12, 7]);
    assert_eq!(run.hall.counts, counts(&[1]));
    assert_eq!(run.hall.stations, [Station::Putting { tray: 3 }]);
    assert_eq!(run.tally, tally(1, 0, 0));
}

/// Every order of moves up to the first closing one; the closing rules.
fn every_end(table: &Table, hall: &Hall, ends: &mut Vec<(u8, Vec<Action>)>) {
    for choice in accepted_choices(table, hall) {
        let (rule, next) = moved(table, hall, choice);
        if (5..=7).contains(&rule) {
            ends.push((rule, single_log(hall, 0)));
        } else {
            every_end(table, &next, ends);
        }
    }
}

#[test]
fn rehearsal_2_in_every_order() {
    let table = accepted(&table_of_rehearsal_2());
    let mut ends = Vec::new();
    every_end(&table, &opening(&table), &mut ends);
    // After the fork: the left side's two reads; the right side's one write in
    // any of three places before the fork is closed, or after that.
    assert_eq!(ends.len(), 4);
    for end in ends {
        assert_eq!(end, (7, vec![Action::Write(3)]));
    }
}

#[test]
fn rehearsal_3_two_reads_of_one_token() {
    let mut table = Builder::new();
    let end = table.end();
    let second = table.rd(0, end);
    let first = table.rd(0, second);
    let block = table.atom(first);
    table.tokens(0, 1);
    let bytes = table.start(block);
    let run = run_from_opening(&bytes, &[1, 0, 2, 0, 0, 2, 0, 0, 1, 0]);
    assert_eq!(run.answer, run_answer(0, 10, 4));
    assert_eq!(run.rules, [4, 8, 9, 5]);
    assert_eq!(run.tally, tally(0, 0, 1));
    assert_eq!(run.hall, opening(&accepted(&bytes)));
}

#[test]
fn rehearsal_4_two_blocks_one_token() {
    let mut table = Builder::new();
    let end = table.end();
    let read = table.rd(0, end);
    let block = table.atom(read);
    let both = table.side_by_side(block, block);
    table.tokens(0, 1);
    let bytes = table.start(both);
    let choices = [1, 0, 1, 1, 2, 0, 0, 2, 1, 0, 1, 0, 1, 0];
    let run = run_from_opening(&bytes, &choices);
    assert_eq!(run.answer, run_answer(0, 14, 6));
    assert_eq!(run.rules, [4, 4, 8, 8, 7, 6]);
    assert_eq!(run.tally, tally(1, 1, 0));
    assert_eq!(run.hall.counts, [0; 16]);
    assert_eq!(run.hall.stations, [Station::Waiting { term: 2 }]);
}

#[test]
fn rehearsal_5_a_gain_after_the_opening() {
    let mut table = Builder::new();
    let end = table.end();
    let wt_1 = table.wt(1, end);
    let rd_0 = table.rd(0, wt_1);
    let wt_2 = table.wt(2, end);
    let either = table.or_else(rd_0, wt_2);
    let block = table.atom(either);
    let put = table.put(0);
    let both = table.side_by_side(block, put);
    let bytes = table.start(both);
    let choices = [1, 0, 1, 1, 2, 0, 0, 2, 0, 1, 2, 0, 2, 2, 0, 0, 1, 0];
    let run = run_from_opening(&bytes, &choices);
    assert_eq!(run.answer, run_answer(0, 18, 7));
    assert_eq!(run.rules, [4, 1, 11, 9, 10, 12, 7]);
    assert_eq!(run.tally, tally(1, 0, 0));
    assert_eq!(run.hall.counts, counts(&[1]));
    assert_eq!(run.hall.stations, [Station::Putting { tray: 2 }]);
}

#[test]
fn rehearsal_6_own_writes_are_not_read() {
    let mut table = Builder::new();
    let end = table.end();
    let rd_0 = table.rd(0, end);
    let wt_0 = table.wt(0, rd_0);
    let block = table.atom(wt_0);
    let bytes = table.start(block);
    let run = run_from_opening(&bytes, &[1, 0, 2, 0, 0, 2, 0, 0]);
    assert_eq!(run.answer, run_answer(0, 8, 3));
    assert_eq!(run.rules, [4, 10, 9]);
    assert_eq!(single_log(&run.hall, 0), [Action::Write(0)]);
}

#[test]
fn rehearsal_7_the_empty_table() {
    assert_eq!(check_table(&[]), answer(9, 0));
    assert_eq!(printed_run(&[]), b"R 9 0 0\n");
}

#[test]
fn rehearsal_8_width() {
    for (copies, number) in [(64, 0), (65, 7)] {
        for kind in 0..3 {
            let mut table = Builder::new();
            let one = match kind {
                0 => table.nil(),
                1 => table.put(4),
                _ => {
                    let nil = table.nil();
                    table.take(0, nil)
                }
            };
            let mut place = 0;
            let mut all = one;
            for _ in 1..copies {
                place = table.offset();
                all = table.side_by_side(all, one);
            }
            let place = if number == 0 { 0 } else { place };
            assert_eq!(check_table(&table.start(all)), answer(number, place));
        }
    }
}

#[test]
fn rehearsal_9_branches_and_length() {
    for (branches, number) in [(8, 0), (9, 7)] {
        let mut table = Builder::new();
        let end = table.end();
        let nil = table.nil();
        let mut place = 0;
        let mut all = end;
        for _ in 1..branches {
            place = table.offset();
            all = table.or_else(end, all);
        }
        let place = if number == 0 { 0 } else { place };
        assert_eq!(check_table(&table.start(nil)), answer(number, place));
    }
    for (length, number) in [(16, 0), (17, 7)] {
        for tray in [0, 15] {
            let mut table = Builder::new();
            let nil = table.nil();
            let mut place = 0;
            let mut all = table.retry();
            for index in 0..length {
                place = table.offset();
                all = if index % 2 == 0 {
                    table.rd(tray, all)
                } else {
                    table.wt(tray, all)
                };
            }
            let place = if number == 0 { 0 } else { place };
            assert_eq!(check_table(&table.start(nil)), answer(number, place));
        }
    }
}

#[test]
fn rehearsal_10_a_full_tray() {
    let mut table = Builder::new();
    let put = table.put(7);
    let both = table.side_by_side(put, put);
    table.tokens(7, 254);
    let bytes = table.start(both);
    let run = run_from_opening(&bytes, &[1, 1, 1, 0]);
    assert_eq!(run.answer, run_answer(20, 2, 1));
    assert_eq!(run.rules, [1]);
    assert_eq!(run.hall.counts[7], 255);
    assert_eq!(run.hall.stations, [Station::Putting { tray: 7 }]);
}

/// The fault of version two in document 00: in the middle of one station's
/// attempt, another takes the last token of a tray.
#[test]
fn a_third_station_empties_the_tray() {
    let mut table = Builder::new();
    let end = table.end();
    let nil = table.nil();
    let long = table.wt(5, end);
    let long = table.rd(1, long);
    let long = table.wt(4, long);
    let long = table.rd(0, long);
    let short = table.wt(3, end);
    let either = table.or_else(long, short);
    let block = table.atom(either);
    let taker = table.take(0, nil);
    let both = table.side_by_side(block, taker);
    table.tokens(0, 1);
    let bytes = table.start(both);
    let read = accepted(&bytes);
    // Open, fork, read tray 0, then the taker empties it; the rest of the
    // attempt still goes by what stood there when it opened.
    let mut hall = opening(&read);
    let list: [(Choice, u8); 9] = [
        (act(0), 4),
        (inside(0, 0), 11),
        (inside(0, 1), 8),
        (act(1), 2),
        (inside(0, 1), 10),
        (inside(0, 1), 9),
        (inside(0, 2), 10),
        (inside(0, 0), 12),
        (act(0), 7),
    ];
    for (choice, expected) in list {
        let (rule, next) = moved(&read, &hall, choice);
        assert_eq!(rule, expected);
        hall = next;
    }
    assert_eq!(hall.stations, [Station::Putting { tray: 3 }]);
    assert_eq!(hall.counts, [0; 16]);
    assert_eq!(make_move(&read, &hall, act(1)), Outcome::Refused(14));
}
