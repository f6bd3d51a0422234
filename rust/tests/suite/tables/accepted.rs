//! Tables that are accepted: what a table may do.

use reference::build::Builder;

use crate::common::answers::{table_gives, ACCEPTED};
use crate::common::by_hand::{each_kind, joined, EXAMPLE};

#[test]
fn the_scopes_example() {
    table_gives(&EXAMPLE, ACCEPTED);
}

#[test]
fn the_shortest_tables() {
    table_gives(&[1, 13, 0], ACCEPTED);
    table_gives(&[2, 0, 13, 0], ACCEPTED);
    table_gives(&[7, 6, 0, 13, 1], ACCEPTED);
}

#[test]
fn each_kind_of_record() {
    let mut table = each_kind::records();
    table.tokens(0, 1);
    table_gives(&table.start(each_kind::NIL), ACCEPTED);
}

#[test]
fn a_start_of_each_kind_of_process() {
    for process in each_kind::PROCESSES {
        table_gives(&each_kind::records().start(process), ACCEPTED);
    }
}

/// The start term may be any process, and need not use the others.
#[test]
fn terms_that_nothing_refers_to() {
    table_gives(&[7, 8, 1, 2, 5, 13, 2], ACCEPTED);
    table_gives(&[1, 7, 9, 0, 1, 6, 2, 13, 0], ACCEPTED);
    table_gives(&joined(&[&[8; 199], &[1], &[13, 199]]), ACCEPTED);
}

#[test]
fn terms_that_many_refer_to() {
    let mut table = Builder::new();
    let end = table.end();
    let mut block = table.atom(end);
    for tray in 0..16 {
        let read = table.rd(tray, end);
        block = table.atom(read);
    }
    let twice = table.side_by_side(block, block);
    let again = table.side_by_side(block, twice);
    table_gives(&table.start(again), ACCEPTED);
}

#[test]
fn equal_records() {
    table_gives(&[2, 9, 2, 9, 7, 7, 6, 2, 6, 2, 5, 4, 5, 13, 6], ACCEPTED);
}

/// Before any term, between terms, behind them.
#[test]
fn tokens_anywhere_before_the_start() {
    table_gives(&[12, 0, 1, 1, 13, 0], ACCEPTED);
    table_gives(&[1, 12, 0, 1, 1, 13, 0], ACCEPTED);
    table_gives(&[1, 1, 12, 0, 1, 13, 0], ACCEPTED);
    table_gives(&[12, 5, 1, 1, 12, 0, 1, 7, 12, 9, 255, 13, 0], ACCEPTED);
}

#[test]
fn tokens_in_every_order_of_trays() {
    let mut rising = vec![1];
    let mut falling = vec![1];
    for tray in 0..16 {
        rising.extend([12, tray, 255 - tray]);
        falling.extend([12, 15 - tray, 1 + tray]);
    }
    table_gives(&joined(&[&rising, &[13, 0]]), ACCEPTED);
    table_gives(&joined(&[&falling, &[13, 0]]), ACCEPTED);
}

/// The longest table there is: 648 bytes.
#[test]
fn the_longest_table() {
    let mut longest = vec![1];
    for number in 1..200 {
        longest.extend([4, 0, number - 1]);
    }
    for tray in 0..16 {
        longest.extend([12, tray, 255]);
    }
    longest.extend([13, 199]);
    assert_eq!(longest.len(), 648);
    table_gives(&longest, ACCEPTED);
    longest.push(13);
    table_gives(&longest, (9, 648));
    longest.resize(70_000, 1);
    table_gives(&longest, (9, 648));
}
