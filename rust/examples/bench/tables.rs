//! Checking a table.

use std::hint::black_box;

use reference::build::Builder;

use crate::measure::{print_part, print_row};

/// Batches for each of the two on each table.
const ROUNDS: usize = 201;

/// The scope's example: one block, one token.
fn example() -> Vec<u8> {
    vec![7, 10, 1, 0, 9, 0, 1, 6, 2, 12, 0, 1, 13, 3]
}

/// Blocks with an alternative, takes and puts side by side, some tokens.
fn mixed() -> Vec<u8> {
    let mut table = Builder::new();
    let end = table.end();
    let mut all = table.put(0);
    for tray in 0..7 {
        let write = table.wt(tray + 1, end);
        let read = table.rd(tray, write);
        let other = table.wt(15, end);
        let body = table.or_else(read, other);
        let block = table.atom(body);
        let put = table.put(tray);
        let take = table.repeated_take(tray, put);
        let both = table.side_by_side(block, take);
        all = table.side_by_side(all, both);
    }
    for tray in 0..4 {
        table.tokens(tray, 2);
    }
    table.tokens(4, 255);
    while table.offset() + 2 < 200 {
        table.nil();
    }
    table.start(all)
}

/// Two hundred terms of which none is unfolded: takes of a nil.
fn flat() -> Vec<u8> {
    let mut table = Builder::new();
    let nil = table.nil();
    table.put(0);
    let mut last = nil;
    while table.terms() < 200 {
        last = table.take(1, nil);
    }
    table.start(last)
}

/// Two hundred terms of which most are at the limits once they are unfolded:
/// by turns 64 wide, and with 8 branches that are 16 long each.
fn unfolded() -> Vec<u8> {
    let mut table = Builder::new();
    let put = table.put(0);
    let end = table.end();
    let half_as_wide = (0..5).fold(put, |all, _| table.side_by_side(all, all));
    let long = (0..16).fold(end, |all, _| table.rd(0, all));
    let half_of_the_branches = (0..2).fold(long, |all, _| table.or_else(all, all));
    let mut last = half_as_wide;
    while table.terms() < 200 {
        if table.terms() % 2 == 1 {
            last = table.side_by_side(half_as_wide, half_as_wide);
        } else {
            table.or_else(half_of_the_branches, half_of_the_branches);
        }
    }
    table.start(last)
}

pub(crate) fn print() {
    print_part("checking a table");
    for (name, length, table) in [
        ("the scope's example", 14, example()),
        ("mixed", 200, mixed()),
        ("flat", 599, flat()),
        ("unfolded to the limits", 599, unfolded()),
    ] {
        assert_eq!(table.len(), length, "{name}");
        print_row(
            &format!("{name}, {length} bytes"),
            ROUNDS,
            &mut || ruonfidd::check_table(black_box(&table)).is_ok(),
            &mut || reference::calls::check_table(black_box(&table)).number == 0,
        );
    }
}
