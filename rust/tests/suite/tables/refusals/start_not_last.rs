//! Refusal 9: something stands behind the start record, or there is none.

use reference::generator::record_starts;
use reference::table::byte_of;

use crate::common::answers::{table_gives, ACCEPTED};
use crate::common::by_hand::{each_kind, joined};

/// Records up to each kind as the last one.
fn fronts() -> Vec<Vec<u8>> {
    vec![
        vec![],
        vec![1],
        vec![2, 0],
        vec![1, 3, 0, 0],
        vec![1, 4, 0, 0],
        vec![1, 5, 0, 0],
        vec![7, 6, 0],
        vec![7],
        vec![8],
        vec![7, 9, 0, 0],
        vec![7, 10, 0, 0],
        vec![7, 11, 0, 0],
        vec![12, 0, 1],
        each_kind::records().bytes(),
    ]
}

#[test]
fn the_empty_table() {
    table_gives(&[], (9, 0));
}

/// The place is the length.
#[test]
fn without_a_start_record() {
    for front in fronts() {
        table_gives(&front, (9, front.len()));
    }
    let mut tokens = Vec::new();
    for tray in 0..16 {
        tokens.extend([12, tray, 255]);
    }
    table_gives(&tokens, (9, 48));
    table_gives(&[1; 200], (9, 200));
}

/// The place is that byte's, whatever it is.
#[test]
fn every_byte_behind_the_start_record() {
    for front in fronts() {
        let starts = record_starts(&front);
        let terms = starts.iter().filter(|at| front[**at] <= 11).count();
        let table = joined(&[&front, &[1, 13, byte_of(terms)]]);
        table_gives(&table, ACCEPTED);
        for byte in 0..=255 {
            table_gives(&joined(&[&table, &[byte]]), (9, table.len()));
            table_gives(&joined(&[&table, &[byte, byte]]), (9, table.len()));
        }
    }
}

/// Records behind the start record are only bytes behind it.
#[test]
fn records_behind_the_start_record() {
    table_gives(&[1, 13, 0, 13, 0], (9, 3));
    table_gives(&[1, 13, 0, 1], (9, 3));
    table_gives(&[1, 13, 0, 12, 0, 1], (9, 3));
    table_gives(&[1, 13, 0, 0], (9, 3));
    table_gives(&[1, 13, 0, 2], (9, 3));
}
