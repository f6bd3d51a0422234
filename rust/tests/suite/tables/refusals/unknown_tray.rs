//! Refusal 4: a tray past the sixteenth.

use reference::build::Builder;

use super::{all_accepted, all_refused, Cases, PROCESS_AND_EXPRESSION};
use crate::common::answers::{table_gives, ACCEPTED};
use crate::common::by_hand::joined;

const TRAY_KINDS: [u8; 6] = [2, 3, 4, 9, 10, 12];

/// The record of a kind that names a tray, without any other fault behind
/// [`PROCESS_AND_EXPRESSION`].
fn record(kind: u8, tray: u8) -> Vec<u8> {
    match kind {
        2 => vec![2, tray],
        3 | 4 => vec![kind, tray, 0],
        _ => vec![kind, tray, 1],
    }
}

/// Trays 0 to 15 are accepted, all others refused, in each kind of record.
#[test]
fn every_byte_as_tray() {
    for kind in TRAY_KINDS {
        for tray in 0..=255 {
            let table = joined(&[PROCESS_AND_EXPRESSION, &record(kind, tray), &[13, 0]]);
            let answer = if tray <= 15 { ACCEPTED } else { (4, 2) };
            table_gives(&table, answer);
        }
    }
}

#[test]
fn each_kind_that_names_a_tray() {
    let cases: Cases<'_> = &[
        (&[2, 16], 0),
        (&[2, 255], 0),
        (&[3, 16, 0], 0),
        (&[3, 255, 0], 0),
        (&[4, 16, 0], 0),
        (&[4, 255, 0], 0),
        (&[9, 16, 1], 0),
        (&[9, 255, 1], 0),
        (&[10, 16, 1], 0),
        (&[10, 255, 1], 0),
        (&[12, 16, 1], 0),
        (&[12, 255, 1], 0),
    ];
    all_refused(4, PROCESS_AND_EXPRESSION, cases, &TRAY_KINDS);
    // Also where the references have no term.
    all_refused(4, &[], cases, &TRAY_KINDS);
}

/// Counts are no trays.
#[test]
fn counts_above_15() {
    all_accepted(
        PROCESS_AND_EXPRESSION,
        &[&[12, 0, 16, 13, 0], &[12, 0, 255, 13, 0]],
    );
}

/// References are no trays: terms above 15 are referred to by every kind.
#[test]
fn references_above_15() {
    let mut front = vec![1; 20];
    front.extend([7; 20]);
    all_accepted(
        &front,
        &[
            &[3, 15, 19, 13, 19],
            &[4, 15, 16, 13, 16],
            &[5, 16, 19, 13, 0],
            &[6, 39, 13, 17],
            &[9, 15, 39, 13, 0],
            &[10, 15, 20, 13, 0],
            &[11, 38, 39, 13, 0],
        ],
    );
}

#[test]
fn before_5_6_and_8() {
    let cases: Cases<'_> = &[
        // A later reference.
        (&[3, 16, 2], 0),
        (&[4, 16, 255], 0),
        (&[9, 16, 2], 0),
        (&[10, 16, 255], 0),
        // One of the wrong class.
        (&[3, 16, 1], 0),
        (&[4, 16, 1], 0),
        (&[9, 16, 0], 0),
        (&[10, 16, 0], 0),
        // No tokens.
        (&[12, 16, 0], 0),
    ];
    all_refused(4, PROCESS_AND_EXPRESSION, cases, &[3, 4, 9, 10, 12]);
    all_refused(4, &[], cases, &[3, 4, 9, 10, 12]);
}

#[test]
fn before_7() {
    let mut table = Builder::new();
    let end = table.end();
    let top = (0..16).fold(end, |all, _| table.rd(0, all));
    let cases: Cases<'_> = &[(&[9, 16, top], 0), (&[10, 16, top], 0)];
    all_refused(4, &table.bytes(), cases, &[9, 10]);
}
