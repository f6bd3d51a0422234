//! Refusal 2: the bytes end inside a record.

use super::{all_refused, Cases, PROCESS_AND_EXPRESSION};
use crate::common::answers::{table_answer, table_gives};
use crate::common::by_hand::{each_kind, joined};

/// Each kind with a body, and how long it is.
const BODIES: [(u8, usize); 10] = [
    (2, 1),
    (3, 2),
    (4, 2),
    (5, 2),
    (6, 1),
    (9, 2),
    (10, 2),
    (11, 2),
    (12, 2),
    (13, 1),
];

/// Every cut of every kind, with no fault in the bytes that are there.
const CUTS: Cases<'_> = &[
    (&[2], 0),
    (&[3], 0),
    (&[3, 0], 0),
    (&[4], 0),
    (&[4, 0], 0),
    (&[5], 0),
    (&[5, 0], 0),
    (&[6], 0),
    (&[9], 0),
    (&[9, 0], 0),
    (&[10], 0),
    (&[10, 0], 0),
    (&[11], 0),
    (&[11, 0], 0),
    (&[12], 0),
    (&[12, 0], 0),
    (&[13], 0),
];
const KINDS: [u8; 10] = [2, 3, 4, 5, 6, 9, 10, 11, 12, 13];

#[test]
fn each_kind_at_each_cut() {
    all_refused(2, &[], CUTS, &KINDS);
    all_refused(2, PROCESS_AND_EXPRESSION, CUTS, &KINDS);
    all_refused(2, &each_kind::records().bytes(), CUTS, &KINDS);
    all_refused(2, &[12, 0, 1], CUTS, &KINDS);
}

#[test]
fn a_whole_body_is_never_cut_short() {
    for (kind, length) in BODIES {
        for byte in [0, 1, 15, 16, 255] {
            let body = vec![byte; length];
            assert_ne!(table_answer(&joined(&[&[1, 7, kind], &body])), (2, 2));
            table_gives(&joined(&[&[1, 7, kind], &body[1..]]), (2, 2));
        }
    }
}

#[test]
fn kinds_without_a_body_are_never_cut_short() {
    table_gives(&[1], (9, 1));
    table_gives(&[7], (9, 1));
    table_gives(&[8], (9, 1));
}

/// The terms are 200 already, and one more is cut short.
#[test]
fn before_3() {
    all_refused(2, &[1; 200], CUTS, &KINDS);
}

/// A tray above 15, a later reference, one of the wrong class and a tray with
/// tokens are there, and the record is cut short behind them.
#[test]
fn before_4_5_6_and_8() {
    let trays: Cases<'_> = &[
        (&[3, 16], 0),
        (&[4, 255], 0),
        (&[9, 16], 0),
        (&[10, 255], 0),
        (&[12, 16], 0),
    ];
    let late: Cases<'_> = &[(&[5, 2], 0), (&[5, 255], 0), (&[11, 2], 0), (&[11, 255], 0)];
    let wrong: Cases<'_> = &[(&[5, 1], 0), (&[11, 0], 0)];
    let tokens: Cases<'_> = &[(&[12, 0, 1, 12, 0], 3)];
    let each_kind = each_kind::records().bytes();
    for front in [
        &[][..],
        PROCESS_AND_EXPRESSION,
        &each_kind,
        &[12, 7, 1],
        &[1; 200],
    ] {
        all_refused(2, front, trays, &[3, 4, 9, 10, 12]);
        all_refused(2, front, late, &[5, 11]);
        all_refused(2, front, tokens, &[12]);
    }
    all_refused(2, PROCESS_AND_EXPRESSION, wrong, &[5, 11]);
}

/// A start record without its body is cut short; it is not missing.
#[test]
fn before_9() {
    table_gives(&[13], (2, 0));
    table_gives(&[1, 13], (2, 1));
    table_gives(&[1, 12, 0, 1, 13], (2, 4));
}
