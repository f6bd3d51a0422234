//! Refusal 8: 0 tokens for a tray, or a second record for it.

use super::{all_refused, Cases, PROCESS_AND_EXPRESSION};
use crate::common::answers::{table_gives, ACCEPTED};
use crate::common::by_hand::joined;

#[test]
fn a_count_of_0() {
    let cases: Cases<'_> = &[
        (&[12, 0, 0], 0),
        (&[12, 15, 0], 0),
        (&[12, 4, 1, 12, 5, 0], 3),
    ];
    all_refused(8, &[], cases, &[12]);
    all_refused(8, PROCESS_AND_EXPRESSION, cases, &[12]);
}

#[test]
fn every_other_count() {
    for count in 1..=255 {
        table_gives(&[1, 12, 7, count, 13, 0], ACCEPTED);
    }
}

#[test]
fn a_tray_given_before() {
    let cases: Cases<'_> = &[
        (&[12, 0, 1, 12, 0, 1], 3),
        (&[12, 0, 1, 12, 0, 2], 3),
        (&[12, 15, 255, 12, 15, 1], 3),
        (&[12, 15, 1, 12, 15, 255], 3),
        (&[12, 4, 1, 12, 5, 1, 12, 4, 1], 6),
        (&[12, 4, 1, 1, 12, 5, 1, 7, 12, 5, 1], 8),
    ];
    all_refused(8, &[], cases, &[12]);
    all_refused(8, PROCESS_AND_EXPRESSION, cases, &[12]);
}

/// Both at once.
#[test]
fn a_tray_given_before_and_a_count_of_0() {
    let cases: Cases<'_> = &[(&[12, 4, 1, 12, 4, 0], 3)];
    all_refused(8, &[], cases, &[12]);
    all_refused(8, PROCESS_AND_EXPRESSION, cases, &[12]);
}

/// Trays given one by one, and each tray tried behind each number of them.
#[test]
fn every_tray_once_and_twice() {
    let mut front = PROCESS_AND_EXPRESSION.to_vec();
    for tray in 0..16 {
        table_gives(&joined(&[&front, &[13, 0]]), ACCEPTED);
        front.extend([12, tray, 1 + 16 * tray]);
        for again in 0..16 {
            let answer = if again <= tray {
                (8, front.len())
            } else {
                ACCEPTED
            };
            table_gives(&joined(&[&front, &[12, again, 1, 13, 0]]), answer);
        }
    }
    table_gives(&joined(&[&front, &[13, 0]]), ACCEPTED);
}

#[test]
fn before_9() {
    // The table ends without a start record, or has a byte behind it.
    table_gives(&[12, 0, 0], (8, 0));
    table_gives(&[1, 12, 0, 0, 13, 0, 1], (8, 1));
}
