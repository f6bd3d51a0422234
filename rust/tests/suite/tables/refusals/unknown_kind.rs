//! Refusal 1: no record begins with such a byte.

use super::{all_refused, Cases};
use crate::common::answers::{table_answer, table_gives};
use crate::common::by_hand::joined;

#[test]
fn every_byte_that_is_no_kind() {
    for kind in (0..=255).filter(|kind| !(1..=13).contains(kind)) {
        table_gives(&[kind], (1, 0));
        table_gives(&[kind, 13, 0], (1, 0));
        table_gives(&[1, 7, kind], (1, 2));
    }
}

#[test]
fn every_kind_is_known() {
    for kind in 1..=13 {
        assert_ne!(table_answer(&[kind]).0, 1);
        assert_ne!(table_answer(&[1, 7, kind, 0, 0, 0]), (1, 2));
    }
}

/// The place is the first byte behind the body, whatever its length.
#[test]
fn behind_each_kind_of_record() {
    let cases: Cases<'_> = &[
        (&[0], 0),
        (&[14], 0),
        (&[255], 0),
        (&[0, 0, 0], 0),
        (&[1, 0], 1),
        (&[2, 0, 14], 2),
        (&[1, 3, 0, 0, 0], 4),
        (&[1, 4, 0, 0, 14], 4),
        (&[1, 5, 0, 0, 0], 4),
        (&[7, 6, 0, 255], 3),
        (&[7, 0], 1),
        (&[8, 14], 1),
        (&[7, 9, 0, 0, 0], 4),
        (&[7, 10, 0, 0, 14], 4),
        (&[7, 11, 0, 0, 255], 4),
        (&[12, 0, 1, 0], 3),
    ];
    all_refused(1, &[], cases, &[0, 14, 255]);
}

/// It is no term, so 3 has no part in it.
#[test]
fn behind_200_terms() {
    for kind in (0..=255).filter(|kind| !(1..=13).contains(kind)) {
        table_gives(&joined(&[&[1; 200], &[kind]]), (1, 200));
    }
}

/// The table lacks a start record too, but that is tested at its end.
#[test]
fn before_the_end_without_a_start_record() {
    table_gives(&[0], (1, 0));
    table_gives(&[1, 0], (1, 1));
    table_gives(&[1, 0, 1, 1], (1, 1));
}
