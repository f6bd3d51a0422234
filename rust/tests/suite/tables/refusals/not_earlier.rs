//! Refusal 5: a term is named that does not stand earlier.

use reference::build::Builder;

use super::{all_accepted, all_refused, Cases, PROCESS_AND_EXPRESSION};
use crate::common::answers::{table_gives, ACCEPTED};
use crate::common::by_hand::joined;

const REFERENCE_KINDS: [u8; 8] = [3, 4, 5, 6, 9, 10, 11, 13];

/// The record's own number is 2; 255 is the highest that a byte can say.
#[test]
fn the_own_number_and_above() {
    let cases: Cases<'_> = &[
        (&[3, 0, 2], 0),
        (&[3, 0, 255], 0),
        (&[4, 0, 2], 0),
        (&[4, 0, 255], 0),
        (&[6, 2], 0),
        (&[6, 255], 0),
        (&[9, 0, 2], 0),
        (&[9, 0, 255], 0),
        (&[10, 0, 2], 0),
        (&[10, 0, 255], 0),
        (&[13, 2], 0),
        (&[13, 255], 0),
    ];
    all_refused(5, PROCESS_AND_EXPRESSION, cases, &[3, 4, 6, 9, 10, 13]);
}

#[test]
fn either_of_two_references() {
    let cases: Cases<'_> = &[
        (&[5, 2, 0], 0),
        (&[5, 0, 2], 0),
        (&[5, 255, 0], 0),
        (&[5, 0, 255], 0),
        (&[5, 2, 2], 0),
        (&[11, 2, 1], 0),
        (&[11, 1, 2], 0),
        (&[11, 255, 1], 0),
        (&[11, 1, 255], 0),
        (&[11, 2, 2], 0),
    ];
    all_refused(5, PROCESS_AND_EXPRESSION, cases, &[5, 11]);
}

/// The term just before, and the first one.
#[test]
fn earlier_terms() {
    let processes = [1, 1, 1];
    all_accepted(
        &processes,
        &[
            &[3, 0, 2, 13, 3],
            &[3, 0, 0, 13, 0],
            &[4, 0, 2, 13, 3],
            &[4, 0, 0, 13, 0],
            &[5, 2, 2, 13, 3],
            &[5, 0, 2, 13, 3],
            &[5, 2, 0, 13, 3],
            &[13, 2],
            &[13, 0],
        ],
    );
    let expressions = [1, 7, 8, 7];
    all_accepted(
        &expressions,
        &[
            &[6, 3, 13, 4],
            &[6, 1, 13, 4],
            &[9, 0, 3, 13, 0],
            &[9, 0, 1, 13, 0],
            &[10, 0, 3, 13, 0],
            &[10, 0, 1, 13, 0],
            &[11, 3, 3, 13, 0],
            &[11, 1, 3, 13, 0],
            &[11, 3, 1, 13, 0],
        ],
    );
}

/// Every byte in the start record, behind every number of terms.
#[test]
fn every_reference_behind_every_number_of_terms() {
    for terms in 0..200 {
        let front = vec![1; usize::from(terms)];
        for reference in 0..=255 {
            let table = joined(&[&front, &[13, reference]]);
            let answer = if reference < terms {
                ACCEPTED
            } else {
                (5, front.len())
            };
            table_gives(&table, answer);
        }
    }
}

#[test]
fn with_no_term_at_all() {
    let cases: Cases<'_> = &[
        (&[3, 0, 0], 0),
        (&[4, 0, 0], 0),
        (&[5, 0, 0], 0),
        (&[6, 0], 0),
        (&[9, 0, 0], 0),
        (&[10, 0, 0], 0),
        (&[11, 0, 0], 0),
        (&[13, 0], 0),
    ];
    all_refused(5, &[], cases, &REFERENCE_KINDS);
    // Tokens records have no number.
    all_refused(5, &[12, 0, 1], cases, &REFERENCE_KINDS);
    all_refused(5, &[12, 0, 1, 12, 1, 1], cases, &REFERENCE_KINDS);
}

#[test]
fn tokens_records_between_terms_have_no_number() {
    let cases: Cases<'_> = &[(&[12, 0, 1, 6, 2], 3), (&[12, 0, 1, 13, 2], 3)];
    all_refused(5, PROCESS_AND_EXPRESSION, cases, &[6, 13]);
    // The term behind a tokens record has the next number.
    table_gives(&[1, 12, 0, 1, 7, 12, 1, 1, 6, 1, 13, 2], ACCEPTED);
}

#[test]
fn a_later_record_does_not_help() {
    all_refused(5, PROCESS_AND_EXPRESSION, &[(&[6, 2, 7], 0)], &[6]);
    all_refused(5, PROCESS_AND_EXPRESSION, &[(&[5, 3, 3, 1], 0)], &[5]);
}

/// Whichever of the two references is the one of the wrong class.
#[test]
fn before_6() {
    let cases: Cases<'_> = &[
        (&[5, 1, 2], 0),
        (&[5, 2, 1], 0),
        (&[11, 0, 2], 0),
        (&[11, 2, 0], 0),
    ];
    all_refused(5, PROCESS_AND_EXPRESSION, cases, &[5, 11]);
}

/// One side is at the limit, the other is not there.
#[test]
fn before_7() {
    let mut table = Builder::new();
    let put = table.put(0);
    let wide = table.copies(put, 64);
    let end = table.end();
    let eight = (0..3).fold(end, |all, _| table.or_else(all, all));
    let next = table.terms();
    let cases: Cases<'_> = &[
        (&[5, wide, next], 0),
        (&[5, next, wide], 0),
        (&[11, eight, next], 0),
        (&[11, next, eight], 0),
    ];
    all_refused(5, &table.bytes(), cases, &[5, 11]);
}

#[test]
fn before_9() {
    table_gives(&[1, 13, 1, 1], (5, 1));
    table_gives(&[13, 0, 13, 0], (5, 0));
}
