//! Refusal 7: a term past the limit of width (64), of branches (8) or of length
//! (16). The shapes that a term can have at its limits are in `measures`.

use reference::build::Builder;

use super::{all_accepted, all_refused, Cases};
use crate::common::answers::{table_gives, ACCEPTED};

/// Terms 0 to 6: widths 1, 2, 4, ... 64.
const WIDE: &[u8] = &[2, 0, 5, 0, 0, 5, 1, 1, 5, 2, 2, 5, 3, 3, 5, 4, 4, 5, 5, 5];
/// Terms 0 to 3: branches 1, 2, 4, 8.
const BRANCHING: &[u8] = &[7, 11, 0, 0, 11, 1, 1, 11, 2, 2];
/// Terms 0 to 16: lengths 0 to 16.
const LONG: &[u8] = &[
    7, 9, 0, 0, 10, 0, 1, 9, 0, 2, 10, 0, 3, 9, 0, 4, 10, 0, 5, 9, 0, 6, 10, 0, 7, 9, 0, 8, 10, 0,
    9, 9, 0, 10, 10, 0, 11, 9, 0, 12, 10, 0, 13, 9, 0, 14, 10, 0, 15,
];

#[test]
fn width_above_64() {
    let cases: Cases<'_> = &[
        (&[5, 6, 0], 0),
        (&[5, 0, 6], 0),
        (&[5, 6, 6], 0),
        (&[1, 12, 0, 1, 5, 7, 6], 4),
    ];
    all_refused(7, WIDE, cases, &[5]);
}

#[test]
fn branches_above_8() {
    let cases: Cases<'_> = &[
        (&[11, 3, 0], 0),
        (&[11, 0, 3], 0),
        (&[11, 3, 3], 0),
        (&[8, 12, 0, 1, 11, 4, 3], 4),
    ];
    all_refused(7, BRANCHING, cases, &[11]);
}

#[test]
fn length_above_16() {
    let cases: Cases<'_> = &[
        (&[9, 0, 16], 0),
        (&[10, 0, 16], 0),
        (&[11, 16, 0, 9, 0, 17], 3),
        (&[11, 0, 16, 10, 0, 17], 3),
    ];
    all_refused(7, LONG, cases, &[9, 10]);
}

/// At the limits; and no other kind has a measure of its own.
#[test]
fn terms_at_the_limits() {
    all_accepted(
        WIDE,
        &[
            &[13, 6],
            &[3, 0, 6, 13, 7],
            &[4, 0, 6, 13, 7],
            &[3, 0, 6, 5, 7, 5, 13, 8],
            &[5, 5, 4, 5, 7, 3, 5, 8, 2, 5, 9, 1, 5, 10, 0, 13, 11],
        ],
    );
    all_accepted(
        BRANCHING,
        &[
            &[6, 3, 13, 4],
            &[9, 0, 3, 10, 0, 4, 6, 5, 13, 6],
            &[6, 3, 5, 4, 4, 13, 5],
        ],
    );
    all_accepted(
        LONG,
        &[
            &[6, 16, 13, 17],
            &[11, 16, 0, 6, 17, 13, 18],
            &[11, 0, 16, 6, 17, 13, 18],
            &[11, 16, 16, 6, 17, 13, 18],
        ],
    );
}

/// A record is tested though the start term does not need its term.
#[test]
fn terms_that_nothing_refers_to() {
    let mut table = Builder::new();
    let nil = table.nil();
    let put = table.put(0);
    let end = table.end();
    let wide = table.copies(put, 64);
    let eight = (0..3).fold(end, |all, _| table.or_else(all, all));
    let long = (0..16).fold(end, |all, _| table.rd(0, all));
    table_gives(&table.start(nil), ACCEPTED);
    for record in [
        [5, wide, nil],
        [11, end, eight],
        [9, 0, long],
        [10, 0, long],
    ] {
        let mut over = table.clone();
        over.term(&record);
        table_gives(&over.start(nil), (7, table.offset()));
    }
}

/// What stands behind a take is a term of its own, with its own limit; the take
/// is one wide.
#[test]
fn behind_a_take_the_width_begins_anew() {
    all_accepted(
        WIDE,
        &[
            // 64 takes, each of which opens into 64.
            &[
                3, 0, 6, 5, 7, 7, 5, 8, 8, 5, 9, 9, 5, 10, 10, 5, 11, 11, 5, 12, 12, 13, 13,
            ],
            &[
                4, 0, 6, 5, 7, 7, 5, 8, 8, 5, 9, 9, 5, 10, 10, 5, 11, 11, 5, 12, 12, 13, 13,
            ],
        ],
    );
    // One more.
    let cases: Cases<'_> = &[(
        &[
            3, 0, 6, 5, 7, 7, 5, 8, 8, 5, 9, 9, 5, 10, 10, 5, 11, 11, 5, 12, 12, 5, 13, 7,
        ],
        21,
    )];
    all_refused(7, WIDE, cases, &[5]);
}
