//! Refusal 3: a term more than the 200 that a table may have.

use reference::build::Builder;
use reference::generator::record_starts;

use super::{all_accepted, all_refused, Cases};
use crate::common::answers::{table_gives, ACCEPTED};
use crate::common::by_hand::joined;

const TERM_KINDS: [u8; 11] = [1, 2, 3, 4, 5, 6, 7, 8, 9, 10, 11];

/// Two hundred terms, in several shapes.
fn two_hundred_terms() -> Vec<Vec<u8>> {
    let mut takes = vec![1];
    let mut reads = vec![7];
    let mut cycle = Builder::new();
    for number in 1..200 {
        takes.extend([3, 15, number - 1]);
        reads.extend(if number % 17 == 0 {
            vec![7]
        } else {
            vec![9, 0, number - 1]
        });
    }
    while cycle.terms() < 198 {
        let end = cycle.end();
        let wt = cycle.wt(1, end);
        let or_else = cycle.or_else(wt, end);
        let atom = cycle.atom(or_else);
        let put = cycle.put(2);
        let both = cycle.side_by_side(atom, put);
        cycle.repeated_take(3, both);
        cycle.take(4, both);
        cycle.retry();
    }
    cycle.nil();
    cycle.nil();
    let mut with_tokens = Vec::new();
    for tray in 0..16 {
        with_tokens.extend([1; 12]);
        with_tokens.extend([12, tray, 200]);
    }
    with_tokens.extend([1; 8]);
    vec![
        vec![1; 200],
        [2, 0].repeat(200),
        takes,
        reads,
        cycle.bytes(),
        with_tokens,
    ]
}

#[test]
fn each_kind_of_term_as_number_201() {
    let cases: Cases<'_> = &[
        (&[1], 0),
        (&[2, 0], 0),
        (&[3, 0, 0], 0),
        (&[4, 0, 0], 0),
        (&[5, 0, 0], 0),
        (&[6, 0], 0),
        (&[7], 0),
        (&[8], 0),
        (&[9, 0, 0], 0),
        (&[10, 0, 0], 0),
        (&[11, 0, 0], 0),
    ];
    for front in two_hundred_terms() {
        all_refused(3, &front, cases, &TERM_KINDS);
        table_gives(&front, (9, front.len()));
    }
    table_gives(&joined(&[&[1; 201], &[13, 0]]), (3, 200));
    table_gives(&[2; 402], (3, 400));
}

#[test]
fn two_hundred_terms_and_one_more() {
    for front in two_hundred_terms() {
        let starts = record_starts(&front);
        let terms = starts.iter().filter(|at| front[**at] <= 11).count();
        assert_eq!(terms, 200);
        // Each term of the two hundred as start.
        let mut number = 0;
        for at in starts {
            if front[at] <= 11 {
                let answer = if front[at] <= 6 {
                    ACCEPTED
                } else {
                    (6, front.len())
                };
                table_gives(&joined(&[&front, &[13, number]]), answer);
                number += 1;
            }
        }
        // And one more term.
        table_gives(&joined(&[&front, &[7, 13, 0]]), (3, front.len()));
    }
}

/// A reference is a byte, but it reaches term 199 and no further.
#[test]
fn references_to_term_199_and_200() {
    for front in two_hundred_terms() {
        for number in 200..=255 {
            table_gives(&joined(&[&front, &[13, number]]), (5, front.len()));
        }
    }
    let mut table = Builder::new();
    while table.terms() < 199 {
        table.nil();
    }
    let last = table.put(3);
    assert_eq!(last, 199);
    table_gives(&table.start(199), ACCEPTED);
}

#[test]
fn before_4_5_and_6() {
    let cases: Cases<'_> = &[
        (&[2, 16], 0),
        (&[3, 16, 0], 0),
        (&[3, 0, 200], 0),
        (&[4, 255, 255], 0),
        (&[5, 0, 200], 0),
        (&[6, 200], 0),
        (&[9, 16, 0], 0),
        (&[10, 0, 255], 0),
        (&[11, 255, 255], 0),
    ];
    for front in two_hundred_terms() {
        all_refused(3, &front, cases, &[2, 3, 4, 5, 6, 9, 10, 11]);
    }
    // Term 0 is a process, term 1 an expression: each reference is of the wrong
    // class.
    let front = joined(&[&[1, 7], &[1; 198]]);
    let cases: Cases<'_> = &[
        (&[3, 0, 1], 0),
        (&[4, 0, 1], 0),
        (&[5, 0, 1], 0),
        (&[6, 0], 0),
        (&[9, 0, 0], 0),
        (&[10, 0, 0], 0),
        (&[11, 0, 1], 0),
    ];
    all_refused(3, &front, cases, &[3, 4, 5, 6, 9, 10, 11]);
}

/// The widest, the longest and the one with most branches, once more.
#[test]
fn before_7() {
    let mut full = Builder::new();
    let wide = full.put(0);
    let wide = full.copies(wide, 64);
    let end = full.end();
    let eight = (0..3).fold(end, |all, _| full.or_else(all, all));
    let long = (0..16).fold(end, |all, _| full.rd(0, all));
    while full.terms() < 199 {
        full.nil();
    }
    let too_large = [
        [5, wide, wide],
        [9, 0, long],
        [10, 0, long],
        [11, eight, eight],
    ];
    for record in too_large {
        let fewer = full.bytes();
        table_gives(&joined(&[&fewer, &record]), (7, fewer.len()));
        let front = joined(&[&fewer, &[1]]);
        table_gives(&joined(&[&front, &record]), (3, front.len()));
    }
}

#[test]
fn tokens_and_start_records_are_no_terms() {
    for front in [vec![1; 200], [2, 0].repeat(200)] {
        all_accepted(&front, &[&[13, 0], &[13, 199], &[12, 3, 9, 13, 0]]);
        table_gives(&joined(&[&front, &[12, 16, 1]]), (4, front.len()));
        table_gives(&joined(&[&front, &[12, 0, 0]]), (8, front.len()));
        table_gives(&joined(&[&front, &[13, 0, 1]]), (9, front.len() + 2));
    }
}
