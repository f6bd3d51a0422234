//! Complete for one record behind each kind of term, and for short tables.

use crate::common::answers::AnswerCounts;
use crate::common::by_hand::{each_kind, joined};

/// The answers on every body of a kind behind a front; the rest follows it.
fn every_body(front: &[u8], kind: u8, body: usize, rest: &[u8]) -> AnswerCounts {
    let mut counts = AnswerCounts::default();
    let at = front.len() + 1;
    let every_byte = || 0..=255;
    let mut table = joined(&[front, &[kind], &vec![0; body], rest]);
    match body {
        0 => counts.compare(&table),
        1 => {
            for first in every_byte() {
                table[at] = first;
                counts.compare(&table);
            }
        }
        _ => {
            for first in every_byte() {
                for second in every_byte() {
                    table[at] = first;
                    table[at + 1] = second;
                    counts.compare(&table);
                }
            }
        }
    }
    counts
}

/// The counts follow from the numbers of processes (6), expressions (5) and
/// terms (11) in front, and from tray 3 having been given.
#[test]
fn every_record_behind_each_kind_of_term() {
    let front = joined(&[&each_kind::records().bytes(), &[12, 3, 1]]);
    let start = [13, each_kind::NIL];
    let body_of = |kind, body| every_body(&front, kind, body, &start).0;
    assert_eq!(body_of(1, 0), [1, 0, 0, 0, 0, 0, 0, 0, 0, 0]);
    assert_eq!(body_of(2, 1), [16, 0, 0, 0, 240, 0, 0, 0, 0, 0]);
    for kind in [3, 4] {
        let counts = body_of(kind, 2);
        let expected = [16 * 6, 0, 0, 0, 240 * 256, 16 * 245, 16 * 5, 0, 0, 0];
        assert_eq!(counts, expected);
    }
    let counts = body_of(5, 2);
    assert_eq!(counts, [36, 0, 0, 0, 0, 65536 - 121, 121 - 36, 0, 0, 0]);
    assert_eq!(body_of(6, 1), [5, 0, 0, 0, 0, 245, 6, 0, 0, 0]);
    assert_eq!(body_of(7, 0), [1, 0, 0, 0, 0, 0, 0, 0, 0, 0]);
    assert_eq!(body_of(8, 0), [1, 0, 0, 0, 0, 0, 0, 0, 0, 0]);
    for kind in [9, 10] {
        let counts = body_of(kind, 2);
        let expected = [16 * 5, 0, 0, 0, 240 * 256, 16 * 245, 16 * 6, 0, 0, 0];
        assert_eq!(counts, expected);
    }
    let counts = body_of(11, 2);
    assert_eq!(counts, [25, 0, 0, 0, 0, 65536 - 121, 121 - 25, 0, 0, 0]);
    let counts = body_of(12, 2);
    assert_eq!(counts, [15 * 255, 0, 0, 0, 240 * 256, 0, 0, 0, 15 + 256, 0]);
    assert_eq!(body_of(13, 1), [0, 0, 0, 0, 0, 245, 5, 0, 0, 6]);
    let last = every_body(&front, 13, 1, &[]).0;
    assert_eq!(last, [6, 0, 0, 0, 0, 245, 5, 0, 0, 0]);
}

/// Every table of this length over these values.
fn all_tables(values: &[u8], length: usize) -> AnswerCounts {
    let mut counts = AnswerCounts::default();
    let mut digits = vec![0; length];
    let mut table = vec![values[0]; length];
    loop {
        counts.compare(&table);
        let Some(at) = (0..length).rfind(|at| digits[*at] + 1 < values.len()) else {
            return counts;
        };
        digits[at] += 1;
        table[at] = values[digits[at]];
        for later in at + 1..length {
            digits[later] = 0;
            table[later] = values[0];
        }
    }
}

/// The only one accepted: nil, start 0.
#[test]
fn all_tables_of_up_to_3_bytes() {
    let all: Vec<u8> = (0..=255).collect();
    let lengths = [(0, 1, 0), (1, 256, 0), (2, 65_536, 0), (3, 16_777_216, 1)];
    for (length, total, accepted) in lengths {
        let counts = all_tables(&all, length);
        assert_eq!(counts.total(), total);
        assert_eq!(counts.0[0], accepted);
    }
}

/// Over the values that make a difference.
///
/// So short a table has at most 4 terms and no measure near its limit. A byte
/// can then be a kind (1 to 13; 0 and 14 are just outside), a tray (15 is the
/// last, 16 one too many), a term (0 to 3; all others are alike) or a count (0
/// or not). So 0 to 17 are enough. The other values are there to meet a fault
/// with large bytes: around 64, 128, 200 and 255.
///
/// Accepted are: put on any of 16 trays, start 0; two nils, start 0 or 1; a nil
/// and an end or a retry, either first, start the nil.
#[test]
fn all_tables_of_4_bytes() {
    let mut values: Vec<u8> = (0..=17).collect();
    values.extend([63, 64, 65, 127, 128, 199, 200, 201, 254, 255]);
    let counts = all_tables(&values, 4);
    assert_eq!(counts.total(), 28 * 28 * 28 * 28);
    assert_eq!(counts.0[0], 16 + 2 + 4);
    counts.at_least([22, 190_000, 5_000, 0, 30_000, 75_000, 100, 0, 250, 1_700]);
}

/// Over 0 to 16.
///
/// Accepted are: three terms without a body, start any of the three if it is a
/// nil; a put and a term without a body, either first, start the put, or the
/// other if it is a nil; an end or a retry and its atom.
#[test]
fn all_tables_of_5_bytes() {
    let values: Vec<u8> = (0..=16).collect();
    let counts = all_tables(&values, 5);
    assert_eq!(counts.total(), 17 * 17 * 17 * 17 * 17);
    assert_eq!(counts.0[0], 3 * 9 + 2 * 16 * (3 + 1) + 2);
    counts.at_least([
        157, 220_000, 34_000, 0, 18_000, 400_000, 2_200, 0, 2_900, 10_000,
    ]);
}
