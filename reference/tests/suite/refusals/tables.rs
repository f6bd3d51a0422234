//! Refusals 1 to 9: tables.

use reference::build::Builder;
use reference::calls::{check_table, Answer};
use reference::generator::{self, Random};
use reference::table::{body_length, byte_of};

use crate::common::{accepted, answer};

#[track_caller]
fn table_is(bytes: &[u8], number: u8, place: usize) {
    assert_eq!(check_table(bytes), answer(number, place), "{bytes:?}");
}

#[test]
fn refusal_1_unknown_kind() {
    for kind in 0..=255u8 {
        let bytes = [1, kind, 0, 0, 0, 0, 0];
        let known = (1..=13).contains(&kind);
        assert_eq!(check_table(&bytes) == answer(1, 1), !known, "kind {kind}");
    }
    table_is(&[0], 1, 0);
    table_is(&[14], 1, 0);
    table_is(&[2, 0, 255], 1, 2);
    table_is(&[12, 0, 1, 0], 1, 3);
}

#[test]
fn refusal_2_body_cut_short() {
    for (kind, body) in [
        (2, 1),
        (3, 2),
        (4, 2),
        (5, 2),
        (6, 1),
        (9, 2),
        (10, 2),
        (11, 2),
        (12, 2),
        (13, 1),
    ] {
        for there in 0..body {
            let mut bytes = vec![1, 7, kind];
            bytes.resize(3 + there, 255);
            table_is(&bytes, 2, 2);
        }
        // With the whole body there it is never 2.
        let mut bytes = vec![1, 7, kind];
        bytes.resize(3 + body, 255);
        assert_ne!(check_table(&bytes).number, 2);
    }
    // Kinds without a body are never cut short.
    table_is(&[1], 9, 1);
    table_is(&[7], 9, 1);
    table_is(&[8], 9, 1);
}

#[test]
fn refusal_3_too_many_terms() {
    let mut table = Builder::new();
    for _ in 0..200 {
        table.nil();
    }
    table_is(&table.start(199), 0, 0);
    table_is(&table.start(200), 5, 200);
    for record in [
        vec![1],
        vec![2, 99],
        vec![3, 99, 250],
        vec![4, 0, 0],
        vec![5, 0, 0],
        vec![6, 0],
        vec![7],
        vec![8],
        vec![9, 0, 0],
        vec![10, 99, 0],
        vec![11, 0, 0],
    ] {
        let mut more = table.clone();
        more.term(&record);
        table_is(&more.start(0), 3, 200);
        // One term fewer, and it is judged on its own.
        let mut fewer = vec![1; 199];
        fewer.extend(&record);
        fewer.extend([13, 0]);
        assert_ne!(check_table(&fewer).number, 3);
    }
    // Cut short comes first, and tokens records are no terms.
    let mut cut = table.bytes();
    cut.push(2);
    table_is(&cut, 2, 200);
    let mut tokens = table.clone();
    tokens.tokens(3, 9);
    table_is(&tokens.start(0), 0, 0);
}

#[test]
fn refusal_4_tray() {
    for tray in 0..=255u8 {
        let (number, place) = if tray > 15 { (4, 2) } else { (0, 0) };
        table_is(&[1, 7, 2, tray, 13, 0], number, place);
        table_is(&[1, 7, 3, tray, 0, 13, 0], number, place);
        table_is(&[1, 7, 4, tray, 0, 13, 0], number, place);
        table_is(&[1, 7, 9, tray, 1, 13, 0], number, place);
        table_is(&[1, 7, 10, tray, 1, 13, 0], number, place);
        table_is(&[1, 7, 12, tray, 1, 13, 0], number, place);
    }
    // Tray before reference, and before the count of tokens.
    table_is(&[3, 16, 0], 4, 0);
    table_is(&[12, 16, 0], 4, 0);
    table_is(&[12, 3, 1, 12, 19, 1], 4, 3);
}

#[test]
fn refusal_5_late_reference() {
    for reference in 2..=255u8 {
        table_is(&[1, 7, 3, 0, reference, 13, 0], 5, 2);
        table_is(&[1, 7, 4, 0, reference, 13, 0], 5, 2);
        table_is(&[1, 7, 5, reference, 0, 13, 0], 5, 2);
        table_is(&[1, 7, 5, 0, reference, 13, 0], 5, 2);
        table_is(&[1, 7, 6, reference, 13, 0], 5, 2);
        table_is(&[1, 7, 9, 0, reference, 13, 0], 5, 2);
        table_is(&[1, 7, 10, 0, reference, 13, 0], 5, 2);
        table_is(&[1, 7, 11, reference, 1, 13, 0], 5, 2);
        table_is(&[1, 7, 11, 1, reference, 13, 0], 5, 2);
        table_is(&[1, 7, 13, reference], 5, 2);
    }
    // Both references are tested here before either is tested for its class.
    table_is(&[1, 7, 5, 1, 2, 13, 0], 5, 2);
    table_is(&[1, 7, 11, 0, 2, 13, 0], 5, 2);
    // The numbers of tokens records are not counted.
    table_is(&[1, 12, 0, 1, 6, 1], 5, 4);
    table_is(&[13, 0], 5, 0);
}

#[test]
fn refusal_6_wrong_class() {
    table_is(&[1, 7, 3, 0, 1, 13, 0], 6, 2);
    table_is(&[1, 7, 4, 0, 1, 13, 0], 6, 2);
    table_is(&[1, 7, 5, 1, 0, 13, 0], 6, 2);
    table_is(&[1, 7, 5, 0, 1, 13, 0], 6, 2);
    table_is(&[1, 7, 6, 0, 13, 0], 6, 2);
    table_is(&[1, 7, 9, 0, 0, 13, 0], 6, 2);
    table_is(&[1, 7, 10, 0, 0, 13, 0], 6, 2);
    table_is(&[1, 7, 11, 0, 1, 13, 0], 6, 2);
    table_is(&[1, 7, 11, 1, 0, 13, 0], 6, 2);
    table_is(&[1, 7, 13, 1], 6, 2);
    // Every kind of term has its class: 1 to 6 processes, 7 to 11 expressions.
    let terms: [(&[u8], bool); 11] = [
        (&[1], true),
        (&[2, 0], true),
        (&[3, 0, 0], true),
        (&[4, 0, 0], true),
        (&[5, 0, 0], true),
        (&[6, 1], true),
        (&[7], false),
        (&[8], false),
        (&[9, 0, 1], false),
        (&[10, 0, 1], false),
        (&[11, 1, 1], false),
    ];
    for (record, is_process) in terms {
        let mut bytes = vec![1, 7];
        bytes.extend(record);
        let place = bytes.len();
        bytes.extend([13, 2]);
        if is_process {
            table_is(&bytes, 0, 0);
        } else {
            table_is(&bytes, 6, place);
        }
        bytes[place] = 6;
        bytes.extend([13, 0]);
        if is_process {
            table_is(&bytes, 6, place);
        } else {
            table_is(&bytes, 0, 0);
        }
    }
}

/// Doubling side by side: 2, 4, 8 ... copies.
fn doubled(table: &mut Builder, process: u8, times: usize) -> u8 {
    let mut all = process;
    for _ in 0..times {
        all = table.side_by_side(all, all);
    }
    all
}

#[test]
fn refusal_7_width() {
    let mut table = Builder::new();
    let nil = table.nil();
    let full = doubled(&mut table, nil, 6);
    table_is(&table.start(full), 0, 0);
    let mut left = table.clone();
    let place = left.offset();
    left.side_by_side(full, nil);
    table_is(&left.start(0), 7, place);
    let mut right = table.clone();
    right.side_by_side(nil, full);
    table_is(&right.start(0), 7, place);
    let mut twice = table.clone();
    twice.side_by_side(full, full);
    table_is(&twice.start(0), 7, place);
    // Behind a take the width starts again from 1.
    let mut behind = table.clone();
    let take = behind.take(0, full);
    let takes = doubled(&mut behind, take, 6);
    let again = behind.repeated_take(1, takes);
    let last = doubled(&mut behind, again, 6);
    table_is(&behind.start(last), 0, 0);
    let place = behind.offset();
    behind.side_by_side(take, last);
    table_is(&behind.start(last), 7, place);
}

#[test]
fn refusal_7_branches() {
    let mut table = Builder::new();
    let nil = table.nil();
    let retry = table.retry();
    let two = table.or_else(retry, retry);
    let deep = table.rd(0, two);
    let four = table.or_else(deep, two);
    let deep_four = table.wt(0, four);
    let eight = table.or_else(deep_four, four);
    table_is(&table.start(nil), 0, 0);
    let place = table.offset();
    for (left, right) in [(eight, retry), (retry, eight), (eight, eight)] {
        let mut more = table.clone();
        more.or_else(left, right);
        table_is(&more.start(nil), 7, place);
    }
    // A prefix or a block adds no branch.
    let prefixed = table.rd(3, eight);
    let block = table.atom(prefixed);
    table_is(&table.start(block), 0, 0);
}

#[test]
fn refusal_7_length() {
    let mut table = Builder::new();
    let end = table.end();
    let mut long = end;
    for _ in 0..16 {
        long = table.rd(0, long);
    }
    let block = table.atom(long);
    let short = table.wt(0, end);
    // orElse takes the larger of its sides.
    let either = table.or_else(short, long);
    let other = table.or_else(long, short);
    table_is(&table.start(block), 0, 0);
    let place = table.offset();
    for too_long in [long, either, other] {
        let mut more = table.clone();
        more.wt(1, too_long);
        table_is(&more.start(block), 7, place);
        let mut more = table.clone();
        more.rd(1, too_long);
        table_is(&more.start(block), 7, place);
    }
}

#[test]
fn refusal_8_tokens() {
    table_is(&[1, 12, 0, 0, 13, 0], 8, 1);
    table_is(&[1, 12, 0, 1, 13, 0], 0, 0);
    table_is(&[1, 12, 0, 255, 13, 0], 0, 0);
    table_is(&[1, 12, 0, 1, 12, 0, 1, 13, 0], 8, 4);
    table_is(&[1, 12, 0, 1, 12, 1, 1, 12, 0, 2, 13, 0], 8, 7);
    table_is(&[1, 12, 0, 1, 12, 0, 0, 13, 0], 8, 4);
    let mut table = Builder::new();
    let nil = table.nil();
    for tray in 0..16 {
        table.tokens(tray, tray + 1);
    }
    let bytes = table.start(nil);
    table_is(&bytes, 0, 0);
    let tokens = accepted(&bytes).tokens;
    assert_eq!(tokens, core::array::from_fn(|tray| byte_of(tray + 1)));
    // A tokens record may stand before any term.
    table_is(&[12, 5, 9, 1, 13, 0], 0, 0);
    assert_eq!(accepted(&[12, 5, 9, 1, 13, 0]).tokens[5], 9);
}

#[test]
fn refusal_9_the_end_of_the_table() {
    table_is(&[], 9, 0);
    table_is(&[1], 9, 1);
    table_is(&[1, 12, 0, 1], 9, 4);
    table_is(&[1, 13, 0], 0, 0);
    for follower in 0..=255u8 {
        table_is(&[1, 13, 0, follower], 9, 3);
    }
    table_is(&[1, 13, 0, 13, 0], 9, 3);
    table_is(&[1, 1, 13, 1, 1, 1, 1], 9, 4);
    // The start record itself is tested first.
    table_is(&[1, 13, 1, 9], 5, 1);
    table_is(&[7, 13, 0, 9], 6, 1);
}

#[test]
fn records_are_tested_one_by_one() {
    // The first bad record decides, whatever its number.
    table_is(&[12, 0, 0, 0], 8, 0);
    table_is(&[1, 2, 16, 0], 4, 1);
    table_is(&[1, 3, 0, 7, 99], 5, 1);
}

#[test]
fn refused_tables_by_chance() {
    let mut random = Random::new(1);
    let mut seen = [0; 10];
    for _ in 0..30_000 {
        let bytes = generator::damaged_table(&mut random);
        let Answer { number, place } = check_table(&bytes);
        seen[usize::from(number)] += 1;
        if number == 0 {
            continue;
        }
        assert!(place <= bytes.len());
        let ends_open = number == 9 && place == bytes.len();
        assert_eq!(place == bytes.len(), ends_open);
        if number == 9 && !ends_open {
            // What stands before the byte is accepted.
            table_is(&bytes[..place], 0, 0);
            continue;
        }
        // Before the place there are good records alone.
        table_is(&bytes[..place], 9, place);
        assert!(ends_open || generator::record_starts(&bytes).contains(&place));
        if number != 2 && number != 9 {
            // What follows the record has no part in it.
            let size = 1 + body_length(bytes[place]).unwrap_or(0);
            table_is(&bytes[..place + size], number, place);
            let mut other = bytes[..place + size].to_vec();
            other.extend([13, 255, 0, 99]);
            table_is(&other, number, place);
        }
    }
    for (number, times) in seen.iter().enumerate() {
        assert!(*times > 20, "number {number} seen {times} times");
    }
}
