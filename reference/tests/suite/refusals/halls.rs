//! Refusals 10 and 11: halls.

use reference::calls::{self, check_hall};
use reference::hall::{decode, encode, HALL_BYTES};
use reference::run::Tally;
use reference::table::{byte_of, Refusal};

use crate::common::{accepted, answer, each_kind, opened, run_answer, EXAMPLE_TABLE};

#[test]
fn refusal_10_length_of_the_hall() {
    let good = opened(&EXAMPLE_TABLE);
    for length in [0, 1, 16, HALL_BYTES - 1, HALL_BYTES + 1, 2 * HALL_BYTES] {
        let mut hall = good.clone();
        hall.resize(length, 7);
        let before = hall.clone();
        let mut tally = Tally::FRESH;
        let refusal = Refusal {
            number: 10,
            place: 0,
        };
        assert_eq!(check_hall(&EXAMPLE_TABLE, &hall), answer(10, 0));
        assert_eq!(calls::open(&EXAMPLE_TABLE, &mut hall), Err(refusal));
        assert_eq!(
            calls::run(&EXAMPLE_TABLE, &mut hall, &mut tally, &[9]),
            run_answer(10, 0, 0)
        );
        assert_eq!(calls::accepted_choices(&EXAMPLE_TABLE, &hall), Err(refusal));
        assert_eq!(calls::is_still(&EXAMPLE_TABLE, &hall), Err(refusal));
        assert_eq!(calls::suggest(&EXAMPLE_TABLE, &hall), Err(refusal));
        assert_eq!((hall, tally), (before, Tally::FRESH));
    }
    assert_eq!(check_hall(&EXAMPLE_TABLE, &good), answer(0, 0));
}

#[test]
fn a_refused_table_comes_before_the_hall() {
    let mut hall = vec![9; 3];
    let mut tally = Tally {
        commits: 1,
        failed: 2,
        retries: 3,
    };
    let refusal = Refusal {
        number: 4,
        place: 1,
    };
    let table = [1, 2, 16, 13, 0];
    assert_eq!(check_hall(&table, &hall), answer(4, 1));
    assert_eq!(calls::open(&table, &mut hall), Err(refusal));
    assert_eq!(
        calls::run(&table, &mut hall, &mut tally, &[9]),
        run_answer(4, 1, 0)
    );
    assert_eq!(calls::accepted_choices(&table, &hall), Err(refusal));
    assert_eq!(calls::is_still(&table, &hall), Err(refusal));
    assert_eq!(calls::suggest(&table, &hall), Err(refusal));
    assert_eq!(hall, [9; 3]);
    assert_eq!(
        tally,
        Tally {
            commits: 1,
            failed: 2,
            retries: 3
        }
    );
}

/// A hall of zeros with these bytes behind the counts.
fn stored(stations: &[u8]) -> Vec<u8> {
    let mut bytes = vec![0; 16];
    bytes.extend(stations);
    bytes.resize(HALL_BYTES, 0);
    bytes
}

/// A stored leaf.
fn leaf(term: u8, log_length: u8, log: &[u8]) -> Vec<u8> {
    let mut bytes = vec![23, term, log_length];
    bytes.extend(log);
    bytes.resize(19, 0);
    bytes
}

/// A stored attempt of block 10 with a snapshot of ones.
fn attempt(nodes: &[Vec<u8>]) -> Vec<u8> {
    let mut bytes = vec![21, 10];
    bytes.extend([1; 16]);
    for node in nodes {
        bytes.extend(node);
    }
    bytes
}

#[track_caller]
fn hall_is(stations: &[u8], well_formed: bool) {
    let table = each_kind();
    let bytes = stored(stations);
    let number = if well_formed { 0 } else { 11 };
    assert_eq!(
        check_hall(&table, &bytes),
        answer(number, 0),
        "{stations:?}"
    );
    let read = accepted(&table);
    if let Some(hall) = decode(&read, &bytes) {
        assert_eq!(encode(&hall), bytes);
    } else {
        let mut hall = bytes.clone();
        let mut tally = Tally::FRESH;
        assert_eq!(
            calls::run(&table, &mut hall, &mut tally, &[9]),
            run_answer(11, 0, 0)
        );
        assert_eq!((hall, tally), (bytes, Tally::FRESH));
    }
}

#[test]
fn refusal_11_stations() {
    hall_is(&[], true);
    for term in 0..=255u8 {
        hall_is(&[20, term], [7, 8, 10].contains(&term));
        hall_is(&[24, term], term < 16);
        let mut bytes = attempt(&[leaf(0, 0, &[])]);
        bytes[1] = term;
        hall_is(&bytes, term == 10);
    }
    for kind in 0..=255u8 {
        hall_is(&[kind, 7], kind == 20 || kind == 24);
        hall_is(&[20, 7, kind, 7], kind == 20 || kind == 24);
    }
    // A gap of one zero, and a byte far behind.
    hall_is(&[20, 7, 0, 20, 7], false);
    hall_is(&[0, 20, 7], false);
    let table = each_kind();
    let mut bytes = stored(&[20, 7]);
    bytes[HALL_BYTES - 1] = 1;
    assert_eq!(check_hall(&table, &bytes), answer(11, 0));
    // 64 stations and one more.
    hall_is(&[20, 7].repeat(64), true);
    hall_is(&[20, 7].repeat(65), false);
    hall_is(&[24, 0].repeat(64), true);
    hall_is(&[24, 0].repeat(65), false);
    // Any counts, any snapshot.
    let mut bytes = stored(&attempt(&[leaf(0, 0, &[])]));
    for (index, byte) in bytes.iter_mut().enumerate().take(16) {
        *byte = 255 - byte_of(index);
    }
    bytes[18..34].copy_from_slice(&[255; 16]);
    assert_eq!(check_hall(&table, &bytes), answer(0, 0));
}

#[test]
fn refusal_11_leaves() {
    for term in 0..=255u8 {
        let is_expression = term <= 4 || term == 255;
        hall_is(&attempt(&[leaf(term, 0, &[])]), is_expression);
    }
    // Log bytes.
    for byte in 0..=255u8 {
        hall_is(&attempt(&[leaf(0, 1, &[byte])]), byte < 32);
        hall_is(&attempt(&[leaf(0, 2, &[0, byte])]), byte < 32);
        hall_is(&attempt(&[leaf(0, 1, &[0, byte])]), byte == 0);
        hall_is(&attempt(&[leaf(0, 16, &[byte; 16])]), byte < 32);
        let mut last = [0; 16];
        last[15] = byte;
        hall_is(&attempt(&[leaf(0, 15, &last)]), byte == 0);
    }
    // Log length with the length of what is left: end 0, retry 0, 255 0, rd 1,
    // wt 2, orElse 1.
    for length in 0..=255u8 {
        for (term, room) in [(0, 16), (1, 16), (255, 16), (2, 15), (3, 14), (4, 15)] {
            hall_is(&attempt(&[leaf(term, length, &[1; 0])]), length <= room);
        }
    }
}

#[test]
fn refusal_11_trees() {
    let fork = || vec![22];
    let end = || leaf(0, 0, &[]);
    hall_is(&attempt(&[]), false);
    hall_is(&attempt(&[fork()]), false);
    hall_is(&attempt(&[fork(), end()]), false);
    hall_is(&attempt(&[fork(), end(), end()]), true);
    hall_is(&attempt(&[end(), end()]), false);
    hall_is(&attempt(&[fork(), end(), end(), end()]), false);
    hall_is(&attempt(&[fork(), fork(), end(), end(), end()]), true);
    hall_is(&attempt(&[fork(), end(), fork(), end(), end()]), true);
    hall_is(&attempt(&[fork(), end(), fork(), end()]), false);
    // Another station may follow a whole tree, but not a part of one.
    let mut bytes = attempt(&[fork(), end(), end()]);
    bytes.extend([24, 3]);
    hall_is(&bytes, true);
    let mut bytes = attempt(&[fork(), end()]);
    bytes.extend([24, 3]);
    hall_is(&bytes, false);
    // Eight branches in all; term 4 has two.
    for (kind, branches) in [(0, 1), (1, 1), (255, 1), (2, 1), (3, 1), (4, 2)] {
        for leaves in 1..=9 {
            let mut left = vec![fork(); leaves - 1];
            left.extend(vec![leaf(kind, 0, &[]); leaves]);
            hall_is(&attempt(&left), leaves * branches <= 8);
            let mut right = Vec::new();
            for _ in 1..leaves {
                right.push(fork());
                right.push(leaf(kind, 0, &[]));
            }
            right.push(leaf(kind, 0, &[]));
            hall_is(&attempt(&right), leaves * branches <= 8);
        }
    }
}

#[test]
fn the_fullest_hall_fills_every_byte() {
    let table = each_kind();
    let mut nodes = vec![vec![22]; 7];
    nodes.extend(vec![leaf(0, 16, &[31; 16]); 8]);
    let one = attempt(&nodes);
    assert_eq!(16 + 64 * one.len(), HALL_BYTES);
    let mut bytes = vec![255; 16];
    bytes.extend(one.repeat(64));
    assert_eq!(check_hall(&table, &bytes), answer(0, 0));
    assert_eq!(encode(&decode(&accepted(&table), &bytes).unwrap()), bytes);
    // The same with a node that goes past the end.
    bytes[16 + 63 * one.len() + 18 + 7] = 22;
    assert_eq!(check_hall(&table, &bytes), answer(11, 0));
}

#[test]
fn hostile_halls_end() {
    let table = each_kind();
    let mut forks = stored(&attempt(&[]));
    forks[34..].fill(22);
    assert_eq!(check_hall(&table, &forks), answer(11, 0));
    // As many whole leaves as fit behind their forks.
    let mut nodes = vec![vec![22]; 564];
    nodes.extend(vec![leaf(0, 0, &[]); 565]);
    let many = attempt(&nodes);
    assert!(many.len() <= HALL_BYTES - 16 && many.len() > HALL_BYTES - 60);
    assert_eq!(check_hall(&table, &stored(&many)), answer(11, 0));
    for byte in 0..=255 {
        assert_eq!(
            check_hall(&table, &[byte; HALL_BYTES]).number,
            if byte == 0 { 0 } else { 11 }
        );
    }
}
