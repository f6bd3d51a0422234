//! What a table opens, and what a refused opening leaves.

use reference::build::Builder;
use reference::generator::{self, Random};
use reference::hall::opening;
use ruonfidd::{Tally, HALL_BYTES};

use crate::common::answers::{hall_gives, opened, opened_over, ACCEPTED};
use crate::common::by_chance::{accepted, any_table};
use crate::common::by_hand::{hall, EXAMPLE, PUTTING, WAITING};

/// The table opens these stations, without tokens.
#[track_caller]
fn opens(table: &[u8], stations: &[u8]) {
    assert!(opened(table) == hall(stations), "{table:?}");
}

#[test]
fn the_scopes_example() {
    let mut expected = hall(&[WAITING, 3]);
    expected[0] = 1;
    assert!(opened(&EXAMPLE) == expected);
}

#[test]
fn each_kind_of_process() {
    opens(&[1, 13, 0], &[]);
    opens(&[2, 0, 13, 0], &[PUTTING, 0]);
    opens(&[2, 15, 13, 0], &[PUTTING, 15]);
    opens(&[1, 3, 0, 0, 13, 1], &[WAITING, 1]);
    opens(&[1, 4, 0, 0, 13, 1], &[WAITING, 1]);
    opens(&[2, 7, 5, 0, 0, 13, 1], &[PUTTING, 7, PUTTING, 7]);
    opens(&[7, 6, 0, 13, 1], &[WAITING, 1]);
}

/// What a take or a repeated take opens into comes later.
#[test]
fn a_take_is_not_opened() {
    let mut table = Builder::new();
    let put = table.put(3);
    let many = table.copies(put, 64);
    let take = table.take(0, many);
    let again = table.repeated_take(0, many);
    opens(&table.start(take), &[WAITING, take]);
    opens(&table.start(again), &[WAITING, again]);
    // Not even where its tray has tokens.
    table.tokens(0, 9);
    let mut expected = hall(&[WAITING, take]);
    expected[0] = 9;
    assert!(opened(&table.start(take)) == expected);
}

/// The left side's stations, then the right side's, at any depth.
#[test]
fn left_before_right() {
    let mut table = Builder::new();
    let puts: Vec<u8> = (0..4).map(|tray| table.put(tray)).collect();
    let front = table.side_by_side(puts[0], puts[1]);
    let back = table.side_by_side(puts[2], puts[3]);
    let both = table.side_by_side(front, back);
    let to_the_left = table.side_by_side(front, puts[2]);
    let to_the_left = table.side_by_side(to_the_left, puts[3]);
    let to_the_right = table.side_by_side(puts[1], back);
    let to_the_right = table.side_by_side(puts[0], to_the_right);
    let swapped = table.side_by_side(back, front);
    let in_order = [PUTTING, 0, PUTTING, 1, PUTTING, 2, PUTTING, 3];
    for start in [both, to_the_left, to_the_right] {
        opens(&table.start(start), &in_order);
    }
    let other_order = [PUTTING, 2, PUTTING, 3, PUTTING, 0, PUTTING, 1];
    opens(&table.start(swapped), &other_order);
}

#[test]
fn nil_opens_into_none_wherever_it_stands() {
    let mut table = Builder::new();
    let nil = table.nil();
    let put = table.put(9);
    let left = table.side_by_side(nil, put);
    let right = table.side_by_side(put, nil);
    let both = table.side_by_side(left, right);
    let nils = table.side_by_side(nil, nil);
    let around = table.side_by_side(nils, both);
    opens(&table.start(nils), &[]);
    opens(&table.start(left), &[PUTTING, 9]);
    opens(&table.start(right), &[PUTTING, 9]);
    opens(&table.start(around), &[PUTTING, 9, PUTTING, 9]);
}

/// A width of 64, with 64 stations and with none.
#[test]
fn the_widest_terms() {
    let mut table = Builder::new();
    let nil = table.nil();
    let put = table.put(15);
    let puts = table.copies(put, 64);
    let nils = table.copies(nil, 64);
    opens(&table.start(puts), &[PUTTING, 15].repeat(64));
    opens(&table.start(nils), &[]);
}

/// The same term several times: a station each.
#[test]
fn a_shared_term_opens_each_time() {
    let mut table = Builder::new();
    let end = table.end();
    let block = table.atom(end);
    let two = table.side_by_side(block, block);
    let four = table.side_by_side(two, two);
    opens(&table.start(four), &[WAITING, block].repeat(4));
}

#[test]
fn a_tray_without_a_tokens_record_is_empty() {
    assert!(opened(&[1, 13, 0]) == vec![0; HALL_BYTES]);
    let mut expected = vec![0; HALL_BYTES];
    expected[4] = 200;
    assert!(opened(&[1, 12, 4, 200, 13, 0]) == expected);
}

/// Each tray's count is the one of its own record, in whatever order they come.
#[test]
fn every_tray_has_its_own_count() {
    let mut table = Builder::new();
    let nil = table.nil();
    let mut expected = vec![0; HALL_BYTES];
    for step in 0..16 {
        let tray = step * 7 % 16;
        let count = 255 - 16 * step;
        table.tokens(tray, count);
        expected[usize::from(tray)] = count;
    }
    assert!(opened(&table.start(nil)) == expected);
}

/// Whatever stood there: other bytes, a hall of another table, no hall at all.
#[test]
fn every_byte_is_written() {
    let table = EXAMPLE;
    let expected = opened(&table);
    let wide = generator::nearly_full_table(&mut Random::new(1));
    for before in [
        vec![0; HALL_BYTES],
        vec![255; HALL_BYTES],
        vec![22; HALL_BYTES],
        opened(&wide),
        expected.clone(),
    ] {
        assert!(opened_over(&table, &before) == Ok(expected.clone()));
    }
}

#[test]
fn the_tally_of_an_opening_is_fresh() {
    let mut hall = vec![0; HALL_BYTES];
    let zeros = Tally {
        commits: 0,
        failed: 0,
        retries: 0,
    };
    assert_eq!(ruonfidd::open_hall(&EXAMPLE, &mut hall), Ok(zeros));
}

/// Tables by chance, each opened over random bytes; the hall is well formed.
#[test]
fn openings_over_random_bytes() {
    let mut random = Random::new(1);
    let mut widest = 0;
    for _ in 0..4_000 {
        let table = any_table(&mut random);
        let before = random.bytes(HALL_BYTES);
        let hall = opened_over(&table, &before).expect("an opened hall");
        hall_gives(&table, &hall, ACCEPTED);
        widest = widest.max(opening(&accepted(&table)).stations.len());
    }
    assert_eq!(widest, 64);
}

/// Refused by the table, 1 to 9: the same answer, and every byte as it was.
#[test]
fn refused_tables_leave_every_byte() {
    let mut random = Random::new(2);
    let mut numbers = [0; 11];
    for _ in 0..6_000 {
        let table = generator::damaged_table(&mut random);
        let before = random.bytes(HALL_BYTES);
        let (number, _) = opened_over(&table, &before).err().unwrap_or(ACCEPTED);
        numbers[usize::from(number)] += 1;
    }
    for (number, times) in numbers.iter().enumerate().take(10).skip(1) {
        assert!(*times > 20, "{number}: {numbers:?}");
    }
    assert_eq!(numbers[10], 0);
}
