//! Accepted tables with some damage: cut, changed in one byte, or more.

use reference::generator::{
    accepted_table, contended_table, damaged_table, record_starts, Random, Shape,
};

use crate::common::answers::{table_gives, AnswerCounts, ACCEPTED};
use crate::common::by_hand::EXAMPLE;

/// Each front part of an accepted table: cut between two records it lacks the
/// start, else its last record is cut short. The bytes behind the cut are there
/// in memory and must not be looked at.
#[test]
fn cut_anywhere() {
    let mut random = Random::new(7);
    for _ in 0..1500 {
        let shape = Shape::any(&mut random);
        let table = accepted_table(&mut random, shape);
        let starts = record_starts(&table);
        for cut in 0..table.len() {
            let record = *starts.iter().rfind(|at| **at <= cut).unwrap_or(&0);
            let answer = if record == cut { (9, cut) } else { (2, record) };
            table_gives(&table[..cut], answer);
        }
        table_gives(&table, ACCEPTED);
    }
}

/// Every byte of some accepted tables set to every value.
#[test]
fn one_byte_changed() {
    let mut counts = AnswerCounts::default();
    let mut random = Random::new(8);
    let mut tables = vec![EXAMPLE.to_vec()];
    for _ in 0..12 {
        let shape = Shape::small(&mut random);
        tables.push(accepted_table(&mut random, shape));
        tables.push(contended_table(&mut random));
    }
    for table in tables {
        table_gives(&table, ACCEPTED);
        for at in 0..table.len() {
            let mut changed = table.clone();
            for byte in 0..=255 {
                changed[at] = byte;
                counts.compare(&changed);
            }
        }
    }
    counts.at_least([9_000, 50_000, 100, 0, 25_000, 50_000, 2_000, 4, 150, 80]);
}

#[test]
fn random_damaged() {
    let mut counts = AnswerCounts::default();
    for seed in 0..150_000 {
        counts.compare(&damaged_table(&mut Random::new(seed)));
    }
    counts.at_least([
        6_000, 15_000, 4_500, 1_000, 4_500, 24_000, 9_000, 1_000, 650, 7_000,
    ]);
}
