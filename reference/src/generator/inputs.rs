//! Inputs of a printed run by chance.

use super::{accepted_table, choices, contended_table, damaged_table, nearly_full_table};
use super::{record_starts, Random, Shape};
use crate::hall::opening;
use crate::print::LONGEST_INPUT;
use crate::table::read_table;

/// The input of a printed run: a table and choices, valid or damaged, short or
/// long, some of it a little above or below the longest that is run.
pub fn input(random: &mut Random) -> Vec<u8> {
    match random.below(40) {
        0 => {
            let length = random.below(60);
            random.bytes(length)
        }
        1 => {
            let length = random.below(60);
            (0..length).map(|_| random.byte_below(14)).collect()
        }
        2 => near_the_limit(random),
        3..=9 => {
            let mut input = damaged_table(random);
            for _ in 0..random.below(20) {
                input.push(random.byte_below(4));
            }
            input
        }
        10..=14 => {
            let mut input = table_and_choices(random);
            damage(random, &mut input);
            input
        }
        _ => table_and_choices(random),
    }
}

/// An accepted table and choices, most of them accepted too.
fn table_and_choices(random: &mut Random) -> Vec<u8> {
    let mut input = match random.below(8) {
        0 => nearly_full_table(random),
        1..=4 => contended_table(random),
        _ => {
            let shape = Shape::any(random);
            accepted_table(random, shape)
        }
    };
    if random.percent(30) {
        fill_trays(random, &mut input);
    }
    let Ok(table) = read_table(&input) else {
        return input;
    };
    let first = opening(&table);
    let how_many = if first.stations.len() > 50 {
        random.below(12)
    } else {
        random.below(60)
    };
    input.extend(choices(random, &table, &first, how_many, 50));
    input
}

/// The trays that have tokens get as many as a tray can hold, or one less.
fn fill_trays(random: &mut Random, table: &mut [u8]) {
    for start in record_starts(table) {
        if table[start] == 12 {
            table[start + 2] = random.byte_between(254, 255);
        }
    }
}

/// A byte changed, added or lost.
fn damage(random: &mut Random, input: &mut Vec<u8>) {
    let at = random.below(input.len());
    match random.below(4) {
        0 => input[at] = random.byte(),
        1 => input[at] = random.byte_below(16),
        2 => input.insert(at, random.byte_below(16)),
        _ => {
            input.remove(at);
        }
    }
}

/// A length from three below the longest input that is run to three above it.
fn near_the_limit(random: &mut Random) -> Vec<u8> {
    let length = LONGEST_INPUT - 3 + random.below(7);
    let mut input = match random.below(3) {
        0 => table_and_choices(random),
        // A block that begins and retries as often as there are bytes.
        1 => vec![8, 6, 0, 13, 1],
        // A block that begins, fails to read and retries.
        _ => vec![7, 9, 0, 0, 6, 1, 13, 2],
    };
    let turn: &[u8] = match input[0] {
        8 => &[1, 0],
        _ => &[1, 0, 2, 0, 0, 1, 0],
    };
    let more = turn.iter().cycle().take(length - input.len());
    input.extend(more);
    input
}
