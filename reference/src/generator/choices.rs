//! Lists of choices by chance.

use super::Random;
use crate::choice::Choice;
use crate::hall::Hall;
use crate::moves::{accepted_choices, make_move, Outcome};
use crate::table::{byte_of, Table};

/// A list of about so many accepted choices from this hall on, as bytes. So
/// many times in a hundred a refused choice stands among them; then more bytes
/// follow it, which no run may look at.
pub fn choices(
    random: &mut Random,
    table: &Table,
    hall: &Hall,
    how_many: usize,
    percent_refused: usize,
) -> Vec<u8> {
    let mut bytes = Vec::new();
    let mut hall = hall.clone();
    for _ in 0..how_many {
        let accepted = accepted_choices(table, &hall);
        let Some(choice) = random.pick(&accepted) else {
            break;
        };
        bytes.extend(choice.bytes());
        if let Outcome::Moved { hall: next, .. } = make_move(table, &hall, choice) {
            hall = next;
        }
    }
    if random.percent(percent_refused) {
        if random.percent(10) {
            bytes.extend(cut_choice(random));
        } else {
            bytes.extend(refused_choice(random, table, &hall));
            for _ in 0..random.below(8) {
                bytes.push(random.byte_below(4));
            }
        }
    }
    bytes
}

/// The front of a choice, for the end of a list.
fn cut_choice(random: &mut Random) -> Vec<u8> {
    match random.below(3) {
        0 => vec![1],
        1 => vec![2],
        _ => vec![2, 0],
    }
}

/// Bytes of a choice that is refused in this hall though it is not cut short.
/// First one of the numbers that can come is drawn, then a choice for it.
fn refused_choice(random: &mut Random, table: &Table, hall: &Hall) -> Vec<u8> {
    let mut refused: Vec<(u8, Vec<u8>)> = Vec::new();
    let unknown = match random.byte_between(2, 255) {
        2 => 0,
        other => other,
    };
    refused.push((12, vec![unknown]));
    for choice in choices_to_try(random, hall) {
        if let Outcome::Refused(number) = make_move(table, hall, choice) {
            refused.push((number, choice.bytes()));
        }
    }
    let mut numbers: Vec<u8> = refused.iter().map(|(number, _)| *number).collect();
    numbers.sort_unstable();
    numbers.dedup();
    let number = random.pick(&numbers).unwrap_or(12);
    refused.retain(|(other, _)| *other == number);
    let index = random.below(refused.len());
    refused[index].1.clone()
}

/// Every station, every node that a small attempt can have, and some more.
fn choices_to_try(random: &mut Random, hall: &Hall) -> Vec<Choice> {
    let mut choices = Vec::new();
    let stations = byte_of(hall.stations.len());
    for position in 0..stations {
        choices.push(Choice::Act { position });
        for node in 0..6 {
            choices.push(Choice::Inside { position, node });
        }
        let node = random.byte();
        choices.push(Choice::Inside { position, node });
    }
    for position in [stations, random.byte_between(stations, 255)] {
        choices.push(Choice::Act { position });
        choices.push(Choice::Inside { position, node: 0 });
    }
    choices
}
