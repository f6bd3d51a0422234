//! Halls by chance: well formed ones, and ones with some damage.

use super::Random;
use crate::hall::{rest_branches, rest_length};
use crate::hall::{Action, Hall, Leaf, Log, Node, Rest, Station, LOG_ROOM};
use crate::table::{Counts, Table, MOST_BRANCHES, MOST_LENGTH, TRAYS};

/// A random hall that is well formed for the table. Most such halls are
/// reached by no run.
pub fn hall(random: &mut Random, table: &Table) -> Hall {
    let stations = if random.percent(5) {
        random.between(58, 64)
    } else {
        random.below(6)
    };
    hall_with(random, table, stations)
}

/// The same with so many stations, at most 64.
pub fn hall_with(random: &mut Random, table: &Table, stations: usize) -> Hall {
    let trays = if random.percent(80) {
        random.between(1, 4)
    } else {
        TRAYS
    };
    Hall {
        counts: counts(random, trays),
        stations: (0..stations)
            .map(|_| station(random, table, trays))
            .collect(),
    }
}

fn counts(random: &mut Random, trays: usize) -> Counts {
    let mut counts = [0; TRAYS];
    for count in counts.iter_mut().take(trays) {
        *count = match random.below(12) {
            0..=2 => 0,
            3..=5 => 1,
            6..=7 => 2,
            8 => 3,
            9 => 254,
            10 => 255,
            _ => random.byte(),
        };
    }
    counts
}

/// The terms with one of these kinds.
fn terms_of_kind(table: &Table, kinds: &[u8]) -> Vec<usize> {
    (0..table.terms.len())
        .filter(|term| kinds.contains(&table.terms[*term].kind()))
        .collect()
}

fn station(random: &mut Random, table: &Table, trays: usize) -> Station {
    let waiting = terms_of_kind(table, &[3, 4, 6]);
    let blocks = terms_of_kind(table, &[6]);
    let choice = random.below(10);
    if choice < 5 {
        if let Some(term) = random.pick(&blocks) {
            return Station::Attempt {
                term,
                snapshot: counts(random, trays),
                tree: tree(random, table, trays, MOST_BRANCHES),
            };
        }
    }
    if choice < 8 {
        if let Some(term) = random.pick(&waiting) {
            return Station::Waiting { term };
        }
    }
    Station::Putting {
        tray: random.byte_below(trays),
    }
}

/// A tree whose leaves have at most so many branches in all.
fn tree(random: &mut Random, table: &Table, trays: usize, most_branches: usize) -> Node {
    if most_branches >= 2 && random.percent(45) {
        let left = random.between(1, most_branches - 1);
        return Node::Fork(
            Box::new(tree(random, table, trays, left)),
            Box::new(tree(random, table, trays, most_branches - left)),
        );
    }
    Node::Leaf(leaf(random, table, trays, most_branches))
}

fn leaf(random: &mut Random, table: &Table, trays: usize, most_branches: usize) -> Leaf {
    let mut rests = vec![Rest::BareRetry];
    for term in terms_of_kind(table, &[7, 8, 9, 10, 11]) {
        if rest_branches(table, Rest::Term(term)) <= most_branches {
            rests.push(Rest::Term(term));
        }
    }
    let ends = terms_of_kind(table, &[7]);
    let rest = match random.pick(&ends) {
        Some(end) if random.percent(30) => Rest::Term(end),
        _ => random.pick(&rests).unwrap_or(Rest::BareRetry),
    };
    let room = (MOST_LENGTH - rest_length(table, rest)).min(LOG_ROOM);
    let length = if random.percent(85) {
        random.below(4).min(room)
    } else {
        random.between(0, room)
    };
    Leaf {
        rest,
        log: log(random, trays, length),
    }
}

fn log(random: &mut Random, trays: usize, length: usize) -> Log {
    let mut log = Log::EMPTY;
    for _ in 0..length {
        let tray = random.byte_below(trays);
        log = log.with(if random.percent(50) {
            Action::Read(tray)
        } else {
            Action::Write(tray)
        });
    }
    log
}

/// A stored hall with some damage; often not well formed any more.
pub fn damaged_hall(random: &mut Random, stored: &[u8]) -> Vec<u8> {
    let mut bytes = stored.to_vec();
    let used = bytes.len() - bytes.iter().rev().take_while(|byte| **byte == 0).count();
    for _ in 0..random.between(1, 2) {
        let at = random.below((used + 4).min(bytes.len()));
        match random.below(5) {
            0 => bytes[at] = random.byte(),
            1 => bytes[at] = random.byte_between(19, 25),
            2 => bytes[at] = random.byte_below(34),
            3 => {
                bytes.remove(at);
                bytes.push(0);
            }
            _ => {
                bytes.insert(at, random.byte_below(34));
                bytes.pop();
            }
        }
    }
    bytes
}
