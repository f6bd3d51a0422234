//! Every choice on a hall, one by one: all stations and nodes that there are,
//! and some that there are not.

use reference::generator::{self, Random};
use reference::hall::{encode, Hall, Station};
use reference::run::Tally;
use reference::table::byte_of;

use crate::common::by_chance::{accepted, any_table, reached_hall};
use crate::common::calls::{Met, Sequence};
use crate::common::seeds::{say, seeds};

/// Numbers past the last one: the next, two at limits, the highest.
fn past(count: usize) -> [u8; 4] {
    [byte_of(count), 64.max(byte_of(count)), 128, 255]
}

/// Tries all of them on copies of one sequence.
fn try_every_choice(sequence: &Sequence, hall: &Hall) -> Met {
    let mut met = Met::default();
    let mut try_one = |choice: [u8; 3]| {
        let mut copy = sequence.copy();
        copy.step(choice);
        met.add(&copy.met);
    };
    for kind in [0, 3, 128, 255] {
        try_one([kind, 0, 0]);
    }
    for (position, station) in hall.stations.iter().enumerate() {
        let position = byte_of(position);
        let nodes = match station {
            Station::Attempt { tree, .. } => tree.size(),
            _ => 0,
        };
        // Of kind 1 the node counts for nothing.
        try_one([1, position, position]);
        for node in (0..byte_of(nodes)).chain(past(nodes)) {
            try_one([2, position, node]);
        }
    }
    for position in past(hall.stations.len()) {
        try_one([1, position, 0]);
        try_one([2, position, 0]);
    }
    met
}

#[test]
fn on_small_halls() {
    let mut met = Met::default();
    for seed in seeds("every choice on small halls", 6_000) {
        let mut random = Random::new(seed);
        let bytes = any_table(&mut random);
        let table = accepted(&bytes);
        let hall = if seed % 2 == 0 {
            let mut hall = reached_hall(&mut random, &table, 25);
            hall.stations.truncate(4);
            hall
        } else {
            let stations = random.between(1, 4);
            generator::hall_with(&mut random, &table, stations)
        };
        let sequence = Sequence::new(&bytes, &encode(&hall), Tally::FRESH);
        met.add(&try_every_choice(&sequence, &hall));
    }
    say(&format!("every choice on small halls: {met}"));
    assert!(met.calls >= 100_000, "{met}");
    met.rules_at_least(100);
    met.numbers_at_least([12, 14, 15, 16, 17, 18, 20].into_iter(), 100);
    met.short.several_at_least(15);
    met.short.wrong_at_least(25);
}

/// Halls of 62 to 64 stations: near the limit of stations and of bytes.
#[test]
fn on_nearly_full_halls() {
    let mut met = Met::default();
    for seed in seeds("every choice on nearly full halls", 90) {
        let mut random = Random::new(seed);
        let bytes = if seed % 3 == 0 {
            any_table(&mut random)
        } else {
            generator::nearly_full_table(&mut random)
        };
        let table = accepted(&bytes);
        let stations = random.between(62, 64);
        let hall = generator::hall_with(&mut random, &table, stations);
        let sequence = Sequence::new(&bytes, &encode(&hall), Tally::FRESH);
        met.add(&try_every_choice(&sequence, &hall));
    }
    say(&format!("every choice on nearly full halls: {met}"));
    assert!(met.calls >= 20_000, "{met}");
    met.rules_at_least(25);
    met.too_many_at_least(25);
    met.short.wrong_at_least(20);
}
