//! Stored halls that are well formed.

use reference::generator::{self, Random};
use reference::hall::{encode, Hall, Station};

use crate::common::answers::{hall_gives, ACCEPTED};
use crate::common::by_chance::{accepted, any_table, reached_hall};

fn attempts(hall: &Hall) -> usize {
    hall.stations
        .iter()
        .filter(|station| matches!(station, Station::Attempt { .. }))
        .count()
}

#[test]
fn halls_that_a_run_reached() {
    let mut random = Random::new(3);
    let mut met = 0;
    for _ in 0..3_000 {
        let bytes = any_table(&mut random);
        let hall = reached_hall(&mut random, &accepted(&bytes), 30);
        met += attempts(&hall);
        hall_gives(&bytes, &encode(&hall), ACCEPTED);
    }
    assert!(met > 1_500, "{met}");
}

#[test]
fn halls_that_no_run_reached() {
    let mut random = Random::new(7);
    let mut met = 0;
    let mut full = 0;
    for _ in 0..3_000 {
        let bytes = any_table(&mut random);
        let hall = generator::hall(&mut random, &accepted(&bytes));
        met += attempts(&hall);
        full += usize::from(hall.stations.len() == 64);
        hall_gives(&bytes, &encode(&hall), ACCEPTED);
    }
    assert!(met > 1_500, "{met}");
    assert!(full > 5, "{full}");
}
