//! Shortages on tables and halls by chance. Every step is compared with the second
//! implementation and with what the tests work out themselves.

use reference::generator::{self, Random};
use reference::hall::{encode, opening, Hall};
use reference::moves::{ARDF, ATFAIL};
use reference::run::Tally;

use super::{choices_of_attempts, short_hall};
use crate::common::by_chance::{accepted, any_hall, any_table};
use crate::common::calls::{Met, Sequence};
use crate::common::choices::{steered, step_bytes};
use crate::common::seeds::{say, seeds};
use crate::common::shortages::Seen;

/// Every choice of every attempt, each on a copy of the hall.
fn every_step(table: &[u8], hall: &Hall) -> Met {
    let sequence = Sequence::new(table, &encode(hall), Tally::FRESH);
    let mut met = Met::default();
    for choice in choices_of_attempts(hall) {
        let mut copy = sequence.copy();
        copy.step(choice);
        met.add(&copy.met);
    }
    met
}

/// Halls of any kind: those that runs reach, and those that most often none does.
#[test]
fn on_any_hall() {
    let mut met = Met::default();
    for (round, seed) in seeds("shortages on any hall", 4_000).enumerate() {
        let mut random = Random::new(seed);
        let bytes = any_table(&mut random);
        let hall = any_hall(&mut random, &accepted(&bytes), round);
        met.add(&every_step(&bytes, &hall));
    }
    say(&format!("shortages on any hall: {met}"));
    assert!(met.rules[usize::from(ATFAIL)] >= 200, "{met}");
    assert!(met.rules[usize::from(ARDF)] >= 1_000, "{met}");
    met.short.numbers_at_least(1..=3, 5);
    met.short.several_at_least(30);
    met.short.wrong_at_least(50);
}

/// Halls of one attempt that most often lacks something. Both rules tell every tray
/// and every number there is.
#[test]
fn on_halls_that_lack_much() {
    let table = super::table();
    let mut met = Met::default();
    for seed in seeds("shortages on halls that lack much", 20_000) {
        let mut random = Random::new(seed);
        let hall = short_hall(&mut random);
        let mut sequence = Sequence::new(&table, &hall, Tally::FRESH);
        // One of them is refused.
        let refused = [[1, 0, 0], [2, 0, 0]].map(|choice| sequence.copy().step(choice).0 != 0);
        let choice = if refused[0] { [2, 0, 0] } else { [1, 0, 0] };
        assert_ne!(refused[0], refused[1], "{sequence}");
        sequence.step(choice);
        met.add(&sequence.met);
    }
    say(&format!("shortages on halls that lack much: {met}"));
    met.short.trays_at_least(100);
    met.short.numbers_at_least(1..=16, 30);
    met.short.several_at_least(1_000);
    met.short.wrong_at_least(200);
}

/// From openings: every read so far was within the snapshot, so that one that fails
/// tells of its own tray, by one.
#[test]
fn from_openings() {
    let mut met = Met::default();
    for seed in seeds("shortages from openings", 2_000) {
        let mut random = Random::new(seed);
        let bytes = generator::contended_table(&mut random);
        let table = accepted(&bytes);
        let rule = if random.percent(50) { ATFAIL } else { ARDF };
        let list = steered(&mut random, &table, &opening(&table), rule, 40);
        let mut sequence = Sequence::open(&bytes);
        for choice in reference::choice::whole_choices(&list) {
            let choice = step_bytes(choice, 0);
            let seen = Seen::before(&bytes, &sequence.hall, choice);
            let ((_, _, rule), told) = sequence.step_told(choice);
            if rule == ARDF {
                let tray = seen.and_then(|seen| seen.read).expect("a read");
                assert_eq!(told, Some((tray, 1)), "{sequence}");
            }
        }
        met.add(&sequence.met);
    }
    say(&format!("shortages from openings: {met}"));
    assert!(met.rules[usize::from(ATFAIL)] >= 200, "{met}");
    assert!(met.rules[usize::from(ARDF)] >= 2_000, "{met}");
}
