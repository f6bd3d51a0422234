//! What is told is just what is missing: with so many tokens more the tray is not
//! short, with one fewer than these it still is, by one.

use reference::generator::Random;
use reference::hall::{decode, encode, Hall, Station};
use reference::moves::{ARDF, ATFAIL};
use reference::run::Tally;

use super::{choices_of_attempts, short_hall};
use crate::common::by_chance::{accepted, any_hall, any_table};
use crate::common::calls::Sequence;
use crate::common::seeds::{say, seeds};
use crate::common::shortages::Told;

/// The hall with so many tokens more in the tray, where the rule looks for them:
/// among the counts of now, or in the snapshot of the attempt.
fn with_more(hall: &Hall, position: usize, rule: u8, tray: u8, more: u8) -> Hall {
    let mut hall = hall.clone();
    let counts = match &mut hall.stations[position] {
        Station::Attempt { snapshot, .. } if rule == ARDF => snapshot,
        _ => &mut hall.counts,
    };
    counts[usize::from(tray)] += more;
    hall
}

/// What this choice tells on this hall, and its rule.
#[track_caller]
fn told(table: &[u8], hall: &Hall, choice: [u8; 3]) -> (u8, Told) {
    let mut sequence = Sequence::new(table, &encode(hall), Tally::FRESH);
    let ((_, _, rule), told) = sequence.step_told(choice);
    (rule, told)
}

/// Goes up token by token from a shortage that was told, and then on to the next
/// tray that is short. How many trays there were.
fn filled_up(table: &[u8], hall: &Hall, choice: [u8; 3], rule: u8, mut short: (u8, u8)) -> usize {
    let position = usize::from(choice[1]);
    let mut hall = hall.clone();
    let mut trays = 0;
    loop {
        let (tray, by) = short;
        trays += 1;
        for more in 1..by {
            let fuller = with_more(&hall, position, rule, tray, more);
            let still = (rule, Some((tray, by - more)));
            assert_eq!(
                told(table, &fuller, choice),
                still,
                "{choice:?} on {table:?}"
            );
        }
        hall = with_more(&hall, position, rule, tray, by);
        match told(table, &hall, choice) {
            // The next one is a higher tray.
            (again, Some(next)) => {
                assert!(again == rule && next.0 > tray, "{choice:?} on {table:?}");
                short = next;
            }
            // Nothing is short any more: committed or read, or refused for want of
            // room, but not failed.
            (other, None) => {
                assert_ne!(other, rule, "{choice:?} on {table:?}");
                return trays;
            }
        }
    }
}

/// How often a commit and a read were short of one tray, and of several.
#[derive(Debug, Default)]
struct Filled {
    commits: [usize; 2],
    reads: [usize; 2],
}

impl Filled {
    /// Fills up whatever an attempt of this hall lacks.
    fn fill_up(&mut self, table: &[u8], hall: &Hall) {
        for choice in choices_of_attempts(hall) {
            let (rule, Some(short)) = told(table, hall, choice) else {
                continue;
            };
            let trays = filled_up(table, hall, choice, rule, short);
            let met = match rule {
                ATFAIL => &mut self.commits,
                _ => &mut self.reads,
            };
            met[usize::from(trays > 1)] += 1;
        }
    }

    #[track_caller]
    fn at_least(&self, least: usize) {
        say(&format!("shortages filled up: {self:?}"));
        let all = self.commits.iter().chain(&self.reads);
        assert!(all.min() >= Some(&least), "{self:?}");
    }
}

#[test]
fn on_any_hall() {
    let mut filled = Filled::default();
    for seed in seeds("shortages filled up on any hall", 3_000) {
        let mut random = Random::new(seed);
        let bytes = any_table(&mut random);
        let hall = any_hall(&mut random, &accepted(&bytes), usize::from(seed % 4 != 0));
        filled.fill_up(&bytes, &hall);
    }
    filled.at_least(10);
}

#[test]
fn on_halls_that_lack_much() {
    let bytes = super::table();
    let table = accepted(&bytes);
    let mut filled = Filled::default();
    for seed in seeds("shortages filled up on halls that lack much", 1_500) {
        let mut random = Random::new(seed);
        let hall = decode(&table, &short_hall(&mut random)).expect("a well formed hall");
        filled.fill_up(&bytes, &hall);
    }
    filled.at_least(100);
}
