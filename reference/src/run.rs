//! A list of choices on a hall, and the tally (document 01, "Choices and
//! moves", refusals 12 to 20).

use crate::choice::first_choice;
use crate::hall::Hall;
use crate::moves::{make_move, Outcome, ATFAIL, ATOK, ATRE};
use crate::table::Table;

/// How often rules 7, 6 and 5 were done.
#[derive(Clone, Copy, Debug, PartialEq, Eq)]
pub struct Tally {
    /// Rule 7.
    pub commits: u32,
    /// Rule 6.
    pub failed: u32,
    /// Rule 5.
    pub retries: u32,
}

impl Tally {
    /// The fresh tally.
    pub const FRESH: Tally = Tally {
        commits: 0,
        failed: 0,
        retries: 0,
    };

    /// The tally after one more use of this rule. A counter at its top stays.
    #[must_use]
    pub fn after(self, rule: u8) -> Tally {
        let mut tally = self;
        match rule {
            ATOK => tally.commits = tally.commits.saturating_add(1),
            ATFAIL => tally.failed = tally.failed.saturating_add(1),
            ATRE => tally.retries = tally.retries.saturating_add(1),
            _ => {}
        }
        tally
    }
}

/// What a run gives.
#[derive(Clone, Debug, PartialEq, Eq)]
pub struct RunResult {
    /// The number of the refusal that ended the run, 0 for none.
    pub number: u8,
    /// The refused choice's first byte, or the length of the choices.
    pub place: usize,
    /// How many choices were done.
    pub done: usize,
    /// The hall after them.
    pub hall: Hall,
    /// The tally after them.
    pub tally: Tally,
    /// The rules of the choices done, in order.
    pub rules: Vec<u8>,
}

/// Runs choices up to their end or the first refused one.
pub fn run_choices(table: &Table, hall: &Hall, tally: Tally, choices: &[u8]) -> RunResult {
    let mut result = RunResult {
        number: 0,
        place: 0,
        done: 0,
        hall: hall.clone(),
        tally,
        rules: Vec::new(),
    };
    while result.place < choices.len() {
        let choice = match first_choice(&choices[result.place..]) {
            Ok(choice) => choice,
            Err(number) => {
                result.number = number;
                return result;
            }
        };
        match make_move(table, &result.hall, choice) {
            Outcome::Refused(number) => {
                result.number = number;
                return result;
            }
            Outcome::Moved { rule, hall, .. } => {
                result.hall = hall;
                result.tally = result.tally.after(rule);
                result.rules.push(rule);
                result.done += 1;
                result.place += choice.size();
            }
        }
    }
    result
}
