//! The public calls on bytes, with their refusals in number order: table,
//! hall, choices (document 01, "Reasons to turn a request down"). The one that
//! says a sentence has a refusal of its own, 21 (document 02, Q-1).
//!
//! Where a call is not refused its place is 0, except for a run, whose place
//! is then the length of the choices.

use crate::choice::{first_choice, Choice};
use crate::hall::{decode, encode, opening, Hall, HALL_BYTES};
use crate::moves::{self, make_move, Outcome};
use crate::run::{run_choices, Tally};
use crate::sentence::{sentence, Reply, SENTENCE_ROOM};
use crate::shortage::Shortage;
use crate::suggestion::suggestion;
use crate::table::{read_table, Refusal, Table};
use crate::turns::{turn_of, Turn};

/// A number (0 for none) and a place.
#[derive(Clone, Copy, Debug, PartialEq, Eq)]
pub struct Answer {
    /// The number of the refusal, 0 for none.
    pub number: u8,
    /// Its place, 0 for none.
    pub place: usize,
}

impl Answer {
    /// Nothing was refused.
    pub const ACCEPTED: Answer = Answer {
        number: 0,
        place: 0,
    };
}

/// A number (0 for none), a place and the choices done.
#[derive(Clone, Copy, Debug, PartialEq, Eq)]
pub struct RunAnswer {
    /// The number of the refusal, 0 for none.
    pub number: u8,
    /// Its place, or the length of the choices.
    pub place: usize,
    /// How many choices were done.
    pub done: usize,
}

/// The answer to one choice.
#[derive(Clone, Copy, Debug, PartialEq, Eq)]
pub enum StepAnswer {
    /// One rule was done.
    Moved {
        /// Its number, 1 to 13.
        rule: u8,
        /// What was short: something under rules 6 and 9, nothing under any other
        /// (document 02, Q-3).
        short: Option<Shortage>,
    },
    /// Why nothing moved; the place of 12 to 20 is the choice's first byte, 0.
    Refused(Refusal),
}

fn answer<T>(result: &Result<T, Refusal>) -> Answer {
    match *result {
        Ok(_) => Answer::ACCEPTED,
        Err(Refusal { number, place }) => Answer { number, place },
    }
}

/// Refusals 1 to 9.
pub fn check_table(table: &[u8]) -> Answer {
    answer(&read_table(table))
}

/// Refusals 1 to 11.
pub fn check_hall(table: &[u8], hall: &[u8]) -> Answer {
    answer(&read_both(table, hall))
}

/// Opens a hall from a table: writes the whole hall and gives the fresh tally.
///
/// # Errors
///
/// Refusals 1 to 10. Nothing is written then.
pub fn open(table: &[u8], hall: &mut [u8]) -> Result<Tally, Refusal> {
    let table = read_table(table)?;
    test_hall_length(hall)?;
    hall.copy_from_slice(&encode(&opening(&table)));
    Ok(Tally::FRESH)
}

/// The turn with this number, counted from 0, of the opening of a table's start
/// process (document 02, Q-4). Every number is allowed: one without a turn is
/// past the end.
///
/// # Errors
///
/// Refusals 1 to 9.
pub fn opening_turn(table: &[u8], number: usize) -> Result<Turn, Refusal> {
    Ok(turn_of(&read_table(table)?, number))
}

/// Runs choices. Under refusals 1 to 11 hall and tally stay as they are; under
/// the others they are as the choices done have made them.
pub fn run(table: &[u8], hall: &mut [u8], tally: &mut Tally, choices: &[u8]) -> RunAnswer {
    let (table, before) = match read_both(table, hall) {
        Ok(both) => both,
        Err(Refusal { number, place }) => {
            return RunAnswer {
                number,
                place,
                done: 0,
            }
        }
    };
    let result = run_choices(&table, &before, *tally, choices);
    hall.copy_from_slice(&encode(&result.hall));
    *tally = result.tally;
    RunAnswer {
        number: result.number,
        place: result.place,
        done: result.done,
    }
}

/// Makes the one choice at the front of these bytes; what follows it is not
/// looked at. Refused, hall and tally stay as they are.
pub fn step(table: &[u8], hall: &mut [u8], tally: &mut Tally, choice: &[u8]) -> StepAnswer {
    match make_step(table, hall, choice) {
        Err(refusal) => StepAnswer::Refused(refusal),
        Ok((rule, short, next)) => {
            hall.copy_from_slice(&encode(&next));
            *tally = tally.after(rule);
            StepAnswer::Moved { rule, short }
        }
    }
}

/// The rule, what was short and the hall after it, or a refusal.
fn make_step(
    table: &[u8],
    hall: &[u8],
    choice: &[u8],
) -> Result<(u8, Option<Shortage>, Hall), Refusal> {
    let refused = |number| Refusal { number, place: 0 };
    let (table, before) = read_both(table, hall)?;
    let choice = first_choice(choice).map_err(refused)?;
    match make_move(&table, &before, choice) {
        Outcome::Moved { rule, short, hall } => Ok((rule, short, hall)),
        Outcome::Refused(number) => Err(refused(number)),
    }
}

/// All accepted choices of a stored hall.
///
/// # Errors
///
/// Refusals 1 to 11.
pub fn accepted_choices(table: &[u8], hall: &[u8]) -> Result<Vec<Choice>, Refusal> {
    let (table, hall) = read_both(table, hall)?;
    Ok(moves::accepted_choices(&table, &hall))
}

/// True when a stored hall has no accepted choice.
///
/// # Errors
///
/// Refusals 1 to 11.
pub fn is_still(table: &[u8], hall: &[u8]) -> Result<bool, Refusal> {
    Ok(accepted_choices(table, hall)?.is_empty())
}

/// The suggestion for a stored hall: its first accepted choice, or nothing where
/// the hall is still (document 02, Q-2).
///
/// # Errors
///
/// Refusals 1 to 11.
pub fn suggest(table: &[u8], hall: &[u8]) -> Result<Option<Choice>, Refusal> {
    let (table, hall) = read_both(table, hall)?;
    Ok(suggestion(&table, &hall))
}

/// Writes the sentence for a choice and its answer to the front of the buffer
/// and gives its length. The rest of the buffer stays as it is.
///
/// # Errors
///
/// Refusal 21 where the buffer has fewer bytes than [`SENTENCE_ROOM`], even where
/// they would hold the sentence. Nothing is written then.
pub fn say(
    kind: u8,
    position: u8,
    node: u8,
    reply: Reply,
    buffer: &mut [u8],
) -> Result<usize, Refusal> {
    if buffer.len() < SENTENCE_ROOM {
        return Err(Refusal {
            number: 21,
            place: 0,
        });
    }
    let said = sentence(kind, position, node, reply);
    buffer[..said.len()].copy_from_slice(said.as_bytes());
    Ok(said.len())
}

/// Table and hall of a call, or refusals 1 to 11.
fn read_both(table: &[u8], hall: &[u8]) -> Result<(Table, Hall), Refusal> {
    let table = read_table(table)?;
    test_hall_length(hall)?;
    let hall = decode(&table, hall).ok_or(Refusal {
        number: 11,
        place: 0,
    })?;
    Ok((table, hall))
}

fn test_hall_length(hall: &[u8]) -> Result<(), Refusal> {
    if hall.len() == HALL_BYTES {
        Ok(())
    } else {
        Err(Refusal {
            number: 10,
            place: 0,
        })
    }
}
