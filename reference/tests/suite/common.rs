//! What several modules of tests need.

use reference::build::Builder;
use reference::calls::{self, Answer, RunAnswer};
use reference::choice::{whole_choices, Choice};
use reference::hall::{decode, Hall, HALL_BYTES};
use reference::moves::{make_move, Outcome};
use reference::run::{run_choices, Tally};
use reference::table::{read_table, Table};

/// The table of document 01's printed example: one block, one token.
pub(crate) const EXAMPLE_TABLE: [u8; 14] = [7, 10, 1, 0, 9, 0, 1, 6, 2, 12, 0, 1, 13, 3];
/// Its choices.
pub(crate) const EXAMPLE_CHOICES: [u8; 12] = [1, 0, 2, 0, 0, 2, 0, 0, 1, 0, 1, 0];

/// A table with one term of each kind.
pub(crate) fn each_kind() -> Vec<u8> {
    let mut table = Builder::new();
    let end = table.end(); // 0
    let retry = table.retry(); // 1
    let rd = table.rd(2, end); // 2
    table.wt(3, rd); // 3
    table.or_else(rd, retry); // 4
    let nil = table.nil(); // 5
    table.put(1); // 6
    table.take(0, nil); // 7
    table.repeated_take(0, nil); // 8
    table.side_by_side(nil, nil); // 9
    table.atom(4); // 10
    table.start(nil)
}

/// The table in these bytes, which must be accepted.
pub(crate) fn accepted(bytes: &[u8]) -> Table {
    read_table(bytes).expect("an accepted table")
}

/// The stored hall that the table opens.
pub(crate) fn opened(table: &[u8]) -> Vec<u8> {
    let mut hall = vec![0xAA; HALL_BYTES];
    assert_eq!(calls::open(table, &mut hall), Ok(Tally::FRESH));
    hall
}

/// Everything that a run gives.
pub(crate) struct Run {
    pub(crate) answer: RunAnswer,
    pub(crate) rules: Vec<u8>,
    pub(crate) hall: Hall,
    pub(crate) tally: Tally,
}

/// Runs choices from the opened hall through the public calls.
pub(crate) fn run_from_opening(table: &[u8], choices: &[u8]) -> Run {
    let mut stored = opened(table);
    let mut tally = Tally::FRESH;
    let read = accepted(table);
    let before = decode(&read, &stored).expect("a well formed hall");
    let answer = calls::run(table, &mut stored, &mut tally, choices);
    let hall = decode(&read, &stored).expect("a well formed hall");
    let again = run_choices(&read, &before, Tally::FRESH, choices);
    assert_eq!(again.hall, hall);
    Run {
        answer,
        rules: again.rules,
        hall,
        tally,
    }
}

/// The hall after an accepted choice, and its rule.
pub(crate) fn moved(table: &Table, hall: &Hall, choice: Choice) -> (u8, Hall) {
    match make_move(table, hall, choice) {
        Outcome::Moved { rule, hall, .. } => (rule, hall),
        Outcome::Refused(number) => panic!("{choice:?} refused with {number}"),
    }
}

/// The choices in these bytes, which must hold whole choices alone.
pub(crate) fn all_choices(bytes: &[u8]) -> Vec<Choice> {
    let choices = whole_choices(bytes);
    let size: usize = choices.iter().map(|choice| choice.size()).sum();
    assert_eq!(size, bytes.len());
    choices
}

pub(crate) fn act(position: u8) -> Choice {
    Choice::Act { position }
}

pub(crate) fn inside(position: u8, node: u8) -> Choice {
    Choice::Inside { position, node }
}

pub(crate) fn answer(number: u8, place: usize) -> Answer {
    Answer { number, place }
}

pub(crate) fn run_answer(number: u8, place: usize, done: usize) -> RunAnswer {
    RunAnswer {
        number,
        place,
        done,
    }
}
