//! Answers of the engine, each compared with the second implementation's.

use reference::calls;
use ruonfidd::{Hall, Refusal, Tally, HALL_BYTES};

use crate::ffi;

/// A number (0 for none) and a place.
pub(crate) type Answer = (u8, usize);

/// The answer where nothing is refused.
pub(crate) const ACCEPTED: Answer = (0, 0);

fn answer_of<T>(result: &Result<T, Refusal>) -> Answer {
    match result {
        Ok(_) => ACCEPTED,
        Err(refusal) => (refusal.number, refusal.place),
    }
}

/// The answer of a bare call. The place is one that no call can give, so that
/// one left as it was would be noticed.
fn bare_answer(call: impl FnOnce(&mut usize) -> u8) -> Answer {
    let mut place = usize::MAX;
    let number = call(&mut place);
    (number, place)
}

/// The answer on a table; a difference fails the test.
#[track_caller]
pub(crate) fn table_answer(table: &[u8]) -> Answer {
    let second = calls::check_table(table);
    let answer = (second.number, second.place);
    let bare = bare_answer(|place| ffi::check_table(table, place));
    assert_eq!(bare, answer, "{table:?}");
    assert_eq!(
        answer_of(&ruonfidd::check_table(table)),
        answer,
        "{table:?}"
    );
    answer
}

/// This is the answer on the table.
#[track_caller]
pub(crate) fn table_gives(table: &[u8], answer: Answer) {
    assert_eq!(table_answer(table), answer, "{table:?}");
}

/// The answer on a stored hall; a difference fails the test.
#[track_caller]
pub(crate) fn hall_answer(table: &[u8], hall: &[u8]) -> Answer {
    let second = calls::check_hall(table, hall);
    let answer = (second.number, second.place);
    let bare = bare_answer(|place| ffi::check_hall(table, hall, place));
    assert_eq!(bare, answer, "{table:?}");
    let safe = answer_of(&ruonfidd::check_hall(table, hall));
    assert_eq!(safe, answer, "{table:?}");
    match Hall::from_bytes(table, hall) {
        Ok(owned) => {
            assert_eq!(answer, ACCEPTED, "{table:?}");
            assert!(owned.as_bytes() == hall, "other bytes on {table:?}");
        }
        refused => assert_eq!(answer_of(&refused), answer, "{table:?}"),
    }
    answer
}

/// This is the answer on the hall.
#[track_caller]
pub(crate) fn hall_gives(table: &[u8], hall: &[u8], answer: Answer) {
    assert_eq!(hall_answer(table, hall), answer, "{table:?}");
}

/// The hall that a table opens in memory that held other bytes, or the answer
/// that refuses it. All calls must agree, also on what a refusal leaves.
#[track_caller]
pub(crate) fn opened_over(table: &[u8], before: &[u8]) -> Result<Vec<u8>, Answer> {
    let mut hall = before.to_vec();
    let mut by_bare_call = before.to_vec();
    let mut by_second = before.to_vec();
    let result = ruonfidd::open_hall(table, &mut hall);
    let bare = bare_answer(|place| ffi::open_hall(table, &mut by_bare_call, place));
    let answer = match (result, calls::open(table, &mut by_second)) {
        (Ok(tally), Ok(fresh)) => {
            let expected = (fresh.commits, fresh.failed, fresh.retries);
            assert_eq!((tally.commits, tally.failed, tally.retries), expected);
            ACCEPTED
        }
        (Err(refusal), Err(expected)) => {
            let answer = (refusal.number, refusal.place);
            assert_eq!(answer, (expected.number, expected.place), "{table:?}");
            assert!(hall == before, "a refusal wrote on {table:?}");
            answer
        }
        other => panic!("{other:?} on {table:?}"),
    };
    assert_eq!(bare, answer, "{table:?}");
    assert!(hall == by_second, "other bytes on {table:?}");
    assert!(hall == by_bare_call, "other bytes on {table:?}");
    if before.len() == HALL_BYTES {
        match Hall::open(table) {
            Ok((owned, tally)) => {
                assert_eq!(answer, ACCEPTED, "{table:?}");
                assert_eq!(tally, Tally::fresh());
                assert!(owned.as_bytes() == &*hall, "other bytes on {table:?}");
            }
            refused => assert_eq!(answer_of(&refused), answer, "{table:?}"),
        }
    }
    if answer == ACCEPTED {
        Ok(hall)
    } else {
        Err(answer)
    }
}

/// The hall that an accepted table opens.
#[track_caller]
pub(crate) fn opened(table: &[u8]) -> Vec<u8> {
    opened_over(table, &[170; HALL_BYTES]).expect("an accepted table")
}

/// How often each answer on a table was met: acceptances first, then refusals
/// 1 to 9.
#[derive(Debug, Default, PartialEq, Eq)]
pub(crate) struct AnswerCounts(pub(crate) [usize; 10]);

impl AnswerCounts {
    #[track_caller]
    pub(crate) fn compare(&mut self, table: &[u8]) {
        let (number, _) = table_answer(table);
        self.0[usize::from(number)] += 1;
    }

    pub(crate) fn total(&self) -> usize {
        self.0.iter().sum()
    }

    #[track_caller]
    pub(crate) fn at_least(&self, least: [usize; 10]) {
        for (number, least) in least.iter().enumerate() {
            assert!(
                self.0[number] >= *least,
                "{number} was met too seldom: {self:?}"
            );
        }
    }
}
