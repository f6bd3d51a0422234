//! Refusals 1 to 9, one by one: where each begins, its place, and that it comes
//! before the tests with higher numbers.

mod bad_tokens; // 8
mod not_earlier; // 5
mod order;
mod record_cut_short; // 2
mod start_not_last; // 9
mod term_too_large; // 7
mod too_many_terms; // 3
mod unknown_kind; // 1
mod unknown_tray; // 4
mod wrong_class; // 6

use std::collections::BTreeSet;

use crate::common::answers::{table_gives, ACCEPTED};
use crate::common::by_hand::joined;

/// Records, each list with the place of its refusal.
type Cases<'a> = &'a [(&'a [u8], usize)];

/// Term 0 is a process, term 1 an expression.
const PROCESS_AND_EXPRESSION: &[u8] = &[1, 7];

/// Behind this front each case is refused with this number at its place, and
/// the records refused are of these kinds, none left out.
#[track_caller]
fn all_refused(number: u8, front: &[u8], cases: Cases<'_>, kinds: &[u8]) {
    let mut refused_kinds = BTreeSet::new();
    for (bytes, place) in cases {
        let table = joined(&[front, bytes]);
        let place = front.len() + place;
        table_gives(&table, (number, place));
        // What follows a refused record is not looked at.
        if number != 2 {
            table_gives(&joined(&[&table, &[13, 0]]), (number, place));
            table_gives(&joined(&[&table, &[0]]), (number, place));
        }
        refused_kinds.insert(table[place]);
    }
    assert_eq!(refused_kinds, kinds.iter().copied().collect());
}

/// Behind this front all of these are accepted.
#[track_caller]
fn all_accepted(front: &[u8], cases: &[&[u8]]) {
    for bytes in cases {
        table_gives(&joined(&[front, bytes]), ACCEPTED);
    }
}
