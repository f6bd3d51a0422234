//! Wrong ways to open by turns. What a test of openings has met shows which of
//! them it would have noticed.

use std::collections::VecDeque;

use reference::hall::stations_of;
use reference::table::{byte_of, Table, Term};

use super::by_hand::{PUTTING, WAITING};
use super::turns::{bytes_of, OneTurn};

/// A way to open: all its turns.
pub(crate) struct Wrong {
    pub(crate) name: &'static str,
    pub(crate) turns: fn(&Table) -> Vec<OneTurn>,
}

/// The terms still to open, the next one first.
type Waiting = VecDeque<usize>;

/// How the left and the right side of two come among those that wait.
type Enter = fn(&mut Waiting, usize, usize);

/// Turns over a list of terms: how two sides enter it, and the station of any
/// other process.
fn walk(
    table: &Table,
    enter: Enter,
    station: fn(&Table, usize) -> Option<[u8; 2]>,
) -> Vec<OneTurn> {
    let mut waiting = Waiting::from([table.start]);
    let mut turns = Vec::new();
    while let Some(term) = waiting.pop_front() {
        let laid = match table.terms[term] {
            Term::SideBySide { left, right } => {
                enter(&mut waiting, left, right);
                None
            }
            _ => station(table, term),
        };
        turns.push(OneTurn {
            laid,
            left: waiting.len(),
        });
    }
    turns
}

/// The right way for two sides: the left one next, then the right one.
fn both_next(waiting: &mut Waiting, left: usize, right: usize) {
    waiting.push_front(right);
    waiting.push_front(left);
}

/// The station of a process that is not two side by side.
fn station_of(table: &Table, term: usize) -> Option<[u8; 2]> {
    stations_of(table, term).first().map(bytes_of)
}

/// The way that none of the wrong ones is.
pub(crate) fn right(table: &Table) -> Vec<OneTurn> {
    walk(table, both_next, station_of)
}

/// The right turns without some of them: each is looked at with how many terms
/// were left before it.
fn without(table: &Table, leave_out: fn(OneTurn, usize) -> bool) -> Vec<OneTurn> {
    let mut before = 1;
    let mut turns = right(table);
    turns.retain(|turn| {
        let kept = !leave_out(*turn, before);
        before = turn.left;
        kept
    });
    turns
}

/// None of them is right on every table.
pub(crate) const WRONG: [Wrong; 12] = [
    Wrong {
        name: "the right side first",
        turns: |table| {
            walk(
                table,
                |all, left, right| both_next(all, right, left),
                station_of,
            )
        },
    },
    Wrong {
        name: "two sides behind all others",
        turns: |table| {
            walk(
                table,
                |all, left, right| all.extend([left, right]),
                station_of,
            )
        },
    },
    Wrong {
        name: "the right side behind all others",
        turns: |table| {
            let enter: Enter = |all, left, right| {
                all.push_front(left);
                all.push_back(right);
            };
            walk(table, enter, station_of)
        },
    },
    Wrong {
        name: "the left side alone",
        turns: |table| walk(table, |all, left, _| all.push_front(left), station_of),
    },
    Wrong {
        name: "a term that is both sides opens once",
        turns: |table| {
            let enter: Enter = |all, left, right| {
                if left != right {
                    all.push_front(right);
                }
                all.push_front(left);
            };
            walk(table, enter, station_of)
        },
    },
    Wrong {
        name: "a nil laid down",
        turns: |table| {
            walk(table, both_next, |table, term| {
                station_of(table, term).or(Some([WAITING, byte_of(term)]))
            })
        },
    },
    Wrong {
        name: "a put told by its term",
        turns: |table| {
            walk(table, both_next, |table, term| match table.terms[term] {
                Term::Put { .. } => Some([PUTTING, byte_of(term)]),
                _ => station_of(table, term),
            })
        },
    },
    Wrong {
        name: "a nil takes no turn",
        turns: |table| {
            without(table, |turn, before| {
                turn.laid.is_none() && turn.left < before
            })
        },
    },
    Wrong {
        name: "two side by side take no turn",
        turns: |table| without(table, |turn, before| turn.left > before),
    },
    Wrong {
        name: "a turn for each station alone",
        turns: |table| without(table, |turn, _| turn.laid.is_none()),
    },
    Wrong {
        name: "the last turn past the end",
        turns: |table| without(table, |turn, _| turn.left == 0),
    },
    Wrong {
        name: "how many were left before the turn",
        turns: |table| {
            let mut before = 1;
            let mut turns = right(table);
            for turn in &mut turns {
                before = std::mem::replace(&mut turn.left, before);
            }
            turns
        },
    },
];
