//! Turns of an opening, each call's answer compared with the second
//! implementation's.

use std::fmt;

use reference::calls;
use reference::hall::Station;
use reference::table::{byte_of, width, Table, Term};
use reference::turns::Turn;
use ruonfidd::opening_turn;

use crate::ffi;

use super::answers::Answer;
use super::by_hand::{PUTTING, WAITING};
use super::wrong_turns::{right, WRONG};

/// What a turn lays down, by the two bytes that it has in a hall, and how many
/// terms are left then.
#[derive(Clone, Copy, Debug, PartialEq, Eq)]
pub(crate) struct OneTurn {
    pub(crate) laid: Option<[u8; 2]>,
    pub(crate) left: usize,
}

/// The turn, none past the end, or the refusal.
pub(crate) type TurnAnswer = Result<Option<OneTurn>, Answer>;

/// Number, place, laid, station and left: all that a bare call sets.
type AllSet = (u8, usize, u8, [u8; 2], usize);

fn all_set(answer: TurnAnswer) -> AllSet {
    match answer {
        Err((number, place)) => (number, place, 0, [0, 0], 0),
        Ok(None) => (0, 0, 2, [0, 0], 0),
        Ok(Some(OneTurn { laid: None, left })) => (0, 0, 0, [0, 0], left),
        Ok(Some(OneTurn {
            laid: Some(station),
            left,
        })) => (0, 0, 1, station, left),
    }
}

/// What the bare call sets. Before it stands there what no call sets, so that
/// something left as it was would be noticed.
fn bare(table: &[u8], turn: usize) -> AllSet {
    let (mut laid, mut station) = (u8::MAX, [u8::MAX; 2]);
    let (mut left, mut place) = (usize::MAX, usize::MAX);
    let number = ffi::opening_turn(table, turn, &mut laid, &mut station, &mut left, &mut place);
    (number, place, laid, station, left)
}

/// The answer of the safe call.
fn safe(table: &[u8], turn: usize) -> TurnAnswer {
    match opening_turn(table, turn) {
        Err(refusal) => Err((refusal.number, refusal.place)),
        Ok(turn) => Ok(turn.map(|turn| OneTurn {
            laid: turn.laid.map(ruonfidd::Station::to_bytes),
            left: turn.left,
        })),
    }
}

/// The answer of the second implementation.
fn second(table: &[u8], turn: usize) -> TurnAnswer {
    match calls::opening_turn(table, turn) {
        Err(refusal) => Err((refusal.number, refusal.place)),
        Ok(Turn::PastTheEnd) => Ok(None),
        Ok(Turn::Nothing { to_open }) => Ok(Some(OneTurn {
            laid: None,
            left: to_open,
        })),
        Ok(Turn::Laid { station, to_open }) => Ok(Some(OneTurn {
            laid: Some(bytes_of(&station)),
            left: to_open,
        })),
    }
}

/// The bytes of a station that an opening lays down.
pub(crate) fn bytes_of(station: &Station) -> [u8; 2] {
    match *station {
        Station::Waiting { term } => [WAITING, byte_of(term)],
        Station::Putting { tray } => [PUTTING, tray],
        Station::Attempt { .. } => panic!("an opening begins no attempt"),
    }
}

/// The answer to a turn; a difference fails the test.
#[track_caller]
pub(crate) fn turn_answer(table: &[u8], turn: usize) -> TurnAnswer {
    let answer = second(table, turn);
    let set = all_set(answer);
    assert_eq!(bare(table, turn), set, "turn {turn} of {table:?}");
    assert_eq!(safe(table, turn), answer, "turn {turn} of {table:?}");
    answer
}

/// Numbers of turns that are looked at for every table: around the most that an
/// opening has, and where a number of one byte, or of all there are, ends.
pub(crate) const FAR: [usize; 10] = [
    125,
    126,
    127,
    128,
    255,
    256,
    usize::MAX / 2,
    usize::MAX / 2 + 1,
    usize::MAX - 1,
    usize::MAX,
];

/// All turns of an accepted table's opening, asked for one by one; past the last
/// there are none, however far.
#[track_caller]
pub(crate) fn all_turns(table: &[u8]) -> Vec<OneTurn> {
    let mut turns = Vec::new();
    while let Some(turn) = turn_answer(table, turns.len()).expect("an accepted table") {
        turns.push(turn);
    }
    let end = turns.len();
    for number in [end + 1, end + 2].into_iter().chain(FAR) {
        let expected = Ok(turns.get(number).copied());
        let answer = turn_answer(table, number);
        assert_eq!(answer, expected, "turn {number} of {table:?}");
    }
    turns
}

/// The table is refused so, whichever turn is asked for.
#[track_caller]
pub(crate) fn refused_at_every_turn(table: &[u8], refusal: Answer) {
    for turn in [0, 1, 2, 3, 62, 63, 64].into_iter().chain(FAR) {
        let answer = turn_answer(table, turn);
        assert_eq!(answer, Err(refusal), "turn {turn} of {table:?}");
    }
}

/// What was met over many openings.
#[derive(Clone, Debug, Default)]
pub(crate) struct TurnsMet {
    pub(crate) tables: usize,
    pub(crate) turns: usize,
    pub(crate) stations: usize,
    /// Openings where the left side of two is itself two, and the same of the
    /// right side.
    pub(crate) left_nested: usize,
    pub(crate) right_nested: usize,
    /// Openings with a nil before one station and behind another.
    pub(crate) nil_between: usize,
    /// Openings wider than 8.
    pub(crate) wide: usize,
    /// The most terms that were left after a turn.
    pub(crate) most_left: usize,
    /// How many openings each wrong way to open would have shown differently.
    pub(crate) wrong: [usize; WRONG.len()],
}

impl TurnsMet {
    /// Notes what there is to meet in a table's opening, with its turns.
    pub(crate) fn note(&mut self, table: &Table, turns: &[OneTurn]) {
        self.tables += 1;
        self.turns += turns.len();
        self.stations += turns.iter().filter_map(|turn| turn.laid).count();
        self.left_nested += usize::from(is_nested(table, |left, _| left));
        self.right_nested += usize::from(is_nested(table, |_, right| right));
        self.nil_between += usize::from(has_nil_between(turns));
        self.wide += usize::from(width(&table.terms, table.start) > 8);
        let most = turns.iter().map(|turn| turn.left).max();
        self.most_left = self.most_left.max(most.unwrap_or(0));
        assert_eq!(right(table), turns, "{table:?}");
        for (times, wrong) in self.wrong.iter_mut().zip(WRONG) {
            *times += usize::from((wrong.turns)(table) != turns);
        }
    }

    /// Each wrong way to open would have been noticed so often.
    #[track_caller]
    pub(crate) fn wrong_at_least(&self, least: usize) {
        for (times, wrong) in self.wrong.iter().zip(WRONG) {
            assert!(*times >= least, "{}: too seldom: {self}", wrong.name);
        }
    }
}

impl fmt::Display for TurnsMet {
    fn fmt(&self, out: &mut fmt::Formatter<'_>) -> fmt::Result {
        write!(
            out,
            "{} openings, {} turns, {} stations; two sides on the left of two in {}, on the \
             right in {}; a nil between stations in {}; wider than 8 {}; at most {} left; wrong \
             ways to open that would be noticed {:?}",
            self.tables,
            self.turns,
            self.stations,
            self.left_nested,
            self.right_nested,
            self.nil_between,
            self.wide,
            self.most_left,
            self.wrong
        )
    }
}

/// Whether somewhere in the start term this side of two is itself two.
fn is_nested(table: &Table, side: fn(usize, usize) -> usize) -> bool {
    let mut to_see = vec![table.start];
    while let Some(term) = to_see.pop() {
        let Term::SideBySide { left, right } = table.terms[term] else {
            continue;
        };
        if matches!(table.terms[side(left, right)], Term::SideBySide { .. }) {
            return true;
        }
        to_see.extend([left, right]);
    }
    false
}

/// Whether a nil's turn, which leaves one term less, has stations on both sides.
fn has_nil_between(turns: &[OneTurn]) -> bool {
    let laid = |turn: &OneTurn| turn.laid.is_some();
    let (Some(first), Some(last)) = (turns.iter().position(laid), turns.iter().rposition(laid))
    else {
        return false;
    };
    (first + 1..last).any(|at| !laid(&turns[at]) && turns[at].left < turns[at - 1].left)
}
