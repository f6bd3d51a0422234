//! Openings written out turn by turn.

use reference::build::Builder;

use super::turns_to_the_hall;
use crate::common::by_hand::{each_kind, EXAMPLE, PUTTING, WAITING};
use crate::common::turns::{all_turns, turn_answer, OneTurn};

/// A turn that lays down nothing, with so many terms left.
fn nothing(left: usize) -> OneTurn {
    OneTurn { laid: None, left }
}

/// A turn that lays down a station that waits with this term.
fn waits(term: u8, left: usize) -> OneTurn {
    let laid = Some([WAITING, term]);
    OneTurn { laid, left }
}

/// A turn that lays down a station that is about to put.
fn puts(tray: u8, left: usize) -> OneTurn {
    let laid = Some([PUTTING, tray]);
    OneTurn { laid, left }
}

/// These are the turns.
#[track_caller]
fn opens_by(table: &[u8], turns: &[OneTurn]) {
    assert_eq!(turns_to_the_hall(table), turns, "{table:?}");
}

#[test]
fn a_single_nil() {
    opens_by(&[1, 13, 0], &[nothing(0)]);
}

#[test]
fn a_single_put() {
    opens_by(&[2, 0, 13, 0], &[puts(0, 0)]);
    opens_by(&[2, 15, 13, 0], &[puts(15, 0)]);
}

#[test]
fn a_single_take() {
    opens_by(&[1, 3, 4, 0, 13, 1], &[waits(1, 0)]);
}

#[test]
fn a_single_repeated_take() {
    opens_by(&[1, 4, 4, 0, 13, 1], &[waits(1, 0)]);
}

#[test]
fn a_single_block() {
    opens_by(&[7, 6, 0, 13, 1], &[waits(1, 0)]);
    opens_by(&EXAMPLE, &[waits(3, 0)]);
}

#[test]
fn each_kind_of_process() {
    use each_kind::{records, BLOCK, NIL, PUT, REPEATED_TAKE, SIDE_BY_SIDE, TAKE};
    let table = records();
    opens_by(&table.start(NIL), &[nothing(0)]);
    opens_by(&table.start(PUT), &[puts(15, 0)]);
    opens_by(&table.start(TAKE), &[waits(TAKE, 0)]);
    opens_by(&table.start(REPEATED_TAKE), &[waits(REPEATED_TAKE, 0)]);
    opens_by(&table.start(BLOCK), &[waits(BLOCK, 0)]);
    let both = [nothing(2), waits(TAKE, 1), waits(REPEATED_TAKE, 0)];
    opens_by(&table.start(SIDE_BY_SIDE), &both);
}

/// The example of `docs/FORMAT.md`: a put and a nil side by side, a take beside
/// both.
#[test]
fn the_documents_example() {
    let table = [1, 2, 4, 3, 0, 0, 5, 1, 0, 5, 3, 2, 13, 4];
    let turns = [nothing(2), nothing(3), puts(4, 2), nothing(1), waits(2, 0)];
    opens_by(&table, &turns);
}

/// What follows a take is not opened, however wide it is.
#[test]
fn a_take_of_many() {
    let mut table = Builder::new();
    let put = table.put(3);
    let many = table.copies(put, 64);
    let take = table.take(0, many);
    let again = table.repeated_take(0, many);
    opens_by(&table.start(take), &[waits(take, 0)]);
    opens_by(&table.start(again), &[waits(again, 0)]);
}

#[test]
fn two_nils() {
    opens_by(&[1, 5, 0, 0, 13, 1], &[nothing(2), nothing(1), nothing(0)]);
}

#[test]
fn two_puts_left_before_right() {
    let turns = [nothing(2), puts(6, 1), puts(5, 0)];
    opens_by(&[2, 5, 2, 6, 5, 1, 0, 13, 2], &turns);
}

/// A put, a nil and a put: the nil has a turn of its own wherever it stands.
#[test]
fn a_nil_between_two_puts() {
    let mut table = Builder::new();
    let (nil, first, last) = (table.nil(), table.put(1), table.put(2));
    let front = table.side_by_side(first, nil);
    let to_the_left = table.side_by_side(front, last);
    let back = table.side_by_side(nil, last);
    let to_the_right = table.side_by_side(first, back);
    opens_by(
        &table.start(to_the_left),
        &[nothing(2), nothing(3), puts(1, 2), nothing(1), puts(2, 0)],
    );
    opens_by(
        &table.start(to_the_right),
        &[nothing(2), puts(1, 1), nothing(2), nothing(1), puts(2, 0)],
    );
}

/// Four puts in pairs: both pairs give way, the second one only when the first is
/// laid down.
#[test]
fn two_pairs() {
    let mut table = Builder::new();
    let put: Vec<u8> = (0..4).map(|tray| table.put(tray)).collect();
    let front = table.side_by_side(put[0], put[1]);
    let back = table.side_by_side(put[2], put[3]);
    let all = table.side_by_side(front, back);
    opens_by(
        &table.start(all),
        &[
            nothing(2),
            nothing(3),
            puts(0, 2),
            puts(1, 1),
            nothing(2),
            puts(2, 1),
            puts(3, 0),
        ],
    );
}

/// One term on both sides is opened twice, at any depth.
#[test]
fn a_shared_term_on_both_sides() {
    let mut table = Builder::new();
    let end = table.end();
    let block = table.atom(end);
    let two = table.side_by_side(block, block);
    let four = table.side_by_side(two, two);
    let turns = [nothing(2), waits(block, 1), waits(block, 0)];
    opens_by(&table.start(two), &turns);
    opens_by(
        &table.start(four),
        &[
            nothing(2),
            nothing(3),
            waits(block, 2),
            waits(block, 1),
            nothing(2),
            waits(block, 1),
            waits(block, 0),
        ],
    );
}

/// Trays by turns, so that every station of a long chain is known by its place.
fn trays() -> impl Iterator<Item = u8> {
    (0..16).cycle()
}

/// 64 puts, each to the right of all before it: turn 62 leaves 64 terms, more than
/// any other turn there is; then a put is laid down each turn.
#[test]
fn leaning_to_the_left_64_wide() {
    let mut table = Builder::new();
    let puts_of: Vec<u8> = (0..16).map(|tray| table.put(tray)).collect();
    let mut all = puts_of[0];
    for place in 1..64 {
        all = table.side_by_side(all, puts_of[place % 16]);
    }
    let bytes = table.start(all);
    let pairs = (0..63).map(|turn| nothing(turn + 2));
    let laid = trays()
        .zip((0..64).rev())
        .map(|(tray, left)| puts(tray, left));
    let turns: Vec<OneTurn> = pairs.chain(laid).collect();
    assert_eq!(turns.len(), 127);
    opens_by(&bytes, &turns);
    assert_eq!(turn_answer(&bytes, 62), Ok(Some(nothing(64))));
}

/// 64 puts, each to the left of all behind it: never more than two terms are left.
#[test]
fn leaning_to_the_right_64_wide() {
    let mut table = Builder::new();
    let puts_of: Vec<u8> = (0..16).map(|tray| table.put(tray)).collect();
    let mut all = puts_of[15];
    for place in (0..63).rev() {
        all = table.side_by_side(puts_of[place % 16], all);
    }
    let mut turns = Vec::new();
    for tray in trays().take(63) {
        turns.extend([nothing(2), puts(tray, 1)]);
    }
    turns.push(puts(15, 0));
    assert_eq!(turns.len(), 127);
    opens_by(&table.start(all), &turns);
}

/// 64 puts in pairs of pairs: before a put is laid down, one pair for each time
/// that its number can be halved gives way.
#[test]
fn balanced_64_wide() {
    let mut table = Builder::new();
    let put = table.put(9);
    let all = (0..6).fold(put, |all, _| table.side_by_side(all, all));
    let mut turns = Vec::new();
    let mut left = 1;
    for number in 0_u32..64 {
        for _ in 0..number.trailing_zeros().min(6) {
            left += 1;
            turns.push(nothing(left));
        }
        left -= 1;
        turns.push(puts(9, left));
    }
    assert_eq!((turns.len(), left), (127, 0));
    opens_by(&table.start(all), &turns);
}

/// 64 nils: as many turns, and nothing is laid down.
#[test]
fn nils_alone_64_wide() {
    let mut table = Builder::new();
    let nil = table.nil();
    let all = table.copies(nil, 64);
    let pairs = (0..63).map(|turn| nothing(turn + 2));
    let turns: Vec<OneTurn> = pairs.chain((0..64).rev().map(nothing)).collect();
    opens_by(&table.start(all), &turns);
}

/// The start term may have any number, the last one too.
#[test]
fn the_last_of_200_terms() {
    let mut table = Builder::new();
    let put = table.put(7);
    while table.terms() < 198 {
        table.nil();
    }
    let take = table.take(0, put);
    let both = table.side_by_side(take, put);
    assert_eq!((take, both), (198, 199));
    let turns = [nothing(2), waits(198, 1), puts(7, 0)];
    opens_by(&table.start(both), &turns);
}

/// Tokens records are no terms, wherever they stand.
#[test]
fn tokens_records_between_the_terms() {
    let table = [12, 3, 9, 2, 5, 12, 5, 1, 1, 5, 0, 1, 12, 0, 255, 13, 2];
    opens_by(&table, &[nothing(2), puts(5, 1), nothing(0)]);
}

/// For each width there are twice as many turns less one, and none behind them.
#[test]
fn how_many_turns_each_width_has() {
    let mut table = Builder::new();
    let put = table.put(0);
    let mut all = put;
    for width in 1..=64 {
        let bytes = table.start(all);
        let last = 2 * width - 2;
        let answer = Ok(Some(puts(0, 0)));
        assert_eq!(turn_answer(&bytes, last), answer, "width {width}");
        let past = Ok(None);
        for turn in [last + 1, last + 2, last + 64, usize::MAX] {
            assert_eq!(turn_answer(&bytes, turn), past, "width {width}, {turn}");
        }
        if last > 0 {
            assert_ne!(turn_answer(&bytes, last - 1), past, "width {width}");
        }
        if width < 64 {
            all = table.side_by_side(all, put);
        }
    }
}

/// In whatever order turns are asked for, each has its own answer.
#[test]
fn turns_asked_for_backwards() {
    let mut table = Builder::new();
    let (nil, put) = (table.nil(), table.put(1));
    let pair = table.side_by_side(put, nil);
    let all = table.copies(pair, 20);
    let bytes = table.start(all);
    let turns = all_turns(&bytes);
    assert_eq!(turns.len(), 79);
    for (number, turn) in turns.iter().enumerate().rev() {
        assert_eq!(turn_answer(&bytes, number), Ok(Some(*turn)));
        assert_eq!(turn_answer(&bytes, 79), Ok(None));
    }
}
