//! The opening as a loop: what each turn lays down and how many terms are then
//! still to open (document 02, Q-4).

use std::collections::VecDeque;

use reference::build::Builder;
use reference::calls::{check_table, opening_turn};
use reference::generator::{self, Random, Shape};
use reference::hall::{decode, stations_of, Station};
use reference::table::{width, Refusal, Table, Term, MOST_WIDTH};
use reference::turns::{Opening, Turn};

use crate::common::{accepted, answer, opened, EXAMPLE_TABLE};

/// Turn numbers that no refusal minds: the first, those about the last turn of
/// the widest opening, the largest.
const NUMBERS: [usize; 5] = [0, 1, 126, 127, usize::MAX];

fn waiting(term: u8, to_open: usize) -> Turn {
    let term = usize::from(term);
    let station = Station::Waiting { term };
    Turn::Laid { station, to_open }
}

fn putting(tray: u8, to_open: usize) -> Turn {
    let station = Station::Putting { tray };
    Turn::Laid { station, to_open }
}

fn nothing(to_open: usize) -> Turn {
    Turn::Nothing { to_open }
}

/// The turn of an accepted table.
#[track_caller]
fn turn(table: &[u8], number: usize) -> Turn {
    opening_turn(table, number).expect("an accepted table")
}

/// All turns of an accepted table, asked for one by one up to the end.
#[track_caller]
fn turns_of(table: &[u8]) -> Vec<Turn> {
    let mut turns = Vec::new();
    loop {
        match turn(table, turns.len()) {
            Turn::PastTheEnd => return turns,
            next => turns.push(next),
        }
        assert!(turns.len() < 2 * MOST_WIDTH, "no end of turns");
    }
}

/// What these turns laid down, in order.
fn laid(turns: &[Turn]) -> Vec<Station> {
    turns.iter().filter_map(station).collect()
}

fn station(turn: &Turn) -> Option<Station> {
    match turn {
        Turn::Laid { station, .. } => Some(station.clone()),
        Turn::Nothing { .. } | Turn::PastTheEnd => None,
    }
}

/// How many terms are still to open after a turn.
fn to_open(turn: &Turn) -> usize {
    match turn {
        Turn::Laid { to_open, .. } | Turn::Nothing { to_open } => *to_open,
        Turn::PastTheEnd => panic!("no turn"),
    }
}

/// The stations in the stored hall that a table opens.
fn stations_opened(bytes: &[u8], table: &Table) -> Vec<Station> {
    let hall = decode(table, &opened(bytes)).expect("a well formed hall");
    hall.stations
}

/// These are all the turns, they are as many as the width asks for, and they
/// lay down what the hall holds.
#[track_caller]
fn turns_are(bytes: &[u8], expected: &[Turn]) {
    assert_eq!(turns_of(bytes), expected);
    let table = accepted(bytes);
    let width = width(&table.terms, table.start);
    assert_eq!(expected.len(), 2 * width - 1);
    assert_eq!(laid(expected), stations_opened(bytes, &table));
    // The last turn is the one before the end, and leaves nothing to open.
    let last = turn(bytes, 2 * width - 2);
    assert_eq!(to_open(&last), 0);
    assert_eq!(Some(&last), expected.last());
    for number in [2 * width - 1, 2 * width, usize::MAX - 1, usize::MAX] {
        assert_eq!(turn(bytes, number), Turn::PastTheEnd, "turn {number}");
    }
}

#[test]
fn a_single_nil() {
    turns_are(&[1, 13, 0], &[nothing(0)]);
}

#[test]
fn a_single_put() {
    for tray in 0..16 {
        turns_are(&[2, tray, 13, 0], &[putting(tray, 0)]);
    }
}

#[test]
fn a_single_take_and_what_follows_it_is_not_opened() {
    turns_are(&[1, 3, 5, 0, 13, 1], &[waiting(1, 0)]);
    turns_are(&[1, 4, 5, 0, 13, 1], &[waiting(1, 0)]);
    turns_are(&[2, 7, 5, 0, 0, 3, 5, 1, 13, 2], &[waiting(2, 0)]);
    turns_are(&[2, 7, 5, 0, 0, 4, 5, 1, 13, 2], &[waiting(2, 0)]);
}

#[test]
fn a_single_block() {
    turns_are(&[7, 6, 0, 13, 1], &[waiting(1, 0)]);
    turns_are(&EXAMPLE_TABLE, &[waiting(3, 0)]);
}

/// The start term decides, wherever it stands, and tokens have no part in it.
#[test]
fn terms_beside_the_start_term() {
    let mut table = Builder::new();
    table.tokens(9, 255);
    let put = table.put(9);
    let nil = table.nil();
    table.tokens(0, 1);
    let both = table.side_by_side(put, nil);
    table.side_by_side(both, both);
    turns_are(&table.start(put), &[putting(9, 0)]);
    turns_are(&table.start(nil), &[nothing(0)]);
    let expected = [nothing(2), putting(9, 1), nothing(0)];
    turns_are(&table.start(both), &expected);
}

#[test]
fn two_nils_side_by_side() {
    let expected = [nothing(2), nothing(1), nothing(0)];
    turns_are(&[1, 5, 0, 0, 13, 1], &expected);
    turns_are(&[1, 1, 5, 0, 1, 13, 2], &expected);
}

#[test]
fn nil_to_the_left_and_to_the_right() {
    let expected = [nothing(2), nothing(1), putting(3, 0)];
    turns_are(&[1, 2, 3, 5, 0, 1, 13, 2], &expected);
    let expected = [nothing(2), putting(3, 1), nothing(0)];
    turns_are(&[1, 2, 3, 5, 1, 0, 13, 2], &expected);
}

/// Every kind of process in one opening, grouped to both sides.
#[test]
fn every_kind_of_process() {
    let mut table = Builder::new();
    let end = table.end();
    let nil = table.nil();
    let put = table.put(15);
    let take = table.take(0, put);
    let again = table.repeated_take(0, take);
    let block = table.atom(end);
    let left = table.side_by_side(take, nil);
    let right = table.side_by_side(again, put);
    let right = table.side_by_side(block, right);
    let all = table.side_by_side(left, right);
    let expected = [
        nothing(2),
        nothing(3),
        waiting(take, 2),
        nothing(1),
        nothing(2),
        waiting(block, 1),
        nothing(2),
        waiting(again, 1),
        putting(15, 0),
    ];
    turns_are(&table.start(all), &expected);
}

/// One term on both sides is opened twice.
#[test]
fn a_shared_term() {
    let mut table = Builder::new();
    let nil = table.nil();
    let take = table.take(2, nil);
    let twice = table.side_by_side(take, take);
    let expected = [nothing(2), waiting(take, 1), waiting(take, 0)];
    turns_are(&table.start(twice), &expected);
    let four = table.side_by_side(twice, twice);
    let expected = [
        nothing(2),
        nothing(3),
        waiting(take, 2),
        waiting(take, 1),
        nothing(2),
        waiting(take, 1),
        waiting(take, 0),
    ];
    turns_are(&table.start(four), &expected);
}

/// A table with 64 takes, no two the same term, and their numbers.
fn takes() -> (Builder, Vec<u8>) {
    let mut table = Builder::new();
    let nil = table.nil();
    let takes = (0..64).map(|take| table.take(take % 16, nil)).collect();
    (table, takes)
}

/// Grouped to the left, the whole width is once to open at the same time.
#[test]
fn width_64_grouped_to_the_left() {
    let (mut table, takes) = takes();
    let mut all = takes[0];
    for take in &takes[1..] {
        all = table.side_by_side(all, *take);
    }
    let bytes = table.start(all);
    let mut expected: Vec<Turn> = (0..63).map(|number| nothing(number + 2)).collect();
    expected.extend((0..64).map(|index| waiting(takes[index], 63 - index)));
    turns_are(&bytes, &expected);
    assert_eq!(turn(&bytes, 62), nothing(64));
    assert_eq!(turn(&bytes, 63), waiting(takes[0], 63));
    assert_eq!(turn(&bytes, 126), waiting(takes[63], 0));
}

/// Grouped to the right, never more than two terms are to open.
#[test]
fn width_64_grouped_to_the_right() {
    let (mut table, takes) = takes();
    let mut all = takes[63];
    for take in takes[..63].iter().rev() {
        all = table.side_by_side(*take, all);
    }
    let mut expected = Vec::new();
    for take in &takes[..63] {
        expected.extend([nothing(2), waiting(*take, 1)]);
    }
    expected.push(waiting(takes[63], 0));
    turns_are(&table.start(all), &expected);
}

/// In a balanced term each side entered to the left has its right side still
/// to open: as many as the station's number has zeros among its six digits.
/// Before a station come the terms entered since the one before it: all six for
/// the first, then one for each zero at the end of its number.
#[test]
fn width_64_balanced() {
    let (mut table, takes) = takes();
    let mut level = takes.clone();
    while level.len() > 1 {
        level = level
            .chunks(2)
            .map(|pair| table.side_by_side(pair[0], pair[1]))
            .collect();
    }
    let mut expected = Vec::new();
    for (index, take) in takes.iter().enumerate() {
        let zeros = (0..6).filter(|digit| index >> digit & 1 == 0).count();
        let entered = (0..6).take_while(|digit| index >> digit & 1 == 0).count();
        expected.extend((0..entered).rev().map(|below| nothing(zeros + 1 - below)));
        expected.push(waiting(*take, zeros));
    }
    turns_are(&table.start(level[0]), &expected);
    let down: Vec<Turn> = (2..=7).map(nothing).collect();
    assert_eq!(expected[..6], down);
}

/// Nil counts for the width, so a full table of nils takes all turns too.
#[test]
fn width_64_of_nils() {
    let mut table = Builder::new();
    let nil = table.nil();
    let all = table.copies(nil, 64);
    let left = (2..=64).chain((0..64).rev());
    let expected: Vec<Turn> = left.map(nothing).collect();
    turns_are(&table.start(all), &expected);
}

#[track_caller]
fn refused(bytes: &[u8], number: u8, place: usize) {
    assert_eq!(check_table(bytes), answer(number, place));
    for turn in NUMBERS {
        let refusal = Refusal { number, place };
        assert_eq!(opening_turn(bytes, turn), Err(refusal), "turn {turn}");
    }
}

#[test]
fn refusal_1_unknown_kind() {
    refused(&[1, 14, 13, 0], 1, 1);
}

#[test]
fn refusal_2_body_cut_short() {
    refused(&[1, 3, 0], 2, 1);
}

#[test]
fn refusal_3_too_many_terms() {
    let mut bytes = vec![1; 201];
    bytes.extend([13, 0]);
    refused(&bytes, 3, 200);
}

#[test]
fn refusal_4_tray() {
    refused(&[1, 2, 16, 13, 0], 4, 1);
}

#[test]
fn refusal_5_late_reference() {
    refused(&[1, 5, 0, 1, 13, 1], 5, 1);
}

#[test]
fn refusal_6_wrong_class() {
    refused(&[7, 13, 0], 6, 1);
}

#[test]
fn refusal_7_width() {
    let mut table = Builder::new();
    let nil = table.nil();
    let all = table.copies(nil, 64);
    let place = table.offset();
    table.side_by_side(all, nil);
    refused(&table.start(nil), 7, place);
}

#[test]
fn refusal_8_tokens() {
    refused(&[1, 12, 0, 0, 13, 0], 8, 1);
}

#[test]
fn refusal_9_the_end_of_the_table() {
    refused(&[], 9, 0);
    refused(&[1], 9, 1);
    refused(&[1, 13, 0, 1], 9, 3);
}

/// Whatever the bytes, the call is refused exactly as a check of the table.
#[test]
fn refused_tables_by_chance() {
    let mut random = Random::new(90);
    let mut seen = [0; 10];
    for _ in 0..6_000 {
        let bytes = generator::damaged_table(&mut random);
        let check = check_table(&bytes);
        seen[usize::from(check.number)] += 1;
        let some = random.below(200);
        for number in NUMBERS.into_iter().chain([some]) {
            let given = match opening_turn(&bytes, number) {
                Ok(_) => answer(0, 0),
                Err(Refusal { number, place }) => answer(number, place),
            };
            assert_eq!(given, check, "turn {number} of {bytes:?}");
        }
    }
    for (number, times) in seen.iter().enumerate() {
        assert!(*times > 10, "number {number} seen {times} times");
    }
}

/// Random accepted tables of every sort that the generator has.
fn some_tables(seed: u64, how_many: usize) -> impl Iterator<Item = Vec<u8>> {
    let mut random = Random::new(seed);
    (0..how_many).map(move |index| match index % 16 {
        0 => generator::nearly_full_table(&mut random),
        1..=4 => generator::contended_table(&mut random),
        _ => {
            let shape = Shape::any(&mut random);
            generator::accepted_table(&mut random, shape)
        }
    })
}

/// The turns of a term with so many terms to open behind it, side by side as
/// one turn, then those of the left side, then those of the right.
fn by_sides(table: &Table, term: usize, behind: usize) -> Vec<Turn> {
    match table.terms[term] {
        Term::SideBySide { left, right } => {
            let mut turns = vec![nothing(behind + 2)];
            turns.extend(by_sides(table, left, behind + 1));
            turns.extend(by_sides(table, right, behind));
            turns
        }
        _ => vec![match stations_of(table, term).pop() {
            None => nothing(behind),
            Some(station) => Turn::Laid {
                station,
                to_open: behind,
            },
        }],
    }
}

/// What a test over random tables must have met to mean anything.
#[derive(Debug, Default)]
struct Met {
    wide: usize,
    full: usize,
    nils: usize,
    to_the_left: usize,
    to_the_right: usize,
    shared: usize,
}

impl Met {
    fn add(&mut self, table: &Table) {
        let width = width(&table.terms, table.start);
        self.wide += usize::from(width > 1);
        self.full += usize::from(width > 60);
        let opened = opened_terms(table, table.start);
        let any = |is: &dyn Fn(Term) -> bool| usize::from(opened.iter().any(|term| is(*term)));
        let is_pair = |term: usize| matches!(table.terms[term], Term::SideBySide { .. });
        self.nils += any(&|term| term == Term::Nil);
        self.to_the_left +=
            any(&|term| matches!(term, Term::SideBySide { left, .. } if is_pair(left)));
        self.to_the_right +=
            any(&|term| matches!(term, Term::SideBySide { right, .. } if is_pair(right)));
        self.shared +=
            any(&|term| matches!(term, Term::SideBySide { left, right } if left == right));
    }
}

/// All terms that an opening comes by.
fn opened_terms(table: &Table, term: usize) -> Vec<Term> {
    let mut terms = vec![table.terms[term]];
    if let Term::SideBySide { left, right } = table.terms[term] {
        terms.extend(opened_terms(table, left));
        terms.extend(opened_terms(table, right));
    }
    terms
}

/// All turns together lay down what the opened hall holds, in as many turns as
/// the width asks for.
#[test]
fn all_turns_are_the_opened_hall() {
    let mut met = Met::default();
    for bytes in some_tables(91, 3_000) {
        let table = accepted(&bytes);
        met.add(&table);
        let width = width(&table.terms, table.start);
        let turns = turns_of(&bytes);
        assert_eq!(laid(&turns), stations_opened(&bytes, &table));
        assert_eq!(turns, by_sides(&table, table.start, 0));
        assert_eq!(turns.len(), 2 * width - 1);
        assert!(turns.iter().all(|turn| to_open(turn) <= width));
        assert_eq!(turn(&bytes, 2 * width - 1), Turn::PastTheEnd);
        assert_eq!(turn(&bytes, usize::MAX), Turn::PastTheEnd);
    }
    assert!(met.wide > 2_000, "{met:?}");
    assert!(met.full > 30, "{met:?}");
    assert!(met.nils > 500, "{met:?}");
    assert!(met.to_the_left > 1_000, "{met:?}");
    assert!(met.to_the_right > 1_000, "{met:?}");
    assert!(met.shared > 300, "{met:?}");
}

/// After every turn, what was laid down and what the terms still to open will
/// lay down are together the whole opening, in order; the call tells of the
/// same turn.
#[test]
fn after_every_turn() {
    let mut stations_midway = 0;
    let mut whole_width_to_open = 0;
    for bytes in some_tables(92, 1_000) {
        let table = accepted(&bytes);
        let width = width(&table.terms, table.start);
        let whole = stations_opened(&bytes, &table);
        let mut opening = Opening::new(&table);
        assert_eq!(opening.terms(), [table.start]);
        let mut so_far = Vec::new();
        for number in 0..2 * width - 1 {
            let next = opening.turn();
            assert_eq!(turn(&bytes, number), next);
            so_far.extend(station(&next));
            let terms = opening.terms();
            assert_eq!(to_open(&next), terms.len());
            assert!(terms.len() <= width);
            let mut together = so_far.clone();
            for term in &terms {
                together.extend(stations_of(&table, *term));
            }
            assert_eq!(together, whole, "turn {number} of {bytes:?}");
            stations_midway += usize::from(!so_far.is_empty() && so_far.len() < whole.len());
            whole_width_to_open += usize::from(width > 2 && terms.len() == width);
        }
        assert_eq!(opening.terms(), []);
        assert_eq!(opening.turn(), Turn::PastTheEnd);
        assert_eq!(opening.turn(), Turn::PastTheEnd);
    }
    assert!(stations_midway > 5_000, "{stations_midway}");
    assert!(whole_width_to_open > 100, "{whole_width_to_open}");
}

/// Where the left and the right side of a term go among those still to open, of
/// which the first is next.
type Places = fn(&mut VecDeque<usize>, usize, usize);

/// What a loop lays down that puts the sides there.
fn laid_with(table: &Table, places: Places) -> Vec<Station> {
    let mut terms = VecDeque::from([table.start]);
    let mut laid = Vec::new();
    while let Some(term) = terms.pop_front() {
        match table.terms[term] {
            Term::SideBySide { left, right } => places(&mut terms, left, right),
            _ => laid.extend(stations_of(table, term)),
        }
    }
    laid
}

/// Loops that go wrong are told apart by many of the random tables.
#[test]
fn wrong_loops_are_told_apart() {
    let wrong: [(&str, Places); 4] = [
        ("the right side is next", |terms, left, right| {
            terms.push_front(left);
            terms.push_front(right);
        }),
        ("both sides come last", |terms, left, right| {
            terms.extend([left, right]);
        }),
        ("the right side comes last", |terms, left, right| {
            terms.push_front(left);
            terms.push_back(right);
        }),
        ("the right side is lost", |terms, left, _| {
            terms.push_front(left);
        }),
    ];
    let mut told = [0; 4];
    for bytes in some_tables(93, 1_000) {
        let table = accepted(&bytes);
        let right = laid(&turns_of(&bytes));
        for ((_, places), told) in wrong.iter().zip(&mut told) {
            *told += usize::from(laid_with(&table, *places) != right);
        }
    }
    for ((name, _), told) in wrong.iter().zip(told) {
        assert!(told > 200, "{name}: told apart {told} times");
    }
}
