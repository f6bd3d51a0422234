//! Lists of calls by chance, each on one table, hall and tally: runs, steps and
//! suggestions, accepted and refused.

use reference::choice::Choice;
use reference::generator::{self, Random, Shape};
use reference::hall::{decode, encode, opening, Hall};
use reference::run::Tally;
use reference::table::Table;

use crate::common::by_chance::{accepted, any_table, reached_hall};
use crate::common::calls::{Met, Sequence};
use crate::common::choices::{steered, step_bytes};
use crate::common::seeds::{say, seeds};

/// Mostly small, so that attempts come to their ends.
fn sequence_table(random: &mut Random) -> Vec<u8> {
    match random.below(12) {
        0 => any_table(random),
        1..=6 => generator::contended_table(random),
        _ => {
            let shape = Shape::small(random);
            generator::accepted_table(random, shape)
        }
    }
}

/// Opened, reached by a run, or most often reached by none.
fn any_start(random: &mut Random, table: &Table) -> Hall {
    match random.below(4) {
        0 | 1 => opening(table),
        2 => reached_hall(random, table, 20),
        _ => generator::hall(random, table),
    }
}

/// Fresh, near the top or any.
fn any_tally(random: &mut Random) -> Tally {
    let mut counter = || match random.below(4) {
        0 | 1 => 0,
        2 => u32::MAX - u32::from(random.byte_below(3)),
        _ => u32::from_le_bytes([random.byte(), random.byte(), random.byte(), random.byte()]),
    };
    Tally {
        commits: counter(),
        failed: counter(),
        retries: counter(),
    }
}

/// A list of choices, most of them accepted one after the other.
fn any_list(random: &mut Random, table: &Table, hall: &Hall) -> Vec<u8> {
    match random.below(8) {
        0 => {
            let length = random.below(24);
            (0..length).map(|_| random.byte_below(4)).collect()
        }
        1 => {
            let length = random.below(12);
            random.bytes(length)
        }
        2 => {
            let rule = random.byte_between(1, 13);
            let choices = random.below(30);
            steered(random, table, hall, rule, choices)
        }
        3 => {
            let choices = random.below(40);
            generator::choices(random, table, hall, choices, 50)
        }
        _ => {
            let choices = random.below(8);
            generator::choices(random, table, hall, choices, 50)
        }
    }
}

/// One choice, accepted or refused, in the bytes of a step.
fn any_step(random: &mut Random, table: &Table, hall: &Hall) -> [u8; 3] {
    let percent = 100 * random.below(2);
    let list = generator::choices(random, table, hall, 1 - percent / 100, percent);
    let node = random.byte_below(3);
    match *list {
        [2, position, node, ..] => [2, position, node],
        [kind, position, ..] => [kind, position, node],
        [kind] => [kind, 0, node],
        [] => [1, 0, node],
    }
}

/// A call that is refused by its table or its hall, on a copy.
fn refused_call(random: &mut Random, sequence: &Sequence) -> Met {
    let mut table = sequence.table.clone();
    let mut hall = sequence.hall.clone();
    match random.below(3) {
        0 => table = generator::damaged_table(random),
        1 => hall = generator::damaged_hall(random, &hall),
        _ => hall.truncate(random.below(hall.len())),
    }
    let mut copy = Sequence::new(&table, &hall, sequence.tally);
    match random.below(3) {
        0 => {
            let length = random.below(6);
            copy.run(&random.bytes(length));
        }
        1 => {
            let choice = [
                random.byte_below(4),
                random.byte_below(4),
                random.byte_below(4),
            ];
            copy.step(choice);
        }
        _ => {
            copy.suggest();
        }
    }
    copy.met
}

/// One more call on the sequence's hall and tally.
fn any_call(random: &mut Random, sequence: &mut Sequence, table: &Table) {
    let hall = decode(table, &sequence.hall).expect("a well formed hall");
    match random.below(20) {
        0..=9 => {
            let list = any_list(random, table, &hall);
            sequence.run(&list);
        }
        10..=14 => {
            let choice = any_step(random, table, &hall);
            sequence.step(choice);
        }
        15..=17 => {
            if let Some(choice) = sequence.suggest() {
                follow(random, sequence, choice);
            }
        }
        _ => {
            let met = refused_call(random, sequence);
            sequence.met.add(&met);
        }
    }
}

/// Makes a suggested choice by either call: it must be accepted.
fn follow(random: &mut Random, sequence: &mut Sequence, choice: Choice) {
    if random.percent(50) {
        let (number, place, done) = sequence.run(&choice.bytes());
        assert_eq!((number, place, done), (0, choice.size(), 1), "{sequence}");
    } else {
        let (number, place, rule) = sequence.step(step_bytes(choice, 0));
        assert_eq!((number, place), (0, choice.size()), "{sequence}");
        assert!((1..=13).contains(&rule), "{sequence}");
    }
}

#[test]
fn calls_by_chance() {
    let mut met = Met::default();
    for seed in seeds("calls by chance", 6_000) {
        let mut random = Random::new(seed);
        let bytes = sequence_table(&mut random);
        let table = accepted(&bytes);
        let start = any_start(&mut random, &table);
        let mut sequence = Sequence::new(&bytes, &encode(&start), any_tally(&mut random));
        for _ in 0..25 {
            any_call(&mut random, &mut sequence, &table);
        }
        met.add(&sequence.met);
    }
    say(&format!("calls by chance: {met}"));
    assert!(met.calls >= 150_000, "{met}");
    met.rules_at_least(500);
    met.numbers_at_least([12, 13, 14, 15, 16, 17, 18, 20].into_iter(), 350);
    met.numbers_at_least([19].into_iter(), 25);
    met.numbers_at_least(1..=11, 10);
    assert!(met.suggested >= 5_000 && met.still >= 1_000, "{met}");
    assert!(met.of_several >= 3_000, "{met}");
    met.wrong_at_least(100);
    assert!(met.at_the_top.iter().all(|times| *times >= 50), "{met}");
}

/// Halls at the limit of stations, choices by guess: what opens stations is
/// often refused, and a commit that fails is not.
#[test]
fn runs_in_crowded_halls() {
    let mut met = Met::default();
    for seed in seeds("runs in crowded halls", 1_000) {
        let mut random = Random::new(seed);
        let bytes = generator::nearly_full_table(&mut random);
        let table = accepted(&bytes);
        let stations = random.between(61, 64);
        let start = generator::hall_with(&mut random, &table, stations);
        let mut sequence = Sequence::new(&bytes, &encode(&start), any_tally(&mut random));
        for _ in 0..20 {
            let mut list = Vec::new();
            for _ in 0..random.between(1, 4) {
                let position = random.byte_below(65);
                if random.percent(60) {
                    list.extend([1, position]);
                } else {
                    list.extend([2, position, random.byte_below(3)]);
                }
            }
            sequence.run(&list);
        }
        met.add(&sequence.met);
    }
    say(&format!("runs in crowded halls: {met}"));
    assert!(met.calls == 20_000, "{met}");
    met.numbers_at_least([14, 15, 16, 17, 18, 19, 20].into_iter(), 100);
    met.too_many_at_least(40);
}

/// One list made in one call, in several calls and choice by choice ends in the
/// same hall and the same tally.
#[test]
fn a_list_in_one_call_or_in_several() {
    let mut done = 0;
    for seed in seeds("a list in several calls", 400) {
        let mut random = Random::new(seed);
        let bytes = any_table(&mut random);
        let table = accepted(&bytes);
        let start = any_start(&mut random, &table);
        let list = generator::choices(&mut random, &table, &start, 60, 0);
        let choices = reference::choice::whole_choices(&list);
        let mut at_once = Sequence::new(&bytes, &encode(&start), any_tally(&mut random));
        let mut in_parts = at_once.copy();
        let mut one_by_one = at_once.copy();
        assert_eq!(at_once.run(&list), (0, list.len(), choices.len()));
        let mut rest = &choices[..];
        while !rest.is_empty() {
            let (part, behind) = rest.split_at(random.between(1, rest.len()));
            let bytes: Vec<u8> = part.iter().flat_map(|choice| choice.bytes()).collect();
            assert_eq!(in_parts.run(&bytes), (0, bytes.len(), part.len()));
            rest = behind;
        }
        for choice in &choices {
            assert_eq!(one_by_one.step(step_bytes(*choice, 9)).0, 0);
        }
        assert!(in_parts.hall == at_once.hall && one_by_one.hall == at_once.hall);
        assert_eq!(in_parts.tally, at_once.tally);
        assert_eq!(one_by_one.tally, at_once.tally);
        done += choices.len();
    }
    assert!(done > 7_500, "{done}");
}
