//! One choice at a time: the call that makes one choice, the choices in a list
//! of bytes, and the one-step run fed call by call.

use reference::atomic::{self, not_begun, NotPossible, Place};
use reference::build::Builder;
use reference::calls::{self, StepAnswer};
use reference::choice::{first_choice, whole_choices};
use reference::generator::{self, Random, Shape};
use reference::hall::{decode, encode, opening, HALL_BYTES};
use reference::run::{run_choices, Tally};
use reference::table::Refusal;

use crate::common::{accepted, act, inside, opened, EXAMPLE_CHOICES, EXAMPLE_TABLE};

/// The answer of a rule that finds nothing short.
fn moved(rule: u8) -> StepAnswer {
    StepAnswer::Moved { rule, short: None }
}

fn refused(number: u8, place: usize) -> StepAnswer {
    StepAnswer::Refused(Refusal { number, place })
}

#[test]
fn the_example_choice_by_choice() {
    let mut hall = opened(&EXAMPLE_TABLE);
    let mut tally = Tally::FRESH;
    let mut rules = Vec::new();
    for choice in whole_choices(&EXAMPLE_CHOICES) {
        match calls::step(&EXAMPLE_TABLE, &mut hall, &mut tally, &choice.bytes()) {
            StepAnswer::Moved { rule, short: None } => rules.push(rule),
            other => panic!("{other:?}"),
        }
    }
    assert_eq!(rules, [4, 8, 10, 7, 1]);
    assert_eq!((tally.commits, tally.failed, tally.retries), (1, 0, 0));
    let mut last = vec![0; HALL_BYTES];
    last[1] = 1;
    assert_eq!(hall, last);
}

/// Table, hall and choice are tested in this order, and nothing is written.
#[test]
fn refused_steps_leave_hall_and_tally() {
    let tally = Tally {
        commits: 4_294_967_295,
        failed: 2,
        retries: 3,
    };
    let good = opened(&EXAMPLE_TABLE);
    let mut no_hall = good.clone();
    no_hall[16] = 99;
    let leaves_all = |table: &[u8], hall: &[u8], choice: &[u8], answer| {
        let mut after = hall.to_vec();
        let mut tally_after = tally;
        let given = calls::step(table, &mut after, &mut tally_after, choice);
        assert_eq!(given, answer, "{table:?} {choice:?}");
        assert_eq!((&*after, tally_after), (hall, tally));
    };
    leaves_all(&[], &[], &[], refused(9, 0));
    leaves_all(&[1, 2, 16], &[], &[], refused(4, 1));
    for choice in [&[][..], &[9], &[1, 0]] {
        leaves_all(&EXAMPLE_TABLE, &[], choice, refused(10, 0));
        leaves_all(&EXAMPLE_TABLE, &good[1..], choice, refused(10, 0));
        leaves_all(&EXAMPLE_TABLE, &no_hall, choice, refused(11, 0));
    }
    for choice in [&[0][..], &[3, 0, 0], &[255]] {
        leaves_all(&EXAMPLE_TABLE, &good, choice, refused(12, 0));
    }
    for choice in [&[][..], &[1], &[2], &[2, 0]] {
        leaves_all(&EXAMPLE_TABLE, &good, choice, refused(13, 0));
    }
    leaves_all(&EXAMPLE_TABLE, &good, &[1, 1], refused(14, 0));
    leaves_all(&EXAMPLE_TABLE, &good, &[2, 0, 0], refused(15, 0));
}

/// What follows the choice has no part in a step.
#[test]
fn a_step_looks_at_one_choice() {
    for tail in [&[9][..], &[0; 40], &[1, 0]] {
        let choice = [&[1, 0], tail].concat();
        let mut hall = opened(&EXAMPLE_TABLE);
        let mut tally = Tally::FRESH;
        let answer = calls::step(&EXAMPLE_TABLE, &mut hall, &mut tally, &choice);
        assert_eq!(answer, moved(4), "{choice:?}");
        assert_eq!(hall[16..18], [21, 3]);
    }
}

/// Whether the answer is this rule with a tray that is short by something.
fn tells_a_shortage(answer: StepAnswer, by_rule: u8) -> bool {
    match answer {
        StepAnswer::Moved {
            rule,
            short: Some(short),
        } => rule == by_rule && short.tray <= 15 && short.by > 0,
        _ => false,
    }
}

/// A run is its steps: the same rules, the same bytes, the same tally, and it
/// stops at the choice that is refused as a step.
#[test]
fn steps_by_chance_are_the_run() {
    let mut random = Random::new(50);
    let mut rules = [0; 14];
    let mut refusals = [0; 21];
    for index in 0..3_000 {
        let bytes = match index % 10 {
            0 => generator::nearly_full_table(&mut random),
            1..=6 => generator::contended_table(&mut random),
            _ => {
                let shape = Shape::any(&mut random);
                generator::accepted_table(&mut random, shape)
            }
        };
        let table = accepted(&bytes);
        let first = if index % 2 == 0 {
            opening(&table)
        } else {
            generator::hall(&mut random, &table)
        };
        let list = generator::choices(&mut random, &table, &first, 12, 60);
        let run = run_choices(&table, &first, Tally::FRESH, &list);
        let mut hall = encode(&first);
        let mut tally = Tally::FRESH;
        let mut at = 0;
        for rule in &run.rules {
            let answer = calls::step(&bytes, &mut hall, &mut tally, &list[at..]);
            if [6, 9].contains(rule) {
                assert!(tells_a_shortage(answer, *rule), "{answer:?}");
            } else {
                assert_eq!(answer, moved(*rule));
            }
            rules[usize::from(*rule)] += 1;
            at += first_choice(&list[at..]).expect("a choice done").size();
        }
        assert_eq!(at, run.place);
        if run.number != 0 {
            let answer = calls::step(&bytes, &mut hall, &mut tally, &list[at..]);
            assert_eq!(answer, refused(run.number, 0));
            refusals[usize::from(run.number)] += 1;
        }
        assert_eq!(hall, encode(&run.hall));
        assert_eq!(tally, run.tally);
    }
    for (rule, times) in rules.iter().enumerate().skip(1) {
        assert!(*times > 50, "rule {rule} seen {times} times");
    }
    for (number, times) in refusals.iter().enumerate().skip(12) {
        assert!(*times > 10, "refusal {number} seen {times} times");
    }
}

#[test]
fn choices_in_a_list_of_bytes() {
    assert_eq!(whole_choices(&[]), []);
    assert_eq!(whole_choices(&[1, 255]), [act(255)]);
    assert_eq!(whole_choices(&[2, 63, 14]), [inside(63, 14)]);
    let both = [act(1), inside(2, 1), act(0)];
    assert_eq!(whole_choices(&[1, 1, 2, 2, 1, 1, 0]), both);
    // Up to a choice that is cut short or of another kind.
    for end in [vec![1], vec![2], vec![2, 7], vec![0, 1, 0], vec![3, 1, 0]] {
        let mut bytes = vec![1, 1, 2, 2, 1, 1, 0];
        bytes.extend(end);
        assert_eq!(whole_choices(&bytes), both);
    }
    assert_eq!(first_choice(&[]), Err(13));
    assert_eq!(first_choice(&[1]), Err(13));
    assert_eq!(first_choice(&[2, 0]), Err(13));
    assert_eq!(first_choice(&[0]), Err(12));
    assert_eq!(first_choice(&[3]), Err(12));
}

/// The one-step run fed with what each call has done, and with nothing of a
/// refused choice or of what follows it.
#[test]
fn the_one_step_run_is_fed_call_by_call() {
    let mut random = Random::new(51);
    for _ in 0..1_000 {
        let bytes = generator::contended_table(&mut random);
        let table = accepted(&bytes);
        let mut stored = opened(&bytes);
        let mut tally = Tally {
            commits: 1,
            failed: 2,
            retries: 4_294_967_295,
        };
        let mut state = atomic::start(&table, tally);
        for _ in 0..6 {
            let hall = decode(&table, &stored).expect("a well formed hall");
            let list = generator::choices(&mut random, &table, &hall, 8, 50);
            let ran = calls::run(&bytes, &mut stored, &mut tally, &list);
            assert_eq!(state.feed_done(&table, &list, ran.done), Ok(()));
            let hall = decode(&table, &stored).expect("a well formed hall");
            assert_eq!(hall.counts, state.counts);
            assert_eq!(not_begun(&hall), state.without_notes());
            assert_eq!(tally, state.tally);
        }
    }
}

#[test]
fn a_fed_choice_that_is_not_possible() {
    let mut table = Builder::new();
    let put = table.put(3);
    let bytes = table.start(put);
    let table = accepted(&bytes);
    let mut state = atomic::start(&table, Tally::FRESH);
    assert_eq!(
        state.feed_done(&table, &[1, 1], 1),
        Err(NotPossible::NoStation)
    );
    assert_eq!(state, atomic::start(&table, Tally::FRESH));
    // No choice was done: the list is not looked at.
    assert_eq!(state.feed_done(&table, &[1, 1], 0), Ok(()));
    assert_eq!(state.without_notes(), [Place::Putting { tray: 3 }]);
    assert_eq!(state.feed_done(&table, &[1, 0, 9], 1), Ok(()));
    assert_eq!(state.without_notes(), []);
    assert_eq!(state.counts[3], 1);
}

/// An open attempt is read as a block not begun; all else stays.
#[test]
fn open_attempts_are_blocks_not_begun() {
    let mut table = Builder::new();
    let end = table.end();
    let nil = table.nil();
    let block = table.atom(end);
    let take = table.take(0, nil);
    let put = table.put(5);
    let two = table.side_by_side(block, take);
    let all = table.side_by_side(two, put);
    let table = accepted(&table.start(all));
    let first = opening(&table);
    let waiting = |term: u8| Place::Waiting {
        term: usize::from(term),
        note: None,
    };
    let places = [waiting(block), waiting(take), Place::Putting { tray: 5 }];
    assert_eq!(not_begun(&first), places);
    let run = run_choices(&table, &first, Tally::FRESH, &[1, 0]);
    assert_ne!(run.hall, first);
    assert_eq!(not_begun(&run.hall), places);
}
