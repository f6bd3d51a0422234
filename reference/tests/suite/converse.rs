//! The converse of document 01: wherever one-step steps lead, with blocks by
//! the first path that is readable at the step, accepted choices lead too.

use reference::atomic::{self, NotPossible, OneStep, Place, Step};
use reference::build::Builder;
use reference::calls;
use reference::choice::Choice;
use reference::generator::{self, Random, Shape};
use reference::hall::{decode, opening, Hall, Station};
use reference::moves::accepted_choices;
use reference::run::Tally;
use reference::table::{byte_of, Table, Term};

use crate::common::{accepted, all_choices, moved, opened, run_answer};

#[derive(Default, Debug)]
struct Coverage {
    outs: usize,
    ins: usize,
    reps: usize,
    commits: usize,
    inner_moves: usize,
    later_paths: usize,
    not_possible: usize,
    ended: usize,
}

/// The choices for one step from a hall without attempts. Inside a block the
/// moves are done in any order.
fn choices_for(random: &mut Random, table: &Table, hall: &Hall, step: Step) -> (Vec<u8>, Hall) {
    let (position, commits) = match step {
        Step::Out { position } | Step::In { position } | Step::Rep { position } => {
            (position, false)
        }
        Step::Commit { position } => (position, true),
    };
    let act = Choice::Act {
        position: byte_of(position),
    };
    let mut bytes = act.bytes();
    let (mut rule, mut hall) = moved(table, hall, act);
    if commits {
        assert_eq!(rule, 4);
        loop {
            let inside: Vec<Choice> = accepted_choices(table, &hall)
                .into_iter()
                .filter(|choice| matches!(choice, Choice::Inside { .. }))
                .collect();
            let Some(choice) = random.pick(&inside) else {
                break;
            };
            bytes.extend(choice.bytes());
            hall = moved(table, &hall, choice).1;
        }
        bytes.extend(act.bytes());
        (rule, hall) = moved(table, &hall, act);
    }
    let expected = match step {
        Step::Out { .. } => 1,
        Step::In { .. } => 2,
        Step::Rep { .. } => 3,
        Step::Commit { .. } => 7,
    };
    assert_eq!(rule, expected);
    (bytes, hall)
}

fn assert_same(hall: &Hall, state: &OneStep) {
    assert_eq!(hall.counts, state.counts);
    let mut stations = Vec::new();
    for place in &state.places {
        stations.push(match place {
            Place::Putting { tray } => Station::Putting { tray: *tray },
            Place::Waiting { term, note: None } => Station::Waiting { term: *term },
            Place::Waiting { note: Some(_), .. } => panic!("the converse has no notes"),
        });
    }
    // No attempt is open either.
    assert_eq!(hall.stations, stations);
}

/// True when the block at the position would not take its first path now.
fn takes_later_path(table: &Table, state: &OneStep, position: usize) -> bool {
    let Place::Waiting { term, .. } = state.places[position] else {
        return false;
    };
    let Term::Atom { body } = table.terms[term] else {
        return false;
    };
    let first = atomic::paths(table, body).into_iter().next();
    atomic::first_readable_path(table, term, &state.counts) != first
}

/// Any list of steps, then its choices in one call from the opened hall.
fn one_list_of_steps(random: &mut Random, bytes: &[u8], steps: usize, coverage: &mut Coverage) {
    let table = accepted(bytes);
    let mut state = atomic::start(&table, Tally::FRESH);
    let mut hall = opening(&table);
    let mut choices = Vec::new();
    let mut commits = 0;
    let mut done = 0;
    for _ in 0..steps {
        let possible = atomic::possible_steps(&table, &state);
        if possible.len() < state.places.len() {
            coverage.not_possible += 1;
        }
        let Some(step) = random.pick(&possible) else {
            coverage.ended += 1;
            break;
        };
        match step {
            Step::Out { .. } => coverage.outs += 1,
            Step::In { .. } => coverage.ins += 1,
            Step::Rep { .. } => coverage.reps += 1,
            Step::Commit { position } => {
                coverage.commits += 1;
                commits += 1;
                if takes_later_path(&table, &state, position) {
                    coverage.later_paths += 1;
                }
            }
        }
        let (more, next) = choices_for(random, &table, &hall, step);
        coverage.inner_moves += more.len() / 3;
        done += all_choices(&more).len();
        choices.extend(more);
        hall = next;
        atomic::take_step(&table, &mut state, step).expect("a possible step");
        assert_same(&hall, &state);
    }
    // The same as one call on the bytes.
    let mut stored = opened(bytes);
    let mut tally = Tally::FRESH;
    let answer = calls::run(bytes, &mut stored, &mut tally, &choices);
    assert_eq!(answer, run_answer(0, choices.len(), done));
    assert_same(&decode(&table, &stored).expect("well formed"), &state);
    assert_eq!(
        tally,
        Tally {
            commits,
            failed: 0,
            retries: 0
        }
    );
}

#[test]
fn steps_by_chance_have_their_choices() {
    let mut random = Random::new(6);
    let mut coverage = Coverage::default();
    for index in 0..4_000 {
        let bytes = if index % 2 == 0 {
            let shape = Shape::any(&mut random);
            generator::accepted_table(&mut random, shape)
        } else {
            generator::contended_table(&mut random)
        };
        one_list_of_steps(&mut random, &bytes, 25, &mut coverage);
    }
    println!("{coverage:?}");
    assert!(coverage.outs > 2_000);
    assert!(coverage.ins > 500);
    assert!(coverage.reps > 500);
    assert!(coverage.commits > 2_000);
    assert!(coverage.inner_moves > 2_000);
    assert!(coverage.later_paths > 100);
    assert!(coverage.not_possible > 500);
    assert!(coverage.ended > 500);
}

#[test]
fn steps_at_the_limits() {
    // A hall that fills up to 64 stations and trays that fill up to 255.
    let mut table = Builder::new();
    let end = table.end();
    let put = table.put(0);
    let four = table.copies(put, 4);
    let again = table.repeated_take(0, four);
    let body = table.wt(0, end);
    let body = table.wt(0, body);
    let body = table.rd(0, body);
    let block = table.atom(body);
    let blocks = table.copies(block, 30);
    let all = table.side_by_side(again, blocks);
    table.tokens(0, 252);
    let bytes = table.start(all);
    let mut random = Random::new(7);
    let mut coverage = Coverage::default();
    for _ in 0..20 {
        one_list_of_steps(&mut random, &bytes, 120, &mut coverage);
    }
    println!("{coverage:?}");
    assert!(coverage.not_possible > 100);
    assert!(coverage.commits > 100);
}

/// Each step that is not possible meets the condition of a refusal.
#[test]
fn steps_outside_the_limits() {
    let mut table = Builder::new();
    let end = table.end();
    let nil = table.nil();
    let put = table.put(0);
    let take = table.take(1, nil);
    let again = table.repeated_take(1, nil);
    let read = table.rd(1, end);
    let block = table.atom(read);
    let a = table.side_by_side(put, take);
    let b = table.side_by_side(again, block);
    let all = table.side_by_side(a, b);
    table.tokens(0, 255);
    let bytes = table.start(all);
    let read = accepted(&bytes);
    let state = atomic::start(&read, Tally::FRESH);
    assert_eq!(atomic::possible_steps(&read, &state), []);
    let tried = |step| atomic::take_step(&read, &mut state.clone(), step);
    assert_eq!(tried(Step::Out { position: 0 }), Err(NotPossible::FullTray));
    assert_eq!(tried(Step::In { position: 1 }), Err(NotPossible::EmptyTray));
    assert_eq!(
        tried(Step::Rep { position: 2 }),
        Err(NotPossible::EmptyTray)
    );
    assert_eq!(
        tried(Step::Commit { position: 3 }),
        Err(NotPossible::NoReadablePath)
    );
    assert_eq!(
        tried(Step::In { position: 0 }),
        Err(NotPossible::WrongStation)
    );
    assert_eq!(
        tried(Step::Out { position: 4 }),
        Err(NotPossible::NoStation)
    );
}
