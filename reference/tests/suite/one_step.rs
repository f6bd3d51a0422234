//! Whole lists of calls against the one-step run of document 01: counts,
//! stations, tally, the committed paths, and the abandoned attempts.

use reference::atomic::{self, not_begun, Happened, NotPossible, OneStep, Place};
use reference::calls::{self, check_hall};
use reference::choice::{whole_choices, Choice};
use reference::generator::{self, Random, Shape};
use reference::hall::{decode, opening, Action, Hall, Node, Station};
use reference::moves::{make_move, Outcome};
use reference::run::{run_choices, Tally};
use reference::table::{byte_of, Table};

use crate::common::{accepted, all_choices, answer, moved, opened};

/// What the runs came across.
#[derive(Default, Debug)]
struct Coverage {
    rules: [usize; 14],
    refusals: [usize; 21],
    empty_calls: usize,
    commits_after_gain: usize,
    commits_by_a_later_path: usize,
    commits_without_gain: usize,
    double_reads: usize,
    forked_commits: usize,
    counters_at_top: usize,
    left_open: usize,
    removed: usize,
}

fn assert_same(hall: &Hall, state: &OneStep) {
    assert_eq!(hall.counts, state.counts);
    assert_eq!(not_begun(hall), state.without_notes());
    // An attempt is open exactly where a note is, with the same counts.
    for (station, place) in hall.stations.iter().zip(&state.places) {
        let snapshot = match station {
            Station::Attempt { snapshot, .. } => Some(*snapshot),
            _ => None,
        };
        let note = match place {
            Place::Waiting { note, .. } => note.as_ref().map(|note| note.counts),
            Place::Putting { .. } => None,
        };
        assert_eq!(snapshot, note);
    }
}

/// The log that a closing choice finds at its attempt.
fn log_to_close(hall: &Hall, choice: Choice) -> Vec<Action> {
    let Choice::Act { position } = choice else {
        panic!("kind 2 closes nothing");
    };
    match &hall.stations[usize::from(position)] {
        Station::Attempt {
            tree: Node::Leaf(leaf),
            ..
        } => leaf.log.entries.clone(),
        other => panic!("nothing to close: {other:?}"),
    }
}

/// The tally to begin with: mostly fresh, now and then near the top.
fn first_tally(random: &mut Random) -> Tally {
    if random.percent(80) {
        return Tally::FRESH;
    }
    let mut counter = || match random.below(3) {
        0 => 4_294_967_295,
        1 => 4_294_967_294,
        _ => u32::try_from(random.number() >> 16).expect("a number of 32 bits"),
    };
    Tally {
        commits: counter(),
        failed: counter(),
        retries: counter(),
    }
}

/// Feeds one done choice to both and compares what happened.
fn feed_both(
    table: &Table,
    hall: &Hall,
    state: &mut OneStep,
    choice: Choice,
    nets: &mut [i64; 16],
    coverage: &mut Coverage,
) -> Hall {
    let (rule, next) = moved(table, hall, choice);
    coverage.rules[usize::from(rule)] += 1;
    match atomic::feed(table, state, choice).expect("a choice that was done") {
        Happened::Nothing => assert!((8..=13).contains(&rule)),
        Happened::Out { tray } => {
            assert_eq!(rule, 1);
            nets[usize::from(tray)] += 1;
        }
        Happened::In { tray } => {
            assert_eq!(rule, 2);
            nets[usize::from(tray)] -= 1;
        }
        Happened::Rep { tray } => {
            assert_eq!(rule, 3);
            nets[usize::from(tray)] -= 1;
        }
        Happened::Noted => assert_eq!(rule, 4),
        Happened::Retried => assert_eq!(rule, 5),
        Happened::Failed => assert_eq!(rule, 6),
        Happened::Committed {
            path,
            first_now,
            gained_since,
        } => {
            assert_eq!(rule, 7);
            // The committed log is that path, action by action.
            assert_eq!(log_to_close(hall, choice), path);
            for action in &path {
                if let Action::Read(tray) = action {
                    nets[usize::from(*tray)] -= 1;
                }
            }
            if gained_since {
                coverage.commits_after_gain += 1;
                if first_now.as_ref() != Some(&path) {
                    coverage.commits_by_a_later_path += 1;
                }
            } else {
                coverage.commits_without_gain += 1;
                assert_eq!(first_now, Some(path.clone()));
            }
            if has_double_read(&path) {
                coverage.double_reads += 1;
            }
        }
    }
    assert_same(&next, state);
    next
}

fn has_double_read(path: &[Action]) -> bool {
    for (index, action) in path.iter().enumerate() {
        if matches!(action, Action::Read(_)) && path[index + 1..].contains(action) {
            return true;
        }
    }
    false
}

/// One table, one hall, one tally and several calls.
fn one_list_of_calls(random: &mut Random, bytes: &[u8], calls: usize, coverage: &mut Coverage) {
    let bytes = bytes.to_vec();
    let table = accepted(&bytes);
    let mut stored = opened(&bytes);
    let lent = first_tally(random);
    let mut tally = lent;
    let mut state = atomic::start(&table, lent);
    let mut hall = opening(&table);
    let mut nets = [0; 16];
    let mut all_done = Vec::new();
    for _ in 0..calls {
        let how_many = random.below(14);
        let list = generator::choices(random, &table, &hall, how_many, 40);
        let ran = calls::run(&bytes, &mut stored, &mut tally, &list);
        coverage.refusals[usize::from(ran.number)] += 1;
        if list.is_empty() {
            coverage.empty_calls += 1;
        }
        // On a hall opened from an accepted table no call meets 1 to 11.
        assert!(ran.number == 0 || ran.number >= 12);
        assert_eq!(check_hall(&bytes, &stored), answer(0, 0));
        let done = &whole_choices(&list)[..ran.done];
        let size: usize = done.iter().map(|choice| choice.size()).sum();
        assert_eq!(ran.place, size);
        if ran.number == 0 {
            assert_eq!(size, list.len());
        }
        for choice in done {
            hall = feed_both(&table, &hall, &mut state, *choice, &mut nets, coverage);
            all_done.push(*choice);
        }
        assert_eq!(decode(&table, &stored).as_ref(), Some(&hall));
        assert_eq!(tally, state.tally);
    }
    if tally.commits == 4_294_967_295 || tally.retries == 4_294_967_295 {
        coverage.counters_at_top += 1;
    }
    for (tray, net) in nets.iter().enumerate() {
        let first = i64::from(table.tokens[tray]);
        assert_eq!(i64::from(hall.counts[tray]), first + net);
    }
    abandoned_never_happened(&table, &all_done, &hall, coverage);
}

/// Runs the list without the choices of abandoned attempts: the hall comes out
/// the same, open attempts included.
fn abandoned_never_happened(
    table: &Table,
    choices: &[Choice],
    last: &Hall,
    coverage: &mut Coverage,
) {
    let kept = without_abandoned(table, choices, coverage);
    let mut bytes = Vec::new();
    for choice in &kept {
        bytes.extend(choice.bytes());
    }
    let result = run_choices(table, &opening(table), Tally::FRESH, &bytes);
    assert_eq!(result.number, 0);
    assert_eq!(&result.hall, last);
    assert_eq!(result.tally.failed, 0);
    assert_eq!(result.tally.retries, 0);
    let open = last
        .stations
        .iter()
        .any(|station| matches!(station, Station::Attempt { .. }));
    if open {
        coverage.left_open += 1;
    }
    coverage.removed += choices.len() - kept.len();
}

/// The choices that belong to no abandoned attempt. For each station the
/// indexes of the choices of its open attempt are carried along.
fn without_abandoned(table: &Table, choices: &[Choice], coverage: &mut Coverage) -> Vec<Choice> {
    let mut hall = opening(table);
    let mut owners: Vec<Vec<usize>> = vec![vec![]; hall.stations.len()];
    let mut drop = vec![false; choices.len()];
    for (index, choice) in choices.iter().enumerate() {
        let (rule, next) = moved(table, &hall, *choice);
        let position = match *choice {
            Choice::Act { position } | Choice::Inside { position, .. } => usize::from(position),
        };
        owners[position].push(index);
        let new_stations = next.stations.len() + 1 - hall.stations.len();
        if rule <= 3 {
            owners.splice(position..=position, vec![vec![]; new_stations]);
        } else if rule == 5 || rule == 6 {
            for index in std::mem::take(&mut owners[position]) {
                drop[index] = true;
            }
        } else if rule == 7 {
            let forked = owners[position]
                .iter()
                .filter(|index| matches!(choices[**index], Choice::Inside { .. }))
                .count()
                > log_to_close(&hall, *choice).len();
            if forked {
                coverage.forked_commits += 1;
            }
            owners.splice(position..=position, vec![vec![]; new_stations]);
        }
        hall = next;
    }
    let mut kept = Vec::new();
    for (index, choice) in choices.iter().enumerate() {
        if !drop[index] {
            kept.push(*choice);
        }
    }
    kept
}

#[test]
fn calls_by_chance_are_the_one_step_run() {
    let mut random = Random::new(3);
    let mut coverage = Coverage::default();
    for index in 0..6_000 {
        let bytes = if index % 30 == 1 {
            generator::nearly_full_table(&mut random)
        } else if index % 3 == 0 {
            let shape = Shape::any(&mut random);
            generator::accepted_table(&mut random, shape)
        } else {
            generator::contended_table(&mut random)
        };
        one_list_of_calls(&mut random, &bytes, 8, &mut coverage);
    }
    println!("{coverage:?}");
    for (rule, times) in coverage.rules.iter().enumerate().skip(1) {
        assert!(*times > 300, "rule {rule} seen {times} times");
    }
    for number in 12..=20 {
        let times = coverage.refusals[number];
        assert!(times > 30, "refusal {number} seen {times} times");
    }
    assert!(coverage.refusals[0] > 5_000);
    assert!(coverage.empty_calls > 500);
    assert!(coverage.commits_after_gain > 300);
    assert!(coverage.commits_by_a_later_path > 30);
    assert!(coverage.commits_without_gain > 1_000);
    assert!(coverage.double_reads > 30);
    assert!(coverage.forked_commits > 300);
    assert!(coverage.counters_at_top > 50);
    assert!(coverage.left_open > 500);
    assert!(coverage.removed > 2_000);
}

fn positions_of_attempts(hall: &Hall) -> Vec<u8> {
    let mut positions = Vec::new();
    for (position, station) in hall.stations.iter().enumerate() {
        if let Station::Attempt { .. } = station {
            positions.push(byte_of(position));
        }
    }
    positions
}

#[test]
fn nearly_full_halls_are_the_one_step_run() {
    let mut random = Random::new(4);
    let mut coverage = Coverage::default();
    let mut most = 0;
    for _ in 0..40 {
        let bytes = generator::nearly_full_table(&mut random);
        let table = accepted(&bytes);
        let mut stored = opened(&bytes);
        let mut tally = Tally::FRESH;
        let mut state = atomic::start(&table, tally);
        let mut hall = opening(&table);
        let mut nets = [0; 16];
        for _ in 0..300 {
            // Each choice is a call of its own; attempts are seen to first.
            let attempts = positions_of_attempts(&hall);
            let position = match random.pick(&attempts) {
                Some(position) if random.percent(60) => position,
                _ => random.byte_below(hall.stations.len() + 1),
            };
            let choice = if random.percent(60) {
                Choice::Act { position }
            } else {
                Choice::Inside { position, node: 0 }
            };
            let answer = calls::run(&bytes, &mut stored, &mut tally, &choice.bytes());
            coverage.refusals[usize::from(answer.number)] += 1;
            if answer.number == 0 {
                hall = feed_both(&table, &hall, &mut state, choice, &mut nets, &mut coverage);
            }
            assert_eq!(decode(&table, &stored).as_ref(), Some(&hall));
            assert_eq!(tally, state.tally);
            most = most.max(hall.stations.len());
        }
    }
    println!("{coverage:?}");
    assert_eq!(most, 64);
    assert!(coverage.refusals[19] > 50);
    assert!(coverage.rules[7] > 30);
}

/// A choice refused with 18, 19 or 20 cannot be a step of the one-step run
/// either.
#[test]
fn refused_moves_are_no_steps() {
    let mut random = Random::new(5);
    let mut seen = [0; 21];
    for index in 0..3_000 {
        let bytes = if index % 30 == 0 {
            generator::nearly_full_table(&mut random)
        } else {
            let shape = Shape::small(&mut random);
            generator::accepted_table(&mut random, shape)
        };
        let table = accepted(&bytes);
        let mut hall = opening(&table);
        let mut state = atomic::start(&table, Tally::FRESH);
        let how_many = random.below(40);
        let list = generator::choices(&mut random, &table, &hall, how_many, 0);
        for choice in all_choices(&list) {
            hall = moved(&table, &hall, choice).1;
            atomic::feed(&table, &mut state, choice).expect("a choice that was done");
        }
        for position in 0..=byte_of(hall.stations.len()) {
            let choice = Choice::Act { position };
            let (number, reason) = match make_move(&table, &hall, choice) {
                Outcome::Refused(14) => (14, NotPossible::NoStation),
                Outcome::Refused(18) => (18, NotPossible::EmptyTray),
                Outcome::Refused(19) => (19, NotPossible::FullHall),
                Outcome::Refused(20) => (20, NotPossible::FullTray),
                _ => continue,
            };
            seen[number] += 1;
            let before = state.clone();
            assert_eq!(atomic::feed(&table, &mut state, choice), Err(reason));
            assert_eq!(state, before);
        }
    }
    for number in [14, 18, 19, 20] {
        assert!(seen[number] > 50, "{number} seen {} times", seen[number]);
    }
}
