//! Suggestions on tables and halls by chance.

use reference::generator::{self, Random};
use reference::hall::{encode, opening, Hall};
use reference::run::Tally;
use reference::table::Table;

use super::step_accepts;
use crate::common::by_chance::{accepted, any_table, reached_hall};
use crate::common::calls::{Met, Sequence};
use crate::common::choices::step_bytes;
use crate::common::seeds::{say, seeds};

/// The first choice that a step of the engine accepts, zeros for none: 64 stations
/// and 15 nodes of an attempt are the most there can be. At each position the act
/// is tried before the nodes, or behind them.
fn first_by_steps(sequence: &Sequence, act_before_nodes: bool) -> [u8; 3] {
    let mut hall = sequence.hall.clone();
    for position in 0..64 {
        let mut choices: Vec<[u8; 3]> = (0..15).map(|node| [2, position, node]).collect();
        let at = if act_before_nodes { 0 } else { choices.len() };
        choices.insert(at, [1, position, 0]);
        for choice in choices {
            if step_accepts(&sequence.table, &mut hall, choice) {
                return choice;
            }
        }
    }
    [0; 3]
}

/// From openings, suggestion after suggestion, each made by a step.
#[test]
fn followed_from_openings() {
    let mut met = Met::default();
    for seed in seeds("suggestions followed", 1_500) {
        let mut random = Random::new(seed);
        let bytes = any_table(&mut random);
        let start = encode(&opening(&accepted(&bytes)));
        let mut sequence = Sequence::new(&bytes, &start, Tally::FRESH);
        for _ in 0..15 {
            let Some(choice) = sequence.suggest() else {
                break;
            };
            let (number, _, _) = sequence.step(step_bytes(choice, 5));
            assert_eq!(number, 0, "{choice:?} on {sequence}");
        }
        met.add(&sequence.met);
    }
    say(&format!("suggestions followed: {met}"));
    assert!(met.suggested >= 10_000 && met.still >= 100, "{met}");
    assert!(met.of_several >= 10_000, "{met}");
}

/// Halls of any kind.
#[test]
fn on_any_hall() {
    let mut met = Met::default();
    for seed in seeds("suggestions on any hall", 12_000) {
        let mut sequence = any_sequence(seed);
        sequence.suggest();
        met.add(&sequence.met);
    }
    say(&format!("suggestions on any hall: {met}"));
    assert!(met.suggested >= 5_000 && met.still >= 700, "{met}");
    assert!(met.of_several >= 4_000, "{met}");
    met.wrong_at_least(100);
}

/// The suggestion is the first choice that the engine's own step accepts. Which
/// kind is tried first at a position does not matter.
#[test]
fn the_first_that_a_step_accepts() {
    let mut met = Met::default();
    for seed in seeds("suggestions beside steps", 3_000) {
        let mut sequence = any_sequence(seed);
        let suggestion = sequence.suggest();
        let suggested = suggestion.map_or([0; 3], |choice| step_bytes(choice, 0));
        for act_before_nodes in [true, false] {
            let first = first_by_steps(&sequence, act_before_nodes);
            assert_eq!(suggested, first, "{sequence}");
        }
        met.add(&sequence.met);
    }
    say(&format!("suggestions beside steps: {met}"));
    assert!(met.of_several >= 1_000 && met.still >= 170, "{met}");
    met.wrong_at_least(30);
}

/// Any table with any hall of it.
fn any_sequence(seed: u64) -> Sequence {
    let mut random = Random::new(seed);
    let bytes = any_table(&mut random);
    let start = any_hall(&mut random, &accepted(&bytes), seed);
    Sequence::new(&bytes, &encode(&start), Tally::FRESH)
}

/// By turns a hall that a run reaches, one with a single station, and one that
/// most often no run reaches.
fn any_hall(random: &mut Random, table: &Table, turn: u64) -> Hall {
    match turn % 3 {
        0 => reached_hall(random, table, 6),
        1 => generator::hall_with(random, table, 1),
        _ => generator::hall(random, table),
    }
}
