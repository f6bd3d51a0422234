//! Openings of tables by chance, turn by turn.

use reference::generator::{damaged_table, input, Random};

use super::turns_to_the_hall;
use crate::common::answers::{table_answer, ACCEPTED};
use crate::common::by_chance::{accepted, any_table, tree_table};
use crate::common::seeds::{say, seeds};
use crate::common::turns::{turn_answer, TurnsMet, FAR};

/// Every turn of an accepted table, beside its hall.
#[track_caller]
fn compare(table: &[u8], met: &mut TurnsMet) {
    met.note(&accepted(table), &turns_to_the_hall(table));
}

/// The same of any table. One that a check refuses is refused so at some turns;
/// how often each number was the answer is counted.
#[track_caller]
fn compare_any(table: &[u8], random: &mut Random, numbers: &mut [usize; 10], met: &mut TurnsMet) {
    let checked = table_answer(table);
    numbers[usize::from(checked.0)] += 1;
    if checked == ACCEPTED {
        compare(table, met);
        return;
    }
    for turn in [0, random.below(200), FAR[random.below(FAR.len())]] {
        let answer = turn_answer(table, turn);
        assert_eq!(answer, Err(checked), "turn {turn} of {table:?}");
    }
}

/// Tables of all the generator's sorts.
#[test]
fn accepted_tables() {
    let mut met = TurnsMet::default();
    for seed in seeds("openings by turns", 3_000) {
        compare(&any_table(&mut Random::new(seed)), &mut met);
    }
    say(&format!("openings by turns: {met}"));
    assert!(met.left_nested >= 1_500 && met.right_nested >= 500, "{met}");
    assert!(met.wide >= 600 && met.stations >= 30_000, "{met}");
    assert!(met.most_left >= 50, "{met}");
}

/// Trees of any shape, with nils among the stations.
#[test]
fn trees_of_any_shape() {
    let mut met = TurnsMet::default();
    for seed in seeds("openings of trees", 3_000) {
        compare(&tree_table(&mut Random::new(seed)), &mut met);
    }
    say(&format!("openings of trees: {met}"));
    assert!(
        met.left_nested >= 2_000 && met.right_nested >= 2_000,
        "{met}"
    );
    assert!(met.nil_between >= 2_000 && met.wide >= 2_000, "{met}");
    assert_eq!(met.most_left, 64);
    met.wrong_at_least(1_000);
}

/// Tables with some damage.
#[test]
fn damaged_tables() {
    let mut met = TurnsMet::default();
    let mut numbers = [0; 10];
    for seed in seeds("turns of damaged tables", 12_000) {
        let mut random = Random::new(seed);
        let table = damaged_table(&mut random);
        compare_any(&table, &mut random, &mut numbers, &mut met);
    }
    say(&format!(
        "turns of damaged tables: numbers 0 to 9 {numbers:?}; {met}"
    ));
    assert!(numbers.iter().all(|times| *times >= 40), "{numbers:?}");
}

/// Trees with one byte changed: many still open, by other turns.
#[test]
fn trees_with_a_changed_byte() {
    let mut met = TurnsMet::default();
    let mut numbers = [0; 10];
    for seed in seeds("turns of changed trees", 3_000) {
        let mut random = Random::new(seed);
        let mut table = tree_table(&mut random);
        let at = random.below(table.len());
        table[at] = random.byte_below(40);
        compare_any(&table, &mut random, &mut numbers, &mut met);
    }
    say(&format!(
        "turns of changed trees: numbers 0 to 9 {numbers:?}; {met}"
    ));
    let refused: usize = numbers[1..].iter().sum();
    assert!(
        refused >= 1_000 && met.tables >= 500,
        "{refused} refused; {met}"
    );
}

/// Tables with choices behind them, some longer than any input that is run: most
/// are refused for what follows the start record.
#[test]
fn tables_with_more_behind_them() {
    let mut met = TurnsMet::default();
    let mut numbers = [0; 10];
    let mut longest = 0;
    for seed in seeds("turns of tables with more behind them", 3_000) {
        let mut random = Random::new(seed);
        let table = input(&mut random);
        longest = longest.max(table.len());
        compare_any(&table, &mut random, &mut numbers, &mut met);
    }
    say(&format!(
        "turns of tables with more behind them: longest {longest}; numbers 0 to 9 {numbers:?}"
    ));
    assert!(longest > 16_384 && numbers[9] >= 2_000, "{numbers:?}");
}

/// Bytes without any form, at any turn.
#[test]
fn bytes_without_form() {
    let mut random = Random::new(1);
    let mut refused = 0;
    for round in 0..100_000 {
        let length = random.below(30);
        let bound = [256, 17, 14][round % 3];
        let table: Vec<u8> = (0..length).map(|_| random.byte_below(bound)).collect();
        let turn = random.below(5);
        refused += usize::from(turn_answer(&table, turn).is_err());
    }
    assert!(refused >= 99_000, "{refused}");
}
