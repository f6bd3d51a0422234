//! Sessions by chance: calls of every sort, one after the other.

use reference::choice::{whole_choices, Choice as Second};
use reference::generator::{self, Random};

use super::Both;
use crate::common::by_chance::{accepted, any_table};
use crate::common::seeds::{say, seeds};

/// Any choice, or one that is likely to be accepted.
fn any_choice(random: &mut Random, both: &Both) -> Second {
    if random.percent(60) {
        let table = accepted(&both.table);
        let list = generator::choices(random, &table, &both.decoded(), 1, 0);
        if let Some(choice) = whole_choices(&list).first() {
            return *choice;
        }
    }
    let stations = both.decoded().stations.len();
    let position = random.byte_below(stations + 2);
    if random.percent(50) {
        Second::Act { position }
    } else {
        let most = if random.percent(50) { 3 } else { 17 };
        let node = random.byte_below(most);
        Second::Inside { position, node }
    }
}

/// A list of choices from here on, often with a refused one in it, or bytes by
/// chance.
fn any_list(random: &mut Random, both: &Both) -> Vec<u8> {
    if random.percent(20) {
        let length = random.below(12);
        return (0..length).map(|_| random.byte_below(4)).collect();
    }
    let choices = random.below(10);
    let table = accepted(&both.table);
    generator::choices(random, &table, &both.decoded(), choices, 30)
}

/// Whatever calls are made and refused in between, the session is where one run
/// of the accepted choices leads from the opening.
#[test]
fn calls_of_every_sort() {
    // Choices, then lists, by the number of their refusal.
    let mut met = [[0_usize; 21]; 2];
    let (mut still, mut longest) = (0, 0);
    for seed in seeds("sessions", 1_500) {
        let mut random = Random::new(seed);
        let mut both = Both::open(&any_table(&mut random));
        for _ in 0..random.between(1, 16) {
            match random.below(12) {
                0..=2 => {
                    let choice = any_choice(&mut random, &both);
                    met[0][usize::from(both.step(choice))] += 1;
                }
                3 => {
                    let choice = any_choice(&mut random, &both);
                    both.ask(choice);
                }
                4..=6 => {
                    let list = any_list(&mut random, &both);
                    met[1][usize::from(both.run(&list))] += 1;
                }
                7 => still += usize::from(both.suggest().is_none()),
                8 => both.follow(random.below(8)),
                9 => both.print(&any_list(&mut random, &both)),
                10 => both.stored_and_restored(),
                // The other way of the two is gone, and has changed nothing.
                _ => {
                    let before = both.clone();
                    both.follow(3);
                    both.run(&any_list(&mut random, &before));
                    before.compare();
                    both = before;
                }
            }
        }
        both.print(&both.made);
        both.as_one_run();
        longest = longest.max(both.made.len());
    }
    say(&format!(
        "sessions: steps {:?}, runs {:?} by number, {still} still, longest {longest} bytes",
        met[0], met[1]
    ));
    for number in [0, 14, 15, 16, 17, 18, 19] {
        assert!(met[0][number] >= 5, "{number} of steps: {met:?}");
        assert!(met[1][number] >= 10, "{number} of runs: {met:?}");
    }
    assert!(met[1][12] >= 20 && met[1][13] >= 20, "{met:?}");
    assert!(still >= 20 && longest >= 60, "{still} {longest}");
}
