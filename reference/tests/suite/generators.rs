//! The generators give what their names say, and the same seed gives the same.

use reference::calls::check_table;
use reference::generator::{self, Random, Shape};
use reference::hall::{decode, encode};
use reference::moves::{accepted_choices, make_move, Outcome};
use reference::run::{run_choices, Tally};
use reference::table::{branches, length, width};

use crate::common::{accepted, all_choices};

#[test]
fn tables_are_accepted_and_varied() {
    let mut random = Random::new(40);
    let mut kinds = [0; 14];
    let mut most_terms = 0;
    let mut most_width = 0;
    let mut most_branches = 0;
    let mut most_length = 0;
    for index in 0..4_000 {
        let bytes = if index % 4 == 0 {
            generator::contended_table(&mut random)
        } else {
            let shape = Shape::any(&mut random);
            generator::accepted_table(&mut random, shape)
        };
        assert_eq!(check_table(&bytes).number, 0);
        for start in generator::record_starts(&bytes) {
            kinds[usize::from(bytes[start])] += 1;
        }
        let table = accepted(&bytes);
        most_terms = most_terms.max(table.terms.len());
        for (number, term) in table.terms.iter().enumerate() {
            // The record of a term is the one that was read.
            assert_eq!(generator::record_of(*term)[0], term.kind());
            if term.is_process() {
                most_width = most_width.max(width(&table.terms, number));
            } else {
                most_branches = most_branches.max(branches(&table.terms, number));
                most_length = most_length.max(length(&table.terms, number));
            }
        }
    }
    for (kind, times) in kinds.iter().enumerate().skip(1) {
        assert!(*times > 500, "kind {kind} seen {times} times");
    }
    assert!(most_terms > 120);
    assert_eq!(most_width, 64);
    assert_eq!(most_branches, 8);
    assert_eq!(most_length, 16);
}

#[test]
fn halls_are_well_formed_and_choices_end_as_asked() {
    let mut random = Random::new(41);
    let mut refusals = [0; 21];
    for index in 0..2_000 {
        let nearly_full = index % 10 == 0;
        let table = if nearly_full {
            accepted(&generator::nearly_full_table(&mut random))
        } else {
            accepted(&generator::contended_table(&mut random))
        };
        let hall = if nearly_full {
            generator::hall_with(&mut random, &table, 64)
        } else {
            generator::hall(&mut random, &table)
        };
        assert!(decode(&table, &encode(&hall)).is_some());
        let accepted = generator::choices(&mut random, &table, &hall, 4, 0);
        let mut now = hall.clone();
        for choice in all_choices(&accepted) {
            assert!(accepted_choices(&table, &now).contains(&choice));
            match make_move(&table, &now, choice) {
                Outcome::Moved { hall, .. } => now = hall,
                Outcome::Refused(number) => panic!("refused with {number}"),
            }
        }
        let refused = generator::choices(&mut random, &table, &hall, 4, 100);
        let result = run_choices(&table, &hall, Tally::FRESH, &refused);
        assert_ne!(result.number, 0);
        refusals[usize::from(result.number)] += 1;
    }
    for (number, times) in refusals.iter().enumerate().skip(12) {
        assert!(*times > 10, "refusal {number} seen {times} times");
    }
}

#[test]
fn the_same_seed_gives_the_same() {
    let draw = |seed| {
        let mut random = Random::new(seed);
        let shape = Shape::any(&mut random);
        let bytes = generator::accepted_table(&mut random, shape);
        let hall = generator::hall(&mut random, &accepted(&bytes));
        let stored = generator::damaged_hall(&mut random, &encode(&hall));
        (bytes, stored, generator::damaged_table(&mut random))
    };
    let mut different = 0;
    for seed in 0..200 {
        assert_eq!(draw(seed), draw(seed));
        different += usize::from(draw(seed) != draw(seed + 1));
    }
    assert!(different > 190);
}
