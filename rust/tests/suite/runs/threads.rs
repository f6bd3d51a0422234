//! Several threads at once, each with its own halls.

use reference::generator::{self, Random};
use reference::hall::{decode, opening};

use crate::common::by_chance::{accepted, any_table};
use crate::common::calls::Sequence;

/// The calls keep nothing from one to the next.
#[test]
fn several_threads() {
    std::thread::scope(|scope| {
        for seed in 0..4 {
            scope.spawn(move || {
                let mut random = Random::new(seed);
                for _ in 0..60 {
                    let bytes = any_table(&mut random);
                    let table = accepted(&bytes);
                    let mut sequence = Sequence::open(&bytes);
                    assert!(decode(&table, &sequence.hall) == Some(opening(&table)));
                    for _ in 0..6 {
                        let hall = decode(&table, &sequence.hall).expect("a well formed hall");
                        let list = generator::choices(&mut random, &table, &hall, 5, 30);
                        sequence.run(&list);
                        sequence.suggest();
                    }
                }
            });
        }
    });
}
