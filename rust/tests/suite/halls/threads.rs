//! Several threads at once, each with its own halls.

use reference::generator::{damaged_hall, Random};
use reference::hall::encode;
use ruonfidd::HALL_BYTES;

use crate::common::answers::{hall_answer, opened_over};
use crate::common::by_chance::{accepted, any_hall, any_table};

/// The calls keep nothing from one to the next.
#[test]
fn several_threads() {
    std::thread::scope(|scope| {
        for seed in 0..4 {
            scope.spawn(move || {
                let mut random = Random::new(seed);
                for round in 0..300 {
                    let bytes = any_table(&mut random);
                    let before = random.bytes(HALL_BYTES);
                    assert!(opened_over(&bytes, &before).is_ok());
                    let stored = encode(&any_hall(&mut random, &accepted(&bytes), round));
                    hall_answer(&bytes, &damaged_hall(&mut random, &stored));
                }
            });
        }
    });
}
