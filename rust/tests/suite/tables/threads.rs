//! Several threads at once.

use reference::generator::{damaged_table, Random};

use crate::common::answers::table_answer;

/// The call keeps nothing between calls, so threads cannot disturb each other.
#[test]
fn several_threads() {
    std::thread::scope(|scope| {
        for seed in 0..4 {
            scope.spawn(move || {
                let mut random = Random::new(seed);
                for _ in 0..5_000 {
                    table_answer(&damaged_table(&mut random));
                }
            });
        }
    });
}
