//! Several threads at once.

use reference::generator::Random;

use crate::common::by_chance::tree_table;
use crate::common::turns::all_turns;

/// The call keeps nothing from one turn to the next.
#[test]
fn several_threads() {
    std::thread::scope(|scope| {
        for seed in 0..4 {
            scope.spawn(move || {
                let mut random = Random::new(seed);
                for _ in 0..150 {
                    all_turns(&tree_table(&mut random));
                }
            });
        }
    });
}
