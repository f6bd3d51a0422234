//! Several threads at once, each with its own buffers.

use reference::generator::Random;
use ruonfidd::Answer;

use super::{said, said_bare};

/// The call keeps nothing from one to the next.
#[test]
fn several_threads() {
    std::thread::scope(|scope| {
        for seed in 0..4 {
            scope.spawn(move || {
                let mut random = Random::new(seed);
                for _ in 0..5_000 {
                    let choice = [(); 3].map(|()| random.byte_below(256));
                    let number = random.byte_below(32);
                    said(choice, Answer::moved(number));
                    let short = [(); 2].map(|()| random.byte_below(256));
                    said_bare(choice, (1, number, short));
                    said(choice, Answer::Refused(number));
                }
            });
        }
    });
}
