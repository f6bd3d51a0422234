//! No sentence belongs to two pairs of choice and answer, what was short
//! included.

use std::collections::{HashMap, HashSet};

use ruonfidd::{say, Answer, Sentence};

use super::{moved_short, said_bare};

/// A choice and its answer as they count: kind 1 has no node.
type Pair = (u8, u8, Option<u8>, Answer);

/// Sentences so far, each with its pair.
#[derive(Default)]
struct Heard(HashMap<Sentence, Pair>);

impl Heard {
    #[track_caller]
    fn hear(&mut self, [kind, position, node]: [u8; 3], answer: Answer) {
        let pair = (kind, position, (kind != 1).then_some(node), answer);
        let sentence = say([kind, position, node], answer);
        if let Some(other) = self.0.insert(sentence, pair) {
            assert_eq!(other, pair, "{sentence}");
        }
    }
}

fn both(number: u8) -> [Answer; 2] {
    [Answer::moved(number), Answer::Refused(number)]
}

/// Numbers whose digits run together in many ways: 1 and 12 as 11 and 2 do.
#[test]
fn over_digits_that_run_together() {
    let bytes = [
        0, 1, 2, 3, 10, 11, 12, 13, 20, 21, 22, 25, 31, 55, 99, 100, 112, 121, 212, 255,
    ];
    let mut heard = Heard::default();
    for kind in bytes {
        for position in bytes {
            for node in bytes {
                for number in bytes {
                    for answer in both(number) {
                        heard.hear([kind, position, node], answer);
                    }
                }
            }
        }
    }
    // 19 kinds with a node, kind 1 without.
    let choices = 19 * 20 * 20 + 20;
    assert_eq!(heard.0.len(), choices * 20 * 2);
}

/// All rules and refusals of all choices that a hall takes.
#[test]
fn over_the_choices_of_a_hall() {
    let answers = (1..=13)
        .map(Answer::moved)
        .chain((1..=20).map(Answer::Refused));
    let mut heard = Heard::default();
    for answer in answers {
        for position in 0..64 {
            heard.hear([1, position, 0], answer);
            for node in 0..15 {
                heard.hear([2, position, node], answer);
            }
        }
    }
    assert_eq!(heard.0.len(), 33 * 64 * 16);
}

/// All kinds with all numbers, which a table of words might confuse.
#[test]
fn over_kinds_and_numbers() {
    let mut heard = Heard::default();
    for kind in 0..=255 {
        for answer in (0..=255).flat_map(both) {
            heard.hear([kind, 7, 7], answer);
        }
    }
    assert_eq!(heard.0.len(), 256 * 256 * 2);
}

/// Trays and shortages whose digits run together, beside answers without one.
#[test]
fn over_shortages() {
    let numbers = [1, 2, 10, 11, 12, 15, 16, 21, 111, 112, 121, 211, 255];
    let mut heard = Heard::default();
    for choice in [[1, 1, 0], [1, 11, 0], [2, 1, 1], [2, 1, 11], [2, 11, 1]] {
        for number in [0, 1, 3, 6, 9, 13, 14, 61, 96, 255] {
            for answer in both(number) {
                heard.hear(choice, answer);
            }
            for tray in [0].into_iter().chain(numbers) {
                for by in numbers {
                    heard.hear(choice, moved_short(number, [tray, by]));
                }
            }
        }
    }
    // Nothing short, or refused, or any of fourteen trays by any of thirteen.
    assert_eq!(heard.0.len(), 5 * 10 * (2 + 14 * 13));
}

/// Every two bytes that the bare call takes for what was short: two zeros, which
/// name nothing, and a tray that is short by 0 are among them.
#[test]
fn over_every_two_bytes_of_a_shortage() {
    let mut heard = HashSet::new();
    for (choice, rule) in [
        ([1, 63, 0], 6),
        ([2, 63, 14], 9),
        ([255, 255, 255], 3),
        ([1, 0, 0], 255),
    ] {
        for tray in 0..=255 {
            for by in 0..=255 {
                let sentence = said_bare(choice, (1, rule, [tray, by]));
                let again = heard.replace(sentence);
                assert_eq!(again, None, "of [{tray}, {by}] and of others");
            }
        }
    }
}

/// Everything that a step can tell of a failed commit or read, at every station
/// and node.
#[test]
fn over_the_shortages_of_a_hall() {
    let mut heard = Heard::default();
    for tray in 0..16 {
        for by in 1..=16 {
            for position in 0..64 {
                heard.hear([1, position, 0], moved_short(6, [tray, by]));
                for node in 0..15 {
                    heard.hear([2, position, node], moved_short(9, [tray, by]));
                }
            }
        }
    }
    assert_eq!(heard.0.len(), 16 * 16 * 64 * 16);
}

/// What the tests above rest on: the same sentence of another pair is noticed.
#[test]
#[should_panic(expected = "moved by rule 1, token put")]
fn a_shared_sentence_is_noticed() {
    let mut heard = Heard::default();
    let shared = say([1, 0, 0], Answer::moved(1));
    heard.0.insert(shared, (1, 1, None, Answer::moved(1)));
    heard.hear([1, 0, 0], Answer::moved(1));
}
