//! Sentences written out, one edge after the other.

use ruonfidd::Answer::{self, Refused};
use ruonfidd::{say, Sentence};

use super::{said, Choice};

#[track_caller]
fn gives(choice: Choice, answer: Answer, sentence: &str) {
    assert_eq!(said(choice, answer), sentence);
}

#[test]
fn of_every_rule() {
    let words = [
        "token put",
        "token taken",
        "token taken, repeats",
        "attempt begun",
        "attempt given up",
        "commit failed",
        "block committed",
        "read noted",
        "read failed",
        "write noted",
        "two ways opened",
        "second way kept",
        "first way kept",
    ];
    for (rule, words) in (1..).zip(words) {
        let end = format!("moved by rule {rule}, {words}.");
        gives(
            [1, 5, 0],
            Answer::moved(rule),
            &format!("Kind 1 at station 5 {end}"),
        );
        gives(
            [2, 5, 3],
            Answer::moved(rule),
            &format!("Kind 2 at station 5, node 3 {end}"),
        );
    }
}

#[test]
fn of_every_refusal() {
    let words = [
        "table: unknown record",
        "table: record cut short",
        "table: too many terms",
        "table: no such tray",
        "table: term not earlier",
        "table: wrong term class",
        "table: term too large",
        "table: wrong tokens",
        "table: no start at end",
        "hall: wrong length",
        "hall: not well formed",
        "no such kind",
        "choice cut short",
        "no such station",
        "station cannot do this",
        "no such node",
        "no move at this node",
        "tray empty",
        "too many stations",
        "tray full",
    ];
    for (number, words) in (1..).zip(words) {
        let end = format!("met refusal {number}, {words}.");
        gives(
            [1, 5, 0],
            Refused(number),
            &format!("Kind 1 at station 5 {end}"),
        );
        gives(
            [2, 5, 3],
            Refused(number),
            &format!("Kind 2 at station 5, node 3 {end}"),
        );
    }
}

/// Before the first and behind the last that has words.
#[test]
fn numbers_without_words() {
    for number in [0, 14, 15, 20, 21, 22, 99, 100, 255] {
        gives(
            [1, 0, 0],
            Answer::moved(number),
            &format!("Kind 1 at station 0 moved by rule {number}."),
        );
    }
    // 21 is an answer to a buffer and not to a choice.
    for number in [0, 21, 22, 99, 100, 255] {
        gives(
            [1, 0, 0],
            Refused(number),
            &format!("Kind 1 at station 0 met refusal {number}."),
        );
    }
}

/// One digit, two and three, and where each begins and ends.
#[test]
fn positions() {
    for position in [0, 1, 9, 10, 11, 63, 64, 99, 100, 101, 199, 200, 254, 255] {
        gives(
            [1, position, 0],
            Answer::moved(2),
            &format!("Kind 1 at station {position} moved by rule 2, token taken."),
        );
    }
}

#[test]
fn nodes() {
    for node in [0, 1, 9, 10, 14, 15, 99, 100, 101, 199, 200, 254, 255] {
        gives(
            [2, 0, node],
            Refused(16),
            &format!("Kind 2 at station 0, node {node} met refusal 16, no such node."),
        );
    }
}

/// Kind 1 has no node, and one that is handed in counts for nothing; every other
/// kind has one.
#[test]
fn the_node_of_kind_1() {
    for node in [0, 1, 2, 9, 10, 99, 100, 255] {
        gives(
            [1, 3, node],
            Answer::moved(4),
            "Kind 1 at station 3 moved by rule 4, attempt begun.",
        );
    }
    for kind in [0, 2, 3, 10, 11, 100, 101, 255] {
        gives(
            [kind, 3, 7],
            Answer::moved(4),
            &format!("Kind {kind} at station 3, node 7 moved by rule 4, attempt begun."),
        );
    }
}

/// Kinds that no hall takes, and answers that it never gives to a choice.
#[test]
fn pairs_that_no_hall_gives() {
    gives(
        [0, 0, 0],
        Answer::moved(0),
        "Kind 0 at station 0, node 0 moved by rule 0.",
    );
    gives(
        [0, 0, 0],
        Refused(0),
        "Kind 0 at station 0, node 0 met refusal 0.",
    );
    gives(
        [255, 255, 255],
        Answer::moved(255),
        "Kind 255 at station 255, node 255 moved by rule 255.",
    );
    gives(
        [255, 255, 255],
        Refused(255),
        "Kind 255 at station 255, node 255 met refusal 255.",
    );
    // A put inside an attempt, a read outside of one, a refusal of the table for
    // a station that none has.
    gives(
        [2, 0, 0],
        Answer::moved(1),
        "Kind 2 at station 0, node 0 moved by rule 1, token put.",
    );
    gives(
        [1, 0, 0],
        Answer::moved(8),
        "Kind 1 at station 0 moved by rule 8, read noted.",
    );
    gives(
        [1, 255, 0],
        Refused(7),
        "Kind 1 at station 255 met refusal 7, table: term too large.",
    );
    gives(
        [1, 0, 0],
        Refused(12),
        "Kind 1 at station 0 met refusal 12, no such kind.",
    );
}

/// The longest there are still leave room.
#[test]
fn the_longest() {
    gives(
        [255, 255, 255],
        Refused(15),
        "Kind 255 at station 255, node 255 met refusal 15, station cannot do this.",
    );
    gives(
        [255, 255, 255],
        Refused(5),
        "Kind 255 at station 255, node 255 met refusal 5, table: term not earlier.",
    );
    gives(
        [255, 255, 255],
        Answer::moved(3),
        "Kind 255 at station 255, node 255 moved by rule 3, token taken, repeats.",
    );
}

/// Width and precision are kept, as for other text.
#[test]
fn as_it_is_displayed() {
    let sentence: Sentence = say([1, 0, 0], Answer::moved(1));
    let text = "Kind 1 at station 0 moved by rule 1, token put.";
    assert_eq!(sentence.to_string(), text);
    assert_eq!(format!("{sentence:<50}|"), format!("{text}   |"));
    assert_eq!(format!("{sentence:.6}"), "Kind 1");
    assert_eq!(format!("{sentence:?}"), format!("Sentence({text:?})"));
    let bytes: &[u8] = sentence.as_ref();
    assert_eq!(bytes, text.as_bytes());
}

/// Equal where the text is.
#[test]
fn as_they_are_compared() {
    assert_eq!(
        say([1, 0, 0], Answer::moved(1)),
        say([1, 0, 9], Answer::moved(1))
    );
    assert_ne!(say([1, 0, 0], Answer::moved(1)), say([1, 0, 0], Refused(1)));
    assert_ne!(
        say([2, 0, 0], Answer::moved(8)),
        say([2, 0, 9], Answer::moved(8))
    );
}
