//! Sentences that name what was short, written out.

use ruonfidd::{say, Answer, Shortage};

use super::{moved_short, said, said_bare, Choice};

#[track_caller]
fn gives(choice: Choice, rule: u8, short: [u8; 2], sentence: &str) {
    assert_eq!(said(choice, moved_short(rule, short)), sentence);
}

/// The two rules that tell one.
#[test]
fn of_a_commit_and_of_a_read() {
    gives(
        [1, 0, 0],
        6,
        [3, 1],
        "Kind 1 at station 0 moved by rule 6, commit failed, tray 3 short by 1.",
    );
    gives(
        [2, 63, 14],
        9,
        [15, 16],
        "Kind 2 at station 63, node 14 moved by rule 9, read failed, tray 15 short by 16.",
    );
}

/// Trays and shortages of one digit, of two and of three.
#[test]
fn numbers() {
    for number in [1, 9, 10, 11, 15, 16, 99, 100, 101, 199, 200, 254, 255] {
        gives(
            [1, 0, 0],
            6,
            [number, 1],
            &format!(
                "Kind 1 at station 0 moved by rule 6, commit failed, tray {number} short by 1."
            ),
        );
        gives(
            [1, 0, 0],
            6,
            [0, number],
            &format!(
                "Kind 1 at station 0 moved by rule 6, commit failed, tray 0 short by {number}."
            ),
        );
    }
}

/// Also at rules that tell none, and behind a number that has no words.
#[test]
fn at_any_rule() {
    gives(
        [1, 7, 0],
        7,
        [0, 2],
        "Kind 1 at station 7 moved by rule 7, block committed, tray 0 short by 2.",
    );
    gives(
        [2, 0, 0],
        3,
        [4, 2],
        "Kind 2 at station 0, node 0 moved by rule 3, token taken, repeats, tray 4 short by 2.",
    );
    for rule in [0, 14, 255] {
        gives(
            [1, 7, 0],
            rule,
            [12, 3],
            &format!("Kind 1 at station 7 moved by rule {rule}, tray 12 short by 3."),
        );
    }
}

/// Of the bare call's bytes, two zeros alone name nothing. Any other tray that is
/// short by 0 is named, and tray 0 by any other number. (The safe calls have no
/// tray that is short by 0.)
#[test]
fn short_by_none() {
    let committing = |short| said_bare([1, 0, 0], (1, 6, short));
    let without = "Kind 1 at station 0 moved by rule 6, commit failed";
    assert_eq!(committing([0, 0]), format!("{without}."));
    assert_eq!(committing([0, 1]), format!("{without}, tray 0 short by 1."));
    for tray in [1, 5, 15, 16, 255] {
        assert_eq!(
            committing([tray, 0]),
            format!("{without}, tray {tray} short by 0.")
        );
    }
    for tray in 0..=255 {
        assert_eq!(Shortage::new(tray, 0), None);
    }
}

/// Where it was refused, neither byte counts.
#[test]
fn of_a_refusal() {
    for short in [[0, 0], [0, 1], [5, 0], [3, 1], [255, 255]] {
        assert_eq!(
            said_bare([1, 0, 0], (0, 18, short)),
            "Kind 1 at station 0 met refusal 18, tray empty."
        );
    }
}

/// No sentence is longer: a byte of the 96 is to spare.
#[test]
fn the_longest() {
    let longest = "Kind 255 at station 255, node 255 moved by rule 3, token taken, repeats, \
                   tray 255 short by 255.";
    gives([255, 255, 255], 3, [255, 255], longest);
    assert_eq!(longest.len(), 95);
}

/// The words for a shortage alone are those of the sentence, where it ends.
#[test]
fn as_a_shortage_is_displayed() {
    for (tray, by) in [(0, 1), (3, 1), (15, 16), (255, 255)] {
        let shortage = Shortage::new(tray, by).expect("a shortage");
        let words = shortage.to_string();
        assert_eq!(words, format!("tray {tray} short by {by}"));
        let answer = Answer::Moved {
            rule: 9,
            shortage: Some(shortage),
        };
        let sentence = say([2, 0, 0], answer).to_string();
        assert!(sentence.ends_with(&format!(", {words}.")), "{sentence}");
    }
}
