//! Every byte in each of its places, beside the second implementation; and the
//! numbers read back from the sentence.

use ruonfidd::Answer;

use super::{moved_short, said, said_bare, Choice};

/// Positions and nodes of one digit, of two and of three.
const PAIRS: [[u8; 2]; 8] = [
    [0, 0],
    [9, 10],
    [10, 9],
    [99, 100],
    [100, 99],
    [255, 255],
    [0, 255],
    [255, 0],
];

/// The numbers in a text, from the left.
fn numbers_in(text: &str) -> Vec<u8> {
    text.split(|sign: char| !sign.is_ascii_digit())
        .filter(|digits| !digits.is_empty())
        .map(|digits| {
            assert!(digits == "0" || !digits.starts_with('0'), "{text}");
            digits.parse().expect("a byte")
        })
        .collect()
}

/// The sentence names its bytes in their order, and says whether it moved. It is
/// one line of plain text with one full stop, which is its end.
#[track_caller]
fn names_its_bytes(choice: Choice, answer: Answer) -> usize {
    let sentence = said(choice, answer);
    let [kind, position, node] = choice;
    let (moved, number, shortage) = match answer {
        Answer::Moved { rule, shortage } => (true, rule, shortage),
        Answer::Refused(number) => (false, number, None),
    };
    let mut named = vec![kind, position];
    if kind != 1 {
        named.push(node);
    }
    named.push(number);
    if let Some(shortage) = shortage {
        named.extend([shortage.tray, shortage.by.get()]);
        assert!(sentence.ends_with(&format!(", {shortage}.")), "{sentence}");
    }
    assert_eq!(sentence.contains(" short by "), shortage.is_some());
    assert_eq!(numbers_in(&sentence), named, "{sentence}");
    assert_eq!(sentence.contains(" moved by rule "), moved, "{sentence}");
    assert_eq!(sentence.contains(" met refusal "), !moved, "{sentence}");
    assert!(sentence.bytes().all(|byte| (b' '..=b'z').contains(&byte)));
    assert_eq!(sentence.find('.'), Some(sentence.len() - 1), "{sentence}");
    sentence.len()
}

/// How long the longest sentence without a shortage is, of all bytes.
const LONGEST: usize = 73;
/// And with one: of 96 bytes one is to spare.
const LONGEST_SHORT: usize = 95;

#[track_caller]
fn longest(lengths: impl Iterator<Item = usize>, longest: usize) {
    assert_eq!(lengths.max(), Some(longest));
}

fn both(number: u8) -> [Answer; 2] {
    [Answer::moved(number), Answer::Refused(number)]
}

#[test]
fn every_kind_with_every_number() {
    let lengths = (0..=255).flat_map(|kind| {
        (0..=255).flat_map(both).flat_map(move |answer| {
            PAIRS.map(|[position, node]| names_its_bytes([kind, position, node], answer))
        })
    });
    longest(lengths, LONGEST);
}

#[test]
fn every_position_with_every_node() {
    let answers = [
        Answer::moved(8),
        Answer::moved(13),
        Answer::Refused(15),
        Answer::Refused(200),
    ];
    let lengths = [0, 1, 2, 3, 255].into_iter().flat_map(|kind| {
        (0..=255).flat_map(move |position| {
            (0..=255).flat_map(move |node| {
                answers.map(|answer| names_its_bytes([kind, position, node], answer))
            })
        })
    });
    longest(lengths, LONGEST);
}

/// Kinds 1 and 2 at every position with every answer, and kind 2 at every node.
#[test]
fn every_choice_of_a_hall_with_every_number() {
    let lengths = (0..=255).flat_map(both).flat_map(|answer| {
        (0..=255).flat_map(move |byte| {
            [
                [1, byte, 0],
                [2, byte, 100],
                [2, 100, byte],
                [255, byte, byte],
            ]
            .map(|choice| names_its_bytes(choice, answer))
        })
    });
    longest(lengths, LONGEST);
}

/// At the rules that tell one, at the one with most words, and at one without: no
/// byte is passed over.
#[test]
fn every_tray_with_every_shortage() {
    let lengths = [3, 6, 9, 255].into_iter().flat_map(|rule| {
        (0..=255).flat_map(move |tray| {
            (1..=255).flat_map(move |by| {
                [[1, 63, 0], [255, 255, 255]]
                    .map(|choice| names_its_bytes(choice, moved_short(rule, [tray, by])))
            })
        })
    });
    longest(lengths, LONGEST_SHORT);
}

/// Every byte in each of the other places, beside a shortage.
#[test]
fn every_byte_beside_a_shortage() {
    let lengths = (0..=255).flat_map(|byte| {
        [[0, 1], [15, 16], [255, 255], [10, 100]]
            .into_iter()
            .flat_map(move |short| {
                [
                    names_its_bytes([byte, 255, 255], moved_short(3, short)),
                    names_its_bytes([2, byte, 255], moved_short(9, short)),
                    names_its_bytes([1, byte, 0], moved_short(6, short)),
                    names_its_bytes([2, 100, byte], moved_short(9, short)),
                    names_its_bytes([255, 255, 255], moved_short(byte, short)),
                    names_its_bytes([byte, byte, byte], moved_short(byte, short)),
                ]
            })
    });
    longest(lengths, LONGEST_SHORT);
}

/// Of the byte that tells whether the choice moved, 0 alone says that it did not;
/// what was short is not named then.
#[test]
fn every_byte_for_moved() {
    for moved in 0..=255 {
        for number in [0, 6, 17, 200] {
            for short in [[0, 0], [7, 0], [0, 1], [7, 200]] {
                let sentence = said_bare([2, 10, 9], (moved, number, short));
                let named = moved != 0 && short != [0, 0];
                assert_eq!(sentence.contains(" moved by rule "), moved != 0);
                assert_eq!(sentence.contains(" met refusal "), moved == 0);
                assert_eq!(sentence.contains(" short by "), named, "{sentence}");
            }
        }
    }
}
