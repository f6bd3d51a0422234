//! The sentence of a choice and its answer: every byte of it, and none beside
//! it.

mod buffers;
mod by_hand;
mod every_byte;
mod never_shared;
mod shortages;
mod steps;
mod threads;

use reference::sentence::{sentence, Reply};
use reference::shortage::Shortage as SecondShortage;
use ruonfidd::{say, say_into, Answer, Shortage, SENTENCE_BYTES};

use crate::ffi;

/// Kind, position and node, any bytes.
type Choice = [u8; 3];

/// The answer as the second implementation takes it.
fn reply(answer: Answer) -> Reply {
    match answer {
        Answer::Moved { rule, shortage } => Reply::Moved {
            rule,
            short: shortage.map(|it| SecondShortage {
                tray: it.tray,
                by: it.by.get(),
            }),
        },
        Answer::Refused(number) => Reply::Refused(number),
    }
}

/// Moved, with this tray short by so many, which is not 0.
#[track_caller]
fn moved_short(rule: u8, [tray, by]: [u8; 2]) -> Answer {
    let shortage = Shortage::new(tray, by);
    assert!(shortage.is_some(), "tray {tray} is short by none");
    Answer::Moved { rule, shortage }
}

/// An answer as the bare call takes it: moved, the number, and the two bytes of
/// what was short.
type Bare = (u8, u8, [u8; 2]);

/// Forms of one answer. They differ in the byte for moved, and where it was
/// refused in the bytes for what was short, which count for nothing then.
fn bare_forms(answer: Answer) -> [Bare; 3] {
    match answer {
        Answer::Moved { rule, shortage } => {
            let short = shortage.map_or([0, 0], |it| [it.tray, it.by.get()]);
            [1, 2, 255].map(|moved| (moved, rule, short))
        }
        Answer::Refused(number) => [[0, 0], [3, 1], [255, 255]].map(|short| (0, number, short)),
    }
}

/// Such bytes as the second implementation takes them: of what was short, two zeros
/// alone say that nothing was.
fn bare_reply((moved, number, short): Bare) -> Reply {
    match (moved, short) {
        (0, _) => Reply::Refused(number),
        (_, [0, 0]) => Reply::Moved {
            rule: number,
            short: None,
        },
        (_, [tray, by]) => Reply::Moved {
            rule: number,
            short: Some(SecondShortage { tray, by }),
        },
    }
}

/// A call writes this sentence into the buffer that it is lent, gives its length,
/// and leaves the bytes behind it as they were.
#[track_caller]
fn writes(sentence: &str, mut call: impl FnMut(&mut [u8]) -> usize) {
    assert!(sentence.len() <= SENTENCE_BYTES, "{sentence}");
    // A byte that is written behind the sentence differs from one of the two.
    for before in [0, 170] {
        let mut all = [before; SENTENCE_BYTES];
        all[..sentence.len()].copy_from_slice(sentence.as_bytes());
        let mut lent = [before; SENTENCE_BYTES];
        assert_eq!(call(&mut lent), sentence.len(), "{sentence}");
        assert_eq!(lent, all, "{sentence}");
    }
}

/// The sentence of these bytes by the bare call, as the second implementation has
/// it.
#[track_caller]
fn said_bare(choice: Choice, bare: Bare) -> String {
    let [kind, position, node] = choice;
    let expected = sentence(kind, position, node, bare_reply(bare));
    let (moved, number, short) = bare;
    let mut heard = Vec::new();
    writes(&expected, |lent| {
        let mut length = usize::MAX;
        let refused = ffi::sentence(choice, moved, number, short, lent, &mut length);
        assert_eq!(refused, 0, "{expected}");
        heard = lent[..length].to_vec();
        length
    });
    String::from_utf8(heard).expect("plain text")
}

/// The sentence by all calls that say one, each as the second implementation has
/// it, and with the bytes behind it as they were.
#[track_caller]
fn said(choice: Choice, answer: Answer) -> String {
    let [kind, position, node] = choice;
    let expected = sentence(kind, position, node, reply(answer));
    writes(&expected, |lent| {
        say_into(choice, answer, lent).expect("room")
    });
    for form in bare_forms(answer) {
        assert_eq!(said_bare(choice, form), expected, "{form:?}");
    }
    let owned = say(choice, answer);
    assert_eq!(owned.as_bytes(), expected.as_bytes());
    assert_eq!(owned.as_str(), expected);
    expected
}

/// The examples of the document on the byte forms: a block marked `say` has a
/// choice and its answer first.
#[test]
fn on_the_examples_of_the_byte_forms() {
    const FORMAT: &str = include_str!("../../../../docs/FORMAT.md");
    let mut met = 0;
    for block in FORMAT.split("\n```say\n").skip(1) {
        let block = block.split("\n```").next().expect("a block's end");
        let lines: Vec<&str> = block.lines().collect();
        let [asked, sentence] = lines[..] else {
            panic!("{block}");
        };
        let (choice, bare) = example(asked);
        assert_eq!(said_bare(choice, bare), sentence);
        met += 1;
    }
    assert_eq!(met, 5);
}

/// An example's first line: a choice, `moved` or `refused`, a number, and where
/// something was short, the tray and by how many.
fn example(line: &str) -> (Choice, Bare) {
    let words: Vec<&str> = line.split(' ').collect();
    let bytes: Vec<u8> = words.iter().filter_map(|word| word.parse().ok()).collect();
    assert_eq!(bytes.len() + 1, words.len(), "{line}");
    let (choice, bare) = match (words[3], &bytes[..]) {
        ("moved", [choice @ .., number]) if choice.len() == 3 => (choice, (1, *number, [0, 0])),
        ("moved", [choice @ .., number, tray, by]) => (choice, (1, *number, [*tray, *by])),
        ("refused", [choice @ .., number]) => (choice, (0, *number, [0, 0])),
        _ => panic!("{line}"),
    };
    (choice.try_into().expect("three bytes"), bare)
}
