//! Sentences: their words, their edges, the buffer they are written into, and
//! that they can be read back.

use std::collections::HashSet;

use reference::build::Builder;
use reference::calls::{self, say, StepAnswer};
use reference::generator::Random;
use reference::run::Tally;
use reference::sentence::{sentence, Reply, SENTENCE_ROOM};
use reference::shortage::Shortage;
use reference::table::Refusal;

use crate::common::{all_choices, opened, EXAMPLE_CHOICES, EXAMPLE_TABLE};
use Reply::{Moved, Refused};

/// A rule with nothing short.
fn moved(rule: u8) -> Reply {
    Moved { rule, short: None }
}

/// A rule with a tray that was short by so many.
fn short(rule: u8, tray: u8, by: u8) -> Reply {
    let short = Some(Shortage { tray, by });
    Moved { rule, short }
}

/// The sentence of each rule, 1 to 13, for one choice.
const RULES: [&str; 13] = [
    "Kind 1 at station 5 moved by rule 1, token put.",
    "Kind 1 at station 5 moved by rule 2, token taken.",
    "Kind 1 at station 5 moved by rule 3, token taken, repeats.",
    "Kind 1 at station 5 moved by rule 4, attempt begun.",
    "Kind 1 at station 5 moved by rule 5, attempt given up.",
    "Kind 1 at station 5 moved by rule 6, commit failed.",
    "Kind 1 at station 5 moved by rule 7, block committed.",
    "Kind 1 at station 5 moved by rule 8, read noted.",
    "Kind 1 at station 5 moved by rule 9, read failed.",
    "Kind 1 at station 5 moved by rule 10, write noted.",
    "Kind 1 at station 5 moved by rule 11, two ways opened.",
    "Kind 1 at station 5 moved by rule 12, second way kept.",
    "Kind 1 at station 5 moved by rule 13, first way kept.",
];

/// The sentence of each refusal, 1 to 20, for another.
const REFUSALS: [&str; 20] = [
    "Kind 2 at station 6, node 7 met refusal 1, table: unknown record.",
    "Kind 2 at station 6, node 7 met refusal 2, table: record cut short.",
    "Kind 2 at station 6, node 7 met refusal 3, table: too many terms.",
    "Kind 2 at station 6, node 7 met refusal 4, table: no such tray.",
    "Kind 2 at station 6, node 7 met refusal 5, table: term not earlier.",
    "Kind 2 at station 6, node 7 met refusal 6, table: wrong term class.",
    "Kind 2 at station 6, node 7 met refusal 7, table: term too large.",
    "Kind 2 at station 6, node 7 met refusal 8, table: wrong tokens.",
    "Kind 2 at station 6, node 7 met refusal 9, table: no start at end.",
    "Kind 2 at station 6, node 7 met refusal 10, hall: wrong length.",
    "Kind 2 at station 6, node 7 met refusal 11, hall: not well formed.",
    "Kind 2 at station 6, node 7 met refusal 12, no such kind.",
    "Kind 2 at station 6, node 7 met refusal 13, choice cut short.",
    "Kind 2 at station 6, node 7 met refusal 14, no such station.",
    "Kind 2 at station 6, node 7 met refusal 15, station cannot do this.",
    "Kind 2 at station 6, node 7 met refusal 16, no such node.",
    "Kind 2 at station 6, node 7 met refusal 17, no move at this node.",
    "Kind 2 at station 6, node 7 met refusal 18, tray empty.",
    "Kind 2 at station 6, node 7 met refusal 19, too many stations.",
    "Kind 2 at station 6, node 7 met refusal 20, tray full.",
];

/// Every reply with nothing short.
fn replies() -> impl Iterator<Item = Reply> {
    (0..=255).flat_map(|number| [moved(number), Refused(number)])
}

/// Replies with something short: each byte as rule, as tray and as how many,
/// beside other numbers of one, two and three digits.
fn short_replies() -> impl Iterator<Item = Reply> {
    let beside = [(6, 3), (9, 15), (3, 255), (0, 0), (14, 99), (255, 100)];
    (0..=255).flat_map(move |byte| {
        beside.into_iter().flat_map(move |(one, other)| {
            [
                short(byte, one, other),
                short(one, byte, other),
                short(one, other, byte),
            ]
        })
    })
}

#[test]
fn every_number_that_has_words() {
    for (number, expected) in (1..).zip(RULES) {
        assert_eq!(sentence(1, 5, 0, moved(number)), expected);
    }
    for (number, expected) in (1..).zip(REFUSALS) {
        assert_eq!(sentence(2, 6, 7, Refused(number)), expected);
    }
}

#[test]
fn any_other_number_stands_alone() {
    for number in (0..=0).chain(14..=255) {
        let expected = format!("Kind 1 at station 5 moved by rule {number}.");
        assert_eq!(sentence(1, 5, 0, moved(number)), expected);
    }
    for number in (0..=0).chain(21..=255) {
        let expected = format!("Kind 2 at station 6, node 7 met refusal {number}.");
        assert_eq!(sentence(2, 6, 7, Refused(number)), expected);
    }
}

/// What was short stands behind the words of the rule, whichever it is.
#[test]
fn every_rule_with_something_short() {
    for (rule, without) in (1..).zip(RULES) {
        let words = without.strip_suffix('.').expect("a sentence");
        let expected = format!("{words}, tray 3 short by 1.");
        assert_eq!(sentence(1, 5, 0, short(rule, 3, 1)), expected);
    }
    for rule in (0..=0).chain(14..=255) {
        let expected = format!("Kind 1 at station 5 moved by rule {rule}, tray 9 short by 10.");
        assert_eq!(sentence(1, 5, 0, short(rule, 9, 10)), expected);
    }
}

/// Kind, position, node and reply, and the sentence for them.
type Edge = ((u8, u8, u8), Reply, &'static str);

fn each_is(edges: &[Edge]) {
    for &((kind, position, node), reply, expected) in edges {
        assert_eq!(sentence(kind, position, node, reply), expected);
    }
}

#[test]
fn edges_of_the_kind() {
    each_is(&[
        // A node handed in with kind 1 is not named.
        (
            (1, 0, 7),
            moved(6),
            "Kind 1 at station 0 moved by rule 6, commit failed.",
        ),
        (
            (1, 255, 255),
            Refused(18),
            "Kind 1 at station 255 met refusal 18, tray empty.",
        ),
        // Every other kind has one, also a kind that no hall takes.
        (
            (0, 0, 0),
            Refused(12),
            "Kind 0 at station 0, node 0 met refusal 12, no such kind.",
        ),
        (
            (2, 0, 0),
            moved(8),
            "Kind 2 at station 0, node 0 moved by rule 8, read noted.",
        ),
        (
            (3, 63, 14),
            Refused(12),
            "Kind 3 at station 63, node 14 met refusal 12, no such kind.",
        ),
        (
            (255, 0, 0),
            moved(13),
            "Kind 255 at station 0, node 0 moved by rule 13, first way kept.",
        ),
        // Kinds that begin or end with a 1 are not kind 1.
        (
            (10, 1, 1),
            moved(1),
            "Kind 10 at station 1, node 1 moved by rule 1, token put.",
        ),
        (
            (101, 1, 1),
            moved(1),
            "Kind 101 at station 1, node 1 moved by rule 1, token put.",
        ),
    ]);
}

#[test]
fn edges_of_the_answer() {
    each_is(&[
        // Below the first that have words.
        (
            (0, 0, 0),
            moved(0),
            "Kind 0 at station 0, node 0 moved by rule 0.",
        ),
        ((1, 0, 0), Refused(0), "Kind 1 at station 0 met refusal 0."),
        // Around the last rule.
        (
            (1, 0, 0),
            moved(13),
            "Kind 1 at station 0 moved by rule 13, first way kept.",
        ),
        (
            (1, 0, 0),
            Refused(13),
            "Kind 1 at station 0 met refusal 13, choice cut short.",
        ),
        (
            (1, 0, 0),
            moved(14),
            "Kind 1 at station 0 moved by rule 14.",
        ),
        (
            (1, 0, 0),
            Refused(14),
            "Kind 1 at station 0 met refusal 14, no such station.",
        ),
        // Around the last refusal that has words; that of the buffer has none.
        (
            (1, 0, 0),
            moved(20),
            "Kind 1 at station 0 moved by rule 20.",
        ),
        (
            (1, 0, 0),
            Refused(20),
            "Kind 1 at station 0 met refusal 20, tray full.",
        ),
        (
            (1, 0, 0),
            moved(21),
            "Kind 1 at station 0 moved by rule 21.",
        ),
        (
            (1, 0, 0),
            Refused(21),
            "Kind 1 at station 0 met refusal 21.",
        ),
    ]);
}

#[test]
fn edges_of_the_digits() {
    each_is(&[
        // One, two and three digits; no zeros before them.
        (
            (9, 10, 100),
            moved(99),
            "Kind 9 at station 10, node 100 moved by rule 99.",
        ),
        (
            (100, 9, 10),
            Refused(100),
            "Kind 100 at station 9, node 10 met refusal 100.",
        ),
        // The highest bytes.
        (
            (1, 255, 255),
            moved(255),
            "Kind 1 at station 255 moved by rule 255.",
        ),
        (
            (255, 255, 255),
            moved(255),
            "Kind 255 at station 255, node 255 moved by rule 255.",
        ),
        (
            (255, 255, 255),
            Refused(255),
            "Kind 255 at station 255, node 255 met refusal 255.",
        ),
        // The longest sentences.
        (
            (255, 255, 255),
            Refused(15),
            "Kind 255 at station 255, node 255 met refusal 15, station cannot do this.",
        ),
        (
            (255, 255, 255),
            Refused(5),
            "Kind 255 at station 255, node 255 met refusal 5, table: term not earlier.",
        ),
    ]);
}

#[test]
fn edges_of_what_was_short() {
    each_is(&[
        (
            (1, 0, 7),
            short(6, 3, 1),
            "Kind 1 at station 0 moved by rule 6, commit failed, tray 3 short by 1.",
        ),
        (
            (2, 63, 14),
            short(9, 15, 16),
            "Kind 2 at station 63, node 14 moved by rule 9, read failed, tray 15 short by 16.",
        ),
        // The case counts and not its numbers: 0 by 0 is named too.
        (
            (1, 0, 0),
            short(0, 0, 0),
            "Kind 1 at station 0 moved by rule 0, tray 0 short by 0.",
        ),
        (
            (1, 0, 0),
            short(7, 0, 0),
            "Kind 1 at station 0 moved by rule 7, block committed, tray 0 short by 0.",
        ),
        // Around the last rule that has words.
        (
            (1, 0, 0),
            short(13, 9, 10),
            "Kind 1 at station 0 moved by rule 13, first way kept, tray 9 short by 10.",
        ),
        (
            (1, 0, 0),
            short(14, 9, 10),
            "Kind 1 at station 0 moved by rule 14, tray 9 short by 10.",
        ),
        // The highest bytes, and the longest of all sentences.
        (
            (255, 255, 255),
            short(255, 255, 255),
            "Kind 255 at station 255, node 255 moved by rule 255, tray 255 short by 255.",
        ),
        (
            (255, 255, 255),
            short(3, 255, 255),
            "Kind 255 at station 255, node 255 moved by rule 3, token taken, repeats, tray 255 short by 255.",
        ),
    ]);
}

/// The sentences of these choices, made one by one in the hall that the table
/// opens. A node stands beside kind 1 as well, and counts for nothing.
fn told(table: &[u8], choices: &[u8]) -> Vec<String> {
    let mut hall = opened(table);
    let mut tally = Tally::FRESH;
    let mut told = Vec::new();
    for choice in all_choices(choices) {
        let bytes = choice.bytes();
        let reply = match calls::step(table, &mut hall, &mut tally, &bytes) {
            StepAnswer::Moved { rule, short } => Moved { rule, short },
            StepAnswer::Refused(refusal) => Refused(refusal.number),
        };
        let node = bytes.get(2).copied().unwrap_or(99);
        told.push(sentence(bytes[0], bytes[1], node, reply));
    }
    told
}

/// Three blocks each read one token of tray 3 and one of tray 5, of which there is
/// one; the third looks for a second of tray 5 as well.
#[test]
fn failures_told_in_sentences() {
    let mut table = Builder::new();
    let end = table.end();
    let five = table.rd(5, end);
    let both = table.rd(3, five);
    let more = table.rd(5, both);
    let block = table.atom(both);
    let third = table.atom(more);
    let two = table.copies(block, 2);
    let all = table.side_by_side(two, third);
    table.tokens(3, 1);
    table.tokens(5, 1);
    let begun = [1, 0, 1, 1, 1, 2];
    let read = [2, 0, 0, 2, 0, 0, 2, 1, 0, 2, 1, 0, 2, 2, 0, 2, 2, 0];
    let failing = [2, 2, 0, 1, 0, 1, 0];
    let told = told(&table.start(all), &[&begun[..], &read, &failing].concat());
    assert_eq!(
        told[told.len() - 3..],
        [
            "Kind 2 at station 2, node 0 moved by rule 9, read failed, tray 5 short by 1.",
            "Kind 1 at station 0 moved by rule 7, block committed.",
            "Kind 1 at station 0 moved by rule 6, commit failed, tray 3 short by 1.",
        ]
    );
}

/// The choices of document 01's printed example, told one by one, and one more.
#[test]
fn a_run_told_in_sentences() {
    assert_eq!(
        told(&EXAMPLE_TABLE, &[&EXAMPLE_CHOICES[..], &[2, 0, 0]].concat()),
        [
            "Kind 1 at station 0 moved by rule 4, attempt begun.",
            "Kind 2 at station 0, node 0 moved by rule 8, read noted.",
            "Kind 2 at station 0, node 0 moved by rule 10, write noted.",
            "Kind 1 at station 0 moved by rule 7, block committed.",
            "Kind 1 at station 0 moved by rule 1, token put.",
            "Kind 2 at station 0, node 0 met refusal 14, no such station.",
        ]
    );
}

/// Bytes no sentence holds, each unlike its neighbours.
fn pattern(length: usize) -> Vec<u8> {
    (0x80..=0xFF).cycle().take(length).collect()
}

#[test]
fn a_buffer_that_is_too_short_is_refused_and_left() {
    // Among these are a short sentence, the longest, and bytes of no hall.
    for (kind, reply) in [
        (1, Refused(0)),
        (1, moved(1)),
        (255, Refused(15)),
        (0, moved(255)),
        (255, short(3, 255, 255)),
    ] {
        for length in 0..96 {
            let mut buffer = pattern(length);
            assert_eq!(
                say(kind, 255, 255, reply, &mut buffer),
                Err(Refusal {
                    number: 21,
                    place: 0
                }),
                "{length} bytes"
            );
            assert_eq!(buffer, pattern(length));
        }
    }
}

#[test]
fn a_sentence_stands_at_the_front_and_the_rest_is_left() {
    let said = "Kind 2 at station 3, node 14 met refusal 17, no move at this node.";
    for length in [96, 97, 200, 1_000] {
        // The buffer is lent out of the middle of more.
        let mut expected = pattern(length + 20);
        expected[10..10 + said.len()].copy_from_slice(said.as_bytes());
        let mut all = pattern(length + 20);
        let answer = say(2, 3, 14, Refused(17), &mut all[10..10 + length]);
        assert_eq!(answer, Ok(said.len()), "{length} bytes");
        assert_eq!(all, expected, "{length} bytes");
    }
}

/// A second sentence in the same buffer: what is left of the first counts as
/// the rest.
#[test]
fn a_shorter_sentence_after_a_longer_one() {
    let mut buffer = [b'-'; 96];
    let longer = "Kind 2 at station 0, node 0 met refusal 255.";
    let shorter = "Kind 1 at station 0 met refusal 0.";
    assert_eq!(say(2, 0, 0, Refused(255), &mut buffer), Ok(longer.len()));
    assert_eq!(say(1, 0, 0, Refused(0), &mut buffer), Ok(shorter.len()));
    let expected = [
        shorter.as_bytes(),
        &longer.as_bytes()[shorter.len()..],
        &[b'-'; 96][longer.len()..],
    ]
    .concat();
    assert_eq!(buffer[..], expected);
}

/// The length of a sentence, which is written into the front of a buffer and is
/// one line of plain text.
fn written(kind: u8, position: u8, node: u8, reply: Reply) -> usize {
    let said = sentence(kind, position, node, reply);
    assert!(
        said.bytes().all(|byte| (b' '..=b'~').contains(&byte)),
        "{said:?}"
    );
    let mut buffer = [0xFF; 96];
    let answer = say(kind, position, node, reply, &mut buffer);
    assert_eq!(answer, Ok(said.len()));
    assert_eq!(buffer[..said.len()], *said.as_bytes());
    assert!(buffer[said.len()..].iter().all(|byte| *byte == 0xFF));
    said.len()
}

/// All kinds and all replies with nothing short, and kinds of one, two and three
/// digits with each byte of what was short.
#[test]
fn every_sentence_fits_and_is_plain_text() {
    let mut longest = 0;
    let mut longest_short = 0;
    for (position, node) in [(0, 0), (1, 255), (99, 100), (255, 255)] {
        for kind in 0..=255 {
            for reply in replies() {
                longest = longest.max(written(kind, position, node, reply));
            }
        }
        for kind in [0, 1, 2, 10, 255] {
            for reply in short_replies() {
                longest_short = longest_short.max(written(kind, position, node, reply));
            }
        }
    }
    assert_eq!(longest, 73);
    // One below the limit.
    assert_eq!(longest_short, 95);
    assert_eq!(SENTENCE_ROOM, 96);
}

#[test]
fn with_kind_1_the_node_counts_for_nothing() {
    for reply in replies().chain([short(6, 3, 1), short(255, 0, 255)]) {
        for position in [0, 1, 63, 255] {
            let without = sentence(1, position, 0, reply);
            for node in 1..=255 {
                assert_eq!(sentence(1, position, node, reply), without);
            }
        }
    }
}

/// Numbers whose digits could run into those of a neighbour are among these.
const DIGITS: [u8; 3] = [1, 11, 111];

/// Rule, tray and how many, each of numbers that repeat one digit, 0, 1 or 2.
fn all_of_digits() -> Vec<(u8, u8, u8)> {
    const NUMBERS: [u8; 7] = [1, 2, 11, 22, 111, 222, 0];
    let mut all = Vec::new();
    for rule in NUMBERS {
        for tray in NUMBERS {
            all.extend(NUMBERS.map(|by| (rule, tray, by)));
        }
    }
    all
}

#[test]
fn no_two_pairs_share_a_sentence() {
    let mut pairs = HashSet::new();
    for kind in 0..=255 {
        for position in DIGITS {
            for reply in replies() {
                // Of the nodes of kind 1 one will do.
                pairs.insert((kind, position, 1, reply));
                if kind != 1 {
                    pairs.insert((kind, position, 11, reply));
                }
            }
        }
    }
    for position in 0..=255 {
        for reply in replies() {
            pairs.insert((1, position, 1, reply));
        }
        for node in 0..=255 {
            for reply in DIGITS.into_iter().flat_map(|it| [moved(it), Refused(it)]) {
                pairs.insert((2, position, node, reply));
            }
        }
    }
    // The sentences with something short differ from those above as well.
    let plain = pairs.len();
    for kind in [1, 2, 11, 111] {
        for position in DIGITS {
            for reply in short_replies() {
                pairs.insert((kind, position, 1, reply));
                if kind != 1 {
                    pairs.insert((kind, position, 11, reply));
                }
            }
        }
    }
    for (rule, tray, by) in all_of_digits() {
        pairs.insert((1, 1, 1, short(rule, tray, by)));
    }
    assert!(plain > 1_000_000, "{plain}");
    assert!(pairs.len() - plain > 80_000, "{}", pairs.len() - plain);
    let sentences: HashSet<String> = pairs
        .iter()
        .map(|&(kind, position, node, reply)| sentence(kind, position, node, reply))
        .collect();
    assert_eq!(sentences.len(), pairs.len());
}

/// What a reader of the board learns: kind, position, node where there is one,
/// and the reply.
type Read = (u8, u8, Option<u8>, Reply);

/// Reads a sentence back. It knows the words by the lists above alone.
fn read(text: &str) -> Option<Read> {
    let text = text.strip_prefix("Kind ")?.strip_suffix('.')?;
    let (choice, reply) = if let Some((choice, rest)) = text.split_once(" moved by rule ") {
        let (rule, short) = match rest.split_once(", tray ") {
            Some((rule, short)) => (rule, Some(shortage(short)?)),
            None => (rest, None),
        };
        let rule = number_with_words(rule, &RULES)?;
        (choice, Moved { rule, short })
    } else {
        let (choice, rest) = text.split_once(" met refusal ")?;
        (choice, Refused(number_with_words(rest, &REFUSALS)?))
    };
    let (kind, place) = choice.split_once(" at station ")?;
    let (position, node) = match place.split_once(", node ") {
        Some((position, node)) => (position, Some(decimal(node)?)),
        None => (place, None),
    };
    Some((decimal(kind)?, decimal(position)?, node, reply))
}

/// The tray and how many, with the words between them.
fn shortage(text: &str) -> Option<Shortage> {
    let (tray, by) = text.split_once(" short by ")?;
    let (tray, by) = (decimal(tray)?, decimal(by)?);
    Some(Shortage { tray, by })
}

/// A byte in decimal, without zeros or a sign before it.
fn decimal(text: &str) -> Option<u8> {
    let number: u8 = text.parse().ok()?;
    (number.to_string() == text).then_some(number)
}

/// A number with the words that it has in these sentences, or alone where none
/// of them is its own.
fn number_with_words(text: &str, sentences: &[&str]) -> Option<u8> {
    let digits = text.split(',').next()?;
    let number = decimal(digits)?;
    let own = usize::from(number)
        .checked_sub(1)
        .and_then(|index| sentences.get(index));
    let agrees = match own {
        Some(own) => own.ends_with(&format!(" {text}.")),
        None => text == digits,
    };
    agrees.then_some(number)
}

/// A byte as halls have them, or any byte.
fn byte(random: &mut Random) -> u8 {
    if random.percent(50) {
        random.byte_below(24)
    } else {
        random.byte()
    }
}

#[test]
fn sentences_by_chance_are_read_back() {
    let mut random = Random::new(50);
    let mut of_kind_1 = 0;
    let mut with_words = 0;
    let mut with_short = 0;
    for _ in 0..300_000 {
        let kind = if random.percent(30) {
            1
        } else {
            byte(&mut random)
        };
        let (position, node, number) = (byte(&mut random), byte(&mut random), byte(&mut random));
        let reply = match random.below(4) {
            0 => moved(number),
            1 => short(number, byte(&mut random), byte(&mut random)),
            _ => Refused(number),
        };
        let said = sentence(kind, position, node, reply);
        let expected = Some((kind, position, (kind != 1).then_some(node), reply));
        assert_eq!(read(&said), expected, "{said}");
        of_kind_1 += usize::from(kind == 1);
        let is_short = matches!(reply, Moved { short: Some(_), .. });
        let commas = said.matches(", ").count() - usize::from(is_short);
        with_words += usize::from(commas > usize::from(kind != 1));
        with_short += usize::from(is_short);
        // With one byte of it changed it tells something else, or nothing.
        let mut changed = said.into_bytes();
        let at = random.below(changed.len());
        let other = random.byte_between(b' ', b'~');
        if changed[at] != other {
            changed[at] = other;
            let changed = String::from_utf8(changed).expect("plain text");
            assert_ne!(read(&changed), expected, "{changed}");
        }
    }
    assert!(of_kind_1 > 50_000, "{of_kind_1}");
    assert!(with_words > 50_000, "{with_words}");
    assert!(with_short > 50_000, "{with_short}");
}
