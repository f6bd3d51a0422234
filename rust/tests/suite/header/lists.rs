//! The header's lists of refusals and rules are the one list of names, numbers
//! and words. What a compiler makes of them, Rust's names and words, the
//! engine's sentences and the documents are held against them here.

use std::fmt::Write as _;

use ruonfidd::{check_hall, check_table, open_hall, run, say, say_into};
use ruonfidd::{Answer, Choice, Refusal, HALL_BYTES};

use super::{languages, printed_by, text_of, HEADER};

/// One line of a list.
#[derive(Clone, Debug, PartialEq, Eq)]
struct Entry {
    /// Without what all names of the list begin with.
    name: String,
    number: u8,
    /// The words of a sentence; none where there are none.
    said: String,
    /// Of refusals alone.
    reason: Option<String>,
}

const REFUSALS: &str = "RUONFIDD_REFUSAL_";
const RULES: &str = "RUONFIDD_RULE_";

/// The entries whose names begin so, in the header's order.
fn entries(prefix: &str) -> Vec<Entry> {
    let joined = text_of(HEADER).replace("\\\n", " ");
    let mut entries = Vec::new();
    for (at, opening) in joined.match_indices("EACH(RUONFIDD_") {
        let behind = &joined[at + opening.len() - "RUONFIDD_".len()..];
        let (name, behind) = behind.split_once(',').expect("a name");
        let Some(name) = name.strip_prefix(prefix) else {
            continue;
        };
        let (number, behind) = behind.split_once(',').expect("a number");
        let (texts, _) = behind.split_once("\")").expect("an end");
        let mut texts = texts.split('"').skip(1).step_by(2).map(str::to_owned);
        entries.push(Entry {
            name: name.to_owned(),
            number: number.trim().parse().expect("a number"),
            said: texts.next().expect("words"),
            reason: texts.next(),
        });
    }
    entries
}

/// The numbers go up from 1 without a gap, so that none is there twice.
#[test]
fn the_numbers_of_the_lists() {
    let numbers = |prefix| entries(prefix).into_iter().map(|entry| entry.number);
    assert!(numbers(REFUSALS).eq(1..=21));
    assert!(numbers(RULES).eq(1..=13));
}

/// What a compiler has: each name with its number and its words, and the reason
/// of each number, also of those that no call returns.
#[test]
fn as_a_compiler_has_them() {
    let refusals = entries(REFUSALS);
    let version = env!("CARGO_PKG_VERSION");
    let mut expected = format!("version|{version}|{}\n", version.replace('.', "|"));
    let mut reasons = vec!["a number without words here"; 256];
    reasons[0] = "nothing is refused";
    for entry in &refusals {
        let reason = entry.reason.as_deref().expect("a reason");
        let Entry {
            name, number, said, ..
        } = entry;
        reasons[usize::from(*number)] = reason;
        writeln!(
            expected,
            "refusal|{REFUSALS}{name}|{number}|{said}|{reason}"
        )
        .expect("text");
    }
    for entry in entries(RULES) {
        let Entry {
            name, number, said, ..
        } = entry;
        writeln!(expected, "rule|{RULES}{name}|{number}|{said}").expect("text");
    }
    for (number, reason) in reasons.into_iter().enumerate() {
        writeln!(expected, "reason|{number}|{reason}").expect("text");
    }
    let act = Choice::Act { position: 0 }.to_bytes();
    let inside = Choice::Inside {
        position: 0,
        node: 0,
    };
    writeln!(expected, "choice|0|{}|{}", act[0], inside.to_bytes()[0]).expect("text");
    for language in languages() {
        assert_eq!(printed_by("lists.c", language), expected, "{language:?}");
    }
}

/// The constants of a Rust file, in its order: name and number.
fn constants(path: &str) -> Vec<(String, u8)> {
    let text = text_of(path);
    let lines = text.lines().map(str::trim);
    lines
        .filter_map(|line| line.strip_prefix("pub const ")?.strip_suffix(';'))
        .filter_map(|line| line.split_once(": u8 = "))
        .map(|(name, number)| (name.to_owned(), number.parse().expect("a number")))
        .collect()
}

fn names_of(prefix: &str) -> Vec<(String, u8)> {
    let named = entries(prefix).into_iter();
    named.map(|entry| (entry.name, entry.number)).collect()
}

/// Rust has the same names for the same numbers, and no others.
#[test]
fn the_names_of_rust() {
    assert_eq!(constants("src/refusal.rs"), names_of(REFUSALS));
    assert_eq!(constants("src/choice.rs"), names_of(RULES));
    // The table of the refusals' page, too.
    let page = text_of("src/refusal.rs");
    for (name, number) in names_of(REFUSALS) {
        let row = format!("/// | {number} | [`Refusal::{name}`] | ");
        assert_eq!(page.matches(&row).count(), 1, "{row}");
    }
}

/// A call that is refused with each number, 1 to 21, in this order.
fn refused_calls() -> Vec<Refusal> {
    let put = [2, 0, 13, 0];
    let block = [7, 6, 0, 13, 1];
    let of_table = |table: &[u8]| check_table(table).unwrap_err();
    let of_choices = |table: &[u8], choices: &[u8]| {
        let mut hall = vec![0; HALL_BYTES];
        let mut tally = open_hall(table, &mut hall).expect("an accepted table");
        run(table, &mut hall, choices, &mut tally)
            .unwrap_err()
            .refusal
    };
    // A process that is 128 wide, and one that adds a station to 64.
    let wide = [
        1, 5, 0, 0, 5, 1, 1, 5, 2, 2, 5, 3, 3, 5, 4, 4, 5, 5, 5, 5, 6, 6, 13, 7,
    ];
    let full = [
        2, 0, 4, 0, 0, 5, 0, 0, 5, 2, 2, 5, 3, 3, 5, 4, 4, 5, 5, 5, 5, 1, 0, 5, 7, 2, 5, 8, 3, 5,
        9, 4, 5, 10, 5, 5, 11, 6, 12, 0, 1, 13, 12,
    ];
    vec![
        of_table(&[14]),
        of_table(&[2]),
        of_table(&[1; 201]),
        of_table(&[2, 16]),
        of_table(&[3, 0, 0]),
        of_table(&[7, 3, 0, 0]),
        of_table(&wide),
        of_table(&[12, 0, 0]),
        of_table(&[1]),
        check_hall(&put, &[0; HALL_BYTES - 1]).unwrap_err(),
        check_hall(&put, &[20; HALL_BYTES]).unwrap_err(),
        of_choices(&put, &[3]),
        of_choices(&put, &[1]),
        of_choices(&put, &[1, 1]),
        of_choices(&put, &[2, 0, 0]),
        of_choices(&block, &[1, 0, 2, 0, 1]),
        of_choices(&block, &[1, 0, 2, 0, 0]),
        of_choices(&[1, 3, 0, 0, 13, 1], &[1, 0]),
        of_choices(&full, &[1, 0]),
        of_choices(&[2, 0, 12, 0, 255, 13, 0], &[1, 0]),
        say_into([1, 0, 0], Answer::Refused(1), &mut []).unwrap_err(),
    ]
}

/// The reasons that Rust tells, of refusals that calls have answered.
#[test]
fn the_reasons_of_rust() {
    let refusals = entries(REFUSALS);
    let answered = refused_calls();
    assert_eq!(answered.len(), refusals.len());
    for (refusal, entry) in answered.iter().zip(&refusals) {
        assert_eq!(refusal.number, entry.number, "{entry:?}");
        assert_eq!(Some(refusal.reason()), entry.reason.as_deref());
    }
}

/// The engine's sentences have the words of the lists, and at any other number
/// none.
#[test]
fn the_words_of_sentences() {
    let (refusals, rules) = (entries(REFUSALS), entries(RULES));
    let words = |list: &[Entry], number| match list.iter().find(|entry| entry.number == number) {
        Some(entry) if !entry.said.is_empty() => format!(", {}", entry.said),
        _ => String::new(),
    };
    for number in 0..=255 {
        let refused = say([1, 7, 0], Answer::Refused(number));
        let behind = words(&refusals, number);
        let expected = format!("Kind 1 at station 7 met refusal {number}{behind}.");
        assert_eq!(refused.as_str(), expected);
        let moved = say([1, 7, 0], Answer::moved(number));
        let behind = words(&rules, number);
        let expected = format!("Kind 1 at station 7 moved by rule {number}{behind}.");
        assert_eq!(moved.as_str(), expected);
    }
}

/// The document of the bytes has each rule by its name, each refusal by its
/// number, and in its table of words those of the lists.
#[test]
fn the_document() {
    let document = text_of("../docs/FORMAT.md");
    let (refusals, rules) = (entries(REFUSALS), entries(RULES));
    for Entry { name, number, .. } in &rules {
        let heading = format!("\n**{number} {name}**");
        assert_eq!(document.matches(&heading).count(), 1, "{heading}");
    }
    for Entry { number, .. } in &refusals {
        let heading = format!("\n**{number}** ");
        assert_eq!(document.matches(&heading).count(), 1, "{heading}");
    }
    let (_, table) = document
        .split_once("| rule | words | | refusal | words | | refusal | words |\n")
        .expect("the table of words");
    let rows: Vec<Vec<&str>> = table
        .lines()
        .skip(1)
        .take_while(|row| row.starts_with('|'))
        .map(|row| row.split('|').map(str::trim).collect())
        .collect();
    // Each row has a rule in its cells 1 and 2, refusals in 4 and 5, and in 7 and 8.
    let column = |at: usize| {
        let cells = rows.iter().map(move |row| (row[at], row[at + 1]));
        cells.filter(|(number, _)| !number.is_empty())
    };
    let listed = |list: &[Entry]| -> Vec<(String, String)> {
        let said = list.iter().filter(|entry| !entry.said.is_empty());
        said.map(|entry| (entry.number.to_string(), entry.said.clone()))
            .collect()
    };
    let owned = |(number, words): (&str, &str)| (number.to_owned(), words.to_owned());
    let of_rules: Vec<_> = column(1).map(owned).collect();
    assert_eq!(of_rules, listed(&rules));
    let of_refusals: Vec<_> = column(4).chain(column(7)).map(owned).collect();
    assert_eq!(of_refusals, listed(&refusals));
}
