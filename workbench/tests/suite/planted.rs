//! Planted faults: what a wrong assembler or a wrong printer would hand out is
//! noticed.

use std::collections::HashSet;

use reference::generator::{record_starts, Random};
use reference::table::{read_table, Table as Second, Term};
use workbench::show::reduced::reduced;
use workbench::show::{readable, Labels};
use workbench::table::Table;
use workbench::text::compare::means;
use workbench::text::source::Source;
use workbench::text::understand;

use crate::common::tables;

/// Whether two tables mean the same, by the second implementation's reader and
/// by none of the code that is under test.
pub(crate) fn same_meaning(one: &Second, other: &Second) -> bool {
    let mut seen = HashSet::new();
    let mut pairs = vec![(one.start, other.start)];
    while let Some((a, b)) = pairs.pop() {
        if !seen.insert((a, b)) {
            continue;
        }
        match (one.terms[a], other.terms[b]) {
            (Term::Nil, Term::Nil) | (Term::End, Term::End) | (Term::Retry, Term::Retry) => {}
            (Term::Put { tray }, Term::Put { tray: same }) if tray == same => {}
            (
                Term::Take { tray, then },
                Term::Take {
                    tray: same,
                    then: to,
                },
            )
            | (
                Term::RepeatedTake { tray, then },
                Term::RepeatedTake {
                    tray: same,
                    then: to,
                },
            ) if tray == same => {
                pairs.push((then, to));
            }
            (
                Term::Rd { tray, rest },
                Term::Rd {
                    tray: same,
                    rest: to,
                },
            )
            | (
                Term::Wt { tray, rest },
                Term::Wt {
                    tray: same,
                    rest: to,
                },
            ) if tray == same => {
                pairs.push((rest, to));
            }
            (Term::Atom { body }, Term::Atom { body: to }) => pairs.push((body, to)),
            (Term::SideBySide { left, right }, Term::SideBySide { left: l, right: r })
            | (Term::OrElse { left, right }, Term::OrElse { left: l, right: r }) => {
                pairs.extend([(left, l), (right, r)]);
            }
            _ => return false,
        }
    }
    one.tokens == other.tokens
}

/// Terms, then tokens by tray, then the start.
fn in_order(bytes: &[u8]) -> bool {
    let rank = |at: usize| match bytes[at] {
        12 => (1, bytes[at + 1]),
        13 => (2, 0),
        _ => (0, 0),
    };
    let ranks: Vec<(u8, u8)> = record_starts(bytes).into_iter().map(rank).collect();
    ranks.windows(2).all(|pair| pair[0] <= pair[1])
}

/// One fault as an assembler might make it.
fn faulty(random: &mut Random, bytes: &[u8]) -> Vec<u8> {
    let mut bytes = bytes.to_vec();
    let starts = record_starts(&bytes);
    let at = random.pick(&starts).expect("a record");
    let kind = bytes[at];
    match (random.below(4), kind) {
        (0, 3 | 4) => bytes[at] = 7 - kind,
        (0, 9 | 10) => bytes[at] = 19 - kind,
        (0, 7 | 8) => bytes[at] = 15 - kind,
        (0 | 1, 5 | 11) => bytes.swap(at + 1, at + 2),
        (_, 1 | 7 | 8) => bytes[at] = random.byte_between(1, 8),
        (1, 2 | 3 | 4 | 9 | 10 | 12) => bytes[at + 1] = random.byte_below(16),
        (_, 2 | 6 | 13) => bytes[at + 1] = random.byte_below(bytes.len().min(200)),
        // The same meaning, with the records in another order.
        (2, 12) => bytes[..at + 3].rotate_right(3),
        (_, 12) => bytes[at + 2] = bytes[at + 2].wrapping_add(1),
        _ => bytes[at + 2] = random.byte_below(200),
    }
    bytes
}

/// The comparison of a table with its text says yes exactly where both mean the
/// same.
#[test]
fn a_wrong_assembler_is_found_out() {
    let mut random = Random::new(21);
    let (mut caught, mut out_of_order, mut harmless) = (0, 0, 0);
    for (which, table) in tables(21, 2_500) {
        let text = readable(&table, &Labels::default());
        let understood = understand(&Source::new("", text.as_str())).expect(&which);
        let right = read_table(understood.table.bytes()).expect("an accepted table");
        assert!(means(&understood.table, &understood.program), "{which}");
        for _ in 0..8 {
            let bytes = faulty(&mut random, understood.table.bytes());
            let (Ok(wrong), Ok(second)) = (Table::read(&bytes), read_table(&bytes)) else {
                continue;
            };
            let same = same_meaning(&right, &second) && in_order(&bytes);
            assert_eq!(
                means(&wrong, &understood.program),
                same,
                "{which}\n{text}\n{bytes:?}"
            );
            if same {
                harmless += 1;
            } else if same_meaning(&right, &second) {
                out_of_order += 1;
            } else {
                caught += 1;
            }
        }
    }
    assert!(caught > 4_000, "{caught} caught");
    assert!(out_of_order > 50, "{out_of_order} in another order");
    assert!(harmless > 100, "{harmless} harmless ones passed");
}

/// A fault as a printer might make it: the text, or none where it does not
/// apply.
type Fault = fn(&str) -> Option<String>;

fn replaced(text: &str, from: &str, to: &str) -> Option<String> {
    text.contains(from).then(|| text.replacen(from, to, 1))
}

/// The first piece in brackets behind these words, and the same without
/// brackets.
fn without_brackets(text: &str, before: &str) -> Option<String> {
    let open = text.find(&format!("{before}("))? + before.len();
    let mut depth = 0;
    for (at, character) in text[open..].char_indices() {
        match character {
            '(' => depth += 1,
            ')' => depth -= 1,
            _ => {}
        }
        if depth == 0 {
            let inside = &text[open + 1..open + at];
            return Some(format!(
                "{}{inside}{}",
                &text[..open],
                &text[open + at + 1..]
            ));
        }
    }
    None
}

/// The two sides of the first joint of this sort in a plain line change places.
fn swapped(text: &str, head: &str, joint: &str) -> Option<String> {
    let line = text.lines().find(|line| {
        line.starts_with(head) && line.matches(joint).count() == 1 && !line.contains('(')
    })?;
    let begin = line.find(" is ").map_or(head.len(), |at| at + 4);
    let (left, right) = line[begin..].split_once(joint)?;
    let other = format!("{}{right}{joint}{left}", &line[..begin]);
    (other != line).then(|| text.replacen(line, &other, 1))
}

fn lines_swapped(text: &str) -> Option<String> {
    let mut lines: Vec<&str> = text.lines().collect();
    let first = lines.iter().position(|line| line.starts_with("plan"))?;
    if !lines.get(first + 1)?.starts_with(['r', 'p']) {
        return None;
    }
    lines.swap(first, first + 1);
    Some(lines.join("\n"))
}

const FAULTS: [(&str, Fault); 12] = [
    ("a take for a put", |text| {
        replaced(text, "put t0,", "take t0,")
    }),
    ("a put for a take", |text| {
        replaced(text, "take t1,", "put t1,")
    }),
    ("a take that does not stay", |text| {
        replaced(text, "repeatedly ", "")
    }),
    ("an end for a retry", |text| replaced(text, "retry", "end")),
    ("one station more", |text| replaced(text, "2 of ", "3 of ")),
    ("another count", |text| {
        replaced(text, " has 1\n", " has 2\n")
    }),
    ("another tray", |text| {
        replaced(text, "tray 1 t1", "tray 9 t1")
    }),
    ("brackets behind a step", |text| {
        without_brackets(text, ", ")
    }),
    ("brackets before or else", |text| {
        text.contains(") or else")
            .then(|| without_brackets(text, "is "))
            .flatten()
    }),
    ("ways that change places", |text| {
        swapped(text, "plan ", " or else ")
    }),
    ("stations that change places", |text| {
        swapped(text, "start ", " beside ")
    }),
    ("definitions out of order", lines_swapped),
];

/// Each planted fault of the printer is caught by the round trip within the
/// first few hundred tables.
#[test]
fn a_wrong_printer_is_found_out() {
    for (name, fault) in FAULTS {
        let (mut applied, mut caught) = (0, 0);
        for (which, table) in tables(22, 400) {
            let text = readable(&table, &Labels::default());
            let wanted = reduced(&table).bytes(&table);
            let Some(wrong) = fault(&text).filter(|wrong| *wrong != text) else {
                continue;
            };
            applied += 1;
            let built = understand(&Source::new("", wrong)).ok();
            let passes = built.is_some_and(|built| built.table.bytes() == wanted);
            caught += usize::from(!passes);
            assert!(applied < 400, "{which}");
        }
        assert!(caught >= 1, "{name}: {caught} of {applied} caught");
        assert!(
            caught * 10 >= applied * 9,
            "{name}: {caught} of {applied} caught"
        );
    }
}
