//! From tables to texts and back, over random tables.

use std::fs;

use reference::generator::{choices, Random};
use reference::hall::opening;
use reference::table::read_table;
use ruonfidd::{Hall, Stopped};
use workbench::show::reduced::reduced;
use workbench::show::{exact, readable, Labels};
use workbench::stations::{stations, Node, Station};
use workbench::table::{Record, Table};
use workbench::text::source::Source;
use workbench::text::{understand, Understood};

use crate::common::{files, package, tables};

const TABLES: usize = 6_000;

/// A text that must be right.
fn understood(which: &str, text: &str) -> Understood {
    understand(&Source::new("a text", text))
        .unwrap_or_else(|wrong| panic!("{which}\n{text}\n{wrong:?}"))
}

/// A table whose terms are all used and different, with the tokens behind them
/// by tray: said without the code that reduces.
fn is_reduced(table: &Table) -> bool {
    let terms = table.terms();
    let different = terms
        .iter()
        .enumerate()
        .all(|(number, term)| !terms[..number].contains(term));
    let mut used = vec![false; terms.len()];
    let mut to_see = vec![table.start()];
    while let Some(number) = to_see.pop() {
        let slot = &mut used[usize::from(number)];
        if !std::mem::replace(slot, true) {
            to_see.extend(terms[usize::from(number)].references());
        }
    }
    let behind: Vec<Record> = table.records()[terms.len()..].to_vec();
    let trays: Vec<u8> = behind
        .iter()
        .filter_map(|record| match record {
            Record::Tokens { tray, .. } => Some(*tray),
            _ => None,
        })
        .collect();
    let in_order = trays.windows(2).all(|pair| pair[0] < pair[1]);
    let terms_first = trays.len() + 1 == behind.len();
    different && used.iter().all(|used| *used) && in_order && terms_first
}

/// (a) The readable text rebuilds the reduced table, (c) and so the very table
/// exactly where that is reduced.
#[test]
fn readable_texts_rebuild_the_reduced_table() {
    let mut same = 0;
    for (which, table) in tables(1, TABLES) {
        let text = readable(&table, &Labels::default());
        let rebuilt = understood(&which, &text).table;
        assert_eq!(
            rebuilt.bytes(),
            reduced(&table).bytes(&table),
            "{which}\n{text}"
        );
        assert!(is_reduced(&rebuilt), "{which}\n{text}");
        assert!(text.lines().all(|line| line.len() <= 88), "{which}\n{text}");
        let very_same = rebuilt.bytes() == table.bytes();
        assert_eq!(very_same, is_reduced(&table), "{which}");
        same += usize::from(very_same);
        let first = understood(&which, &text);
        let labels = Labels::of_text(&first.program, &first.terms);
        assert_eq!(
            readable(&rebuilt, &labels),
            text,
            "{which}: the names of a text stay"
        );
    }
    assert!(
        same > TABLES / 50 && same < TABLES,
        "{same} came back as they were"
    );
}

/// (b) What a text builds is reduced, and its own text builds it again.
#[test]
fn what_a_text_builds_is_reduced() {
    let folder = package().join("examples");
    for file in files(&folder, "hall") {
        let which = file.display().to_string();
        let text = fs::read_to_string(&file).unwrap();
        let Understood {
            table,
            program,
            terms,
            ..
        } = understood(&which, &text);
        assert!(is_reduced(&table), "{which}");
        let labels = Labels::of_text(&program, &terms);
        for text in [readable(&table, &labels), exact(&table, &labels)] {
            assert_eq!(
                understood(&which, &text).table.bytes(),
                table.bytes(),
                "{which}\n{text}"
            );
        }
        for definition in &program.definitions {
            let named = readable(&table, &labels).contains(&format!(" {} is ", definition.name));
            assert!(named, "{which}: {} is not called so", definition.name);
        }
    }
}

/// Tokens stand in a table by tray, in whatever order a text names the trays.
#[test]
fn tokens_by_tray() {
    let text = "tray 5 far has 1\ntray 2 near has 2\ntray next\nstart put far beside put next\n";
    let bytes = [2, 5, 2, 3, 5, 0, 1, 12, 2, 2, 12, 5, 1, 13, 2];
    assert_eq!(understood("trays out of order", text).table.bytes(), bytes);
}

/// (e) The exact text rebuilds every byte.
#[test]
fn exact_texts_rebuild_every_byte() {
    for (which, table) in tables(2, TABLES) {
        let text = exact(&table, &Labels::default());
        assert_eq!(
            understood(&which, &text).table.bytes(),
            table.bytes(),
            "{which}\n{text}"
        );
        let records = table.records().len();
        assert_eq!(
            text.lines()
                .filter(|line| !line.starts_with("tray"))
                .count(),
            records + 1
        );
    }
}

/// (d) On the table and on its rebuilt text every choice gets the same answer.
#[test]
fn a_rebuilt_table_answers_alike() {
    let mut random = Random::new(3);
    let mut refused = 0;
    let mut done = 0;
    for (which, table) in tables(3, 1_500) {
        let rebuilt = understood(&which, &readable(&table, &Labels::default())).table;
        let decoded = read_table(table.bytes()).unwrap();
        let list = choices(&mut random, &decoded, &opening(&decoded), 40, 50);
        let run = |table: &Table| {
            let (mut hall, mut tally) = Hall::open(table.bytes()).unwrap();
            let answer = hall.run(table.bytes(), &list, &mut tally);
            (answer, tally, hall)
        };
        let (answer, tally, hall) = run(&table);
        let (other_answer, other_tally, other_hall) = run(&rebuilt);
        assert_eq!(
            (answer, tally),
            (other_answer, other_tally),
            "{which}\nchoices {list:?}"
        );
        assert_eq!(
            hall.counts(),
            other_hall.counts(),
            "{which}\nchoices {list:?}"
        );
        let numbers = reduced(&table).new_number;
        let renumbered: Vec<Station> = stations(&hall)
            .unwrap()
            .into_iter()
            .map(|station| with_numbers(station, &numbers))
            .collect();
        assert_eq!(
            Some(renumbered),
            stations(&other_hall),
            "{which}\nchoices {list:?}"
        );
        match answer {
            Ok(choices) => done += choices,
            Err(Stopped { .. }) => refused += 1,
        }
    }
    assert!(
        refused > 300 && done > 5_000,
        "{refused} refused, {done} done"
    );
}

/// A station with the term numbers of the reduced table.
fn with_numbers(station: Station, numbers: &[Option<u8>]) -> Station {
    let new = |old: u8| numbers[usize::from(old)].expect("a term that is in use");
    match station {
        Station::Waiting(term) => Station::Waiting(new(term)),
        Station::Putting(tray) => Station::Putting(tray),
        Station::Attempt(mut attempt) => {
            attempt.block = new(attempt.block);
            for node in &mut attempt.nodes {
                if let Node::Leaf(leaf) = node {
                    leaf.rest = leaf.rest.map(new);
                }
            }
            Station::Attempt(attempt)
        }
    }
}

/// Names, layout, comments and unused rules have no effect on the bytes.
#[test]
fn the_same_text_in_other_clothes() {
    let mut random = Random::new(4);
    for (which, table) in tables(4, 500) {
        let text = readable(&table, &Labels::default());
        let dressed = other_clothes(&mut random, &text);
        let bytes = understood(&which, &text).table.bytes().to_vec();
        assert_eq!(
            understood(&which, &dressed).table.bytes(),
            bytes,
            "{which}\n{dressed}"
        );
    }
}

/// Every name longer, every gap another one, comments, and a rule more.
fn other_clothes(random: &mut Random, text: &str) -> String {
    let mut dressed = String::from("\u{feff}# a comment, tray by tray \u{e4}\n");
    let spaced = text
        .replace('(', " ( ")
        .replace(')', " ) ")
        .replace(',', " , ");
    let mut before_start = true;
    for word in spaced.split_whitespace() {
        if word == "start" && before_start {
            before_start = false;
            dressed.push_str("rule not-needed is take t0-x then nothing\n");
        }
        let named = word.len() > 1
            && word.starts_with(['t', 'r', 'p'])
            && word[1..].bytes().all(|byte| byte.is_ascii_digit());
        dressed.push_str(word);
        if named {
            dressed.push_str("-x");
        }
        dressed.push_str(match random.below(5) {
            0 => "\n",
            1 => " # so\r\n",
            2 => "\t",
            _ => " ",
        });
    }
    if dressed.contains("t0-x") && !text.contains("tray 0 ") {
        dressed = dressed.replace("rule not-needed is take t0-x then nothing\n", "");
    }
    dressed
}
