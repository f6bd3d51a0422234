//! Damaged texts: no text stops the program, and errors are inside the text.

use std::fs;

use reference::generator::{damaged_table, Random};
use workbench::bytes_told;
use workbench::show::{exact, readable, Labels};
use workbench::style::Style;
use workbench::table::{Table, Unread};
use workbench::text::compare::means;
use workbench::text::grammar::read_choices;
use workbench::text::problems::{told, Problem, MOST_PROBLEMS};
use workbench::text::source::Source;
use workbench::text::words::{LATER, WORDS};
use workbench::text::{understand, Misunderstood};

use crate::common::{called, files, package, tables};

const TEXTS: usize = 40_000;

/// Pieces that are put where they may not belong.
const PIECES: [&str; 24] = [
    "(",
    ")",
    ",",
    "=>",
    "->",
    ".",
    "|",
    "#",
    "\n",
    "0",
    "3",
    "65",
    "256",
    "99999999999",
    "2nd",
    "batch",
    "t0",
    "r3",
    "desk",
    "\u{e4}",
    "\u{202e}",
    "read",
    "orElse",
    "nobody",
];

fn texts() -> Vec<String> {
    let mut texts: Vec<String> = files(&package().join("examples"), "hall")
        .into_iter()
        .chain(files(&package().join("tests/errors"), "hall"))
        .filter_map(|file| fs::read_to_string(file).ok())
        .collect();
    for (_, table) in tables(31, 60) {
        texts.push(readable(&table, &Labels::default()));
        texts.push(exact(&table, &Labels::default()));
    }
    texts
}

/// A text with one to three places changed.
fn damaged(random: &mut Random, text: &str) -> String {
    let mut pieces: Vec<String> = text
        .split_inclusive([' ', '\n', '(', ')', ','])
        .map(str::to_owned)
        .collect();
    for _ in 0..random.between(1, 3) {
        let at = random.below(pieces.len() + 1);
        let piece = match random.below(4) {
            0 => WORDS[random.below(WORDS.len())].to_owned(),
            1 => LATER[random.below(LATER.len())].to_owned(),
            _ => PIECES[random.below(PIECES.len())].to_owned(),
        };
        match random.below(6) {
            0 => pieces.insert(at, format!("{piece} ")),
            1 => pieces.insert(at, piece),
            2 if at < pieces.len() => {
                pieces.remove(at);
            }
            3 if at < pieces.len() => pieces[at] = format!("{piece} "),
            4 if at < pieces.len() => {
                let other = random.below(pieces.len());
                pieces.swap(at, other);
            }
            _ => pieces.truncate(at),
        }
    }
    pieces.concat()
}

/// A problem is inside its text, and can be told.
fn is_sound(which: &str, source: &Source, problem: &Problem) {
    let length = source.text.len();
    let span = problem.span;
    assert!(
        span.start <= span.end && span.end <= length,
        "{which}: {problem:?}\n{}",
        source.text
    );
    assert!(
        source.text.is_char_boundary(span.start),
        "{which}: {problem:?}"
    );
    assert!(!problem.message.is_empty());
    let lines = told(source, problem, Style::PLAIN);
    let at = source.position(span.start);
    assert!(
        lines.starts_with(&format!("{}:{}:{}: ", source.name, at.line, at.column)),
        "{which}"
    );
    assert!(
        lines.lines().count() >= 3 && lines.contains('^'),
        "{which}: {lines}"
    );
    assert!(
        at.line <= source.text.matches('\n').count() + 1,
        "{which}: {lines}"
    );
}

#[test]
fn damaged_texts() {
    let texts = texts();
    let mut random = Random::new(32);
    let (mut accepted, mut refused) = (0, 0);
    for index in 0..TEXTS {
        let text = &texts[random.below(texts.len())];
        let text = damaged(&mut random, text);
        let which = format!("seed 32, text {index}");
        let source = Source::new("some.hall", text);
        match understand(&source) {
            Ok(understood) => {
                accepted += 1;
                let meant = understood.exact || means(&understood.table, &understood.program);
                assert!(meant, "{which}\n{}", source.text);
                for note in &understood.notes {
                    is_sound(&which, &source, note);
                }
            }
            Err(Misunderstood::Problems(problems)) => {
                refused += 1;
                // One more says that there are more.
                assert!((1..=MOST_PROBLEMS + 1).contains(&problems.len()), "{which}");
                let starts: Vec<usize> = problems.iter().map(|it| it.span.start).collect();
                assert!(
                    starts.windows(2).all(|pair| pair[0] <= pair[1]),
                    "{which}: {starts:?}"
                );
                for problem in &problems {
                    is_sound(&which, &source, problem);
                }
            }
            Err(Misunderstood::Contradiction(words)) => {
                panic!("{which}: {words}\n{}", source.text);
            }
        }
    }
    assert!(
        accepted > TEXTS / 50 && refused > TEXTS / 2,
        "{accepted} and {refused}"
    );
}

/// Lines of choices alone.
#[test]
fn damaged_choices() {
    let mut random = Random::new(33);
    let lesson = fs::read_to_string(package().join("examples/join.hall")).unwrap();
    let program = understand(&Source::new("", lesson.as_str()))
        .unwrap()
        .program;
    let (_, choices) = lesson.split_once("choices").unwrap();
    let (mut right, mut wrong) = (0, 0);
    for index in 0..10_000 {
        let source = Source::new("some", damaged(&mut random, choices));
        match read_choices(&source, &program) {
            Ok(_) => right += 1,
            Err(problems) => {
                wrong += 1;
                for problem in &problems {
                    is_sound(&format!("seed 33, text {index}"), &source, problem);
                }
            }
        }
    }
    assert!(right > 500 && wrong > 3_000, "{right} and {wrong}");
}

/// A rule whose body is wrong is a name all the same, which leads nowhere.
#[test]
fn a_broken_rule_leads_nowhere() {
    let source = Source::new(
        "some",
        "tray a\nrule one is )\nrule two is one then put a\nstart two\n",
    );
    let Err(Misunderstood::Problems(problems)) = understand(&source) else {
        panic!("accepted");
    };
    assert_eq!(problems.len(), 2);
}

/// Text that never was one.
#[test]
fn letters_by_chance() {
    let mut random = Random::new(34);
    for index in 0..5_000 {
        let length = random.below(120);
        let text: String = (0..length)
            .map(|_| match random.below(3) {
                0 => char::from(random.byte_between(32, 126)),
                1 => char::from_u32(u32::try_from(random.below(0x3000)).unwrap()).unwrap_or(' '),
                _ => ['(', ')', ' ', '\n', ',', '#', '=', '>'][random.below(8)],
            })
            .collect();
        let source = Source::new("some", text);
        if let Err(Misunderstood::Problems(problems)) = understand(&source) {
            for problem in &problems {
                is_sound(&format!("seed 34, text {index}"), &source, problem);
            }
        }
    }
}

/// Long chains and deep brackets end with a message and not with the stack.
#[test]
fn long_chains() {
    let how_many = 60_000;
    let chains = [
        format!("tray a\nstart {}nothing", "take a then ".repeat(how_many)),
        format!("tray a\nstart {}put a", "put a beside ".repeat(how_many)),
        format!("tray a\nstart block ({}end)", "take a, ".repeat(how_many)),
        format!(
            "tray a\nstart block ({}end)",
            "end or else ".repeat(how_many)
        ),
        format!("tray a\nstart {}put a", "2 of ".repeat(how_many)),
        format!(
            "tray a\nstart {}put a{}",
            "(".repeat(how_many),
            ")".repeat(how_many)
        ),
        format!("tray a\nstart block ({}end", "(".repeat(how_many)),
    ];
    for text in chains {
        let source = Source::new("some", text);
        let Err(Misunderstood::Problems(problems)) = understand(&source) else {
            panic!("accepted: {}", &source.text[..60]);
        };
        for problem in &problems {
            is_sound("chains", &source, problem);
        }
    }
}

fn lines(how_many: usize, line: impl Fn(usize) -> String) -> String {
    let lines: Vec<String> = (0..how_many).map(line).collect();
    lines.join("\n") + "\n"
}

/// As many names as a text has room for: nobody waits long for the answer.
#[test]
fn long_texts() {
    let begun = std::time::Instant::now();
    let rules = lines(45_000, |n| format!("rule r{n} is put a"));
    let chain = lines(39_999, |n| format!("rule r{} is r{n}", n + 1));
    let trays = lines(60_000, |n| format!("tray t{n}"));
    let unused = understand(&Source::new("", format!("tray a\n{rules}start r0\n"))).unwrap();
    assert_eq!(unused.notes.len(), MOST_PROBLEMS);
    let text = format!("tray a\nrule r0 is put a\n{chain}start r39999\n");
    assert_eq!(
        understand(&Source::new("", text))
            .unwrap()
            .table
            .terms()
            .len(),
        1
    );
    let text = format!("{trays}start put t0\n");
    assert!(understand(&Source::new("", text)).is_err());
    // A search through all names for each of them took half a minute.
    assert!(begun.elapsed().as_secs() < 10);
}

/// Damaged tables are told with the byte that the engine names.
#[test]
fn damaged_tables() {
    let mut random = Random::new(35);
    let mut numbers = [0; 10];
    for index in 0..10_000 {
        let bytes = damaged_table(&mut random);
        if let Err(Unread::Refused(refusal)) = Table::read(&bytes) {
            numbers[usize::from(refusal.number)] += 1;
            let lines = bytes_told::told("some", &bytes, refusal, Style::PLAIN);
            let head = format!("some: byte {}: error: ", refusal.place);
            assert!(lines.starts_with(&head), "seed 35, table {index}: {lines}");
            let last = format!("refused {} at byte {}\n", refusal.number, refusal.place);
            assert!(lines.ends_with(&last), "seed 35, table {index}: {lines}");
        }
    }
    assert!(numbers[1..].iter().all(|times| *times > 20), "{numbers:?}");
}

/// Whatever a file holds, every command ends with accepted or refused; above all
/// no check of the program against itself goes wrong.
#[test]
fn any_file_on_any_command() {
    let texts = texts();
    let mut random = Random::new(36);
    let calls: [&[&str]; 11] = [
        &["check", "-"],
        &["check", "--json", "-"],
        &["show", "-"],
        &["show", "--exact", "-"],
        &["build", "--choices", "-"],
        &["opening", "-"],
        &["opening", "--json", "-"],
        &["run", "-"],
        &["run", "--board", "-"],
        &["run", "--json", "-"],
        &["run", "--quiet", "-"],
    ];
    let mut codes = [0; 2];
    for index in 0..9_000 {
        let text = &texts[random.below(texts.len())];
        let input = match random.below(6) {
            0 => {
                let mut bytes = damaged_table(&mut random);
                let length = random.below(12);
                bytes.extend((0..length).map(|_| random.byte_below(4)));
                bytes
            }
            1 => random.bytes(40),
            2 => text.clone().into_bytes(),
            3 => {
                let mut bytes = text.clone().into_bytes();
                let at = random.below(bytes.len() + 1);
                bytes.insert(at, random.byte());
                bytes
            }
            _ => damaged(&mut random, text).into_bytes(),
        };
        let arguments = calls[index % calls.len()];
        let answer = called(arguments, &input, Style::PLAIN, false);
        let which = format!("seed 36, file {index}, {arguments:?}: {}", answer.err);
        match answer.code {
            Some(0) => codes[0] += 1,
            Some(1) => codes[1] += 1,
            _ => panic!("{which}\n{input:?}"),
        }
    }
    assert!(codes.iter().all(|times| *times > 1_000), "{codes:?}");
}
