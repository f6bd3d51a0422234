//! Every example is a lesson that is met, and every refused one is refused.

use std::fs;

use reference::print::printed_run;

use crate::common::{files, hall_in, name_of, package, raw_hall_in};
use crate::json::{parsed, Value};

#[test]
fn every_lesson_is_met() {
    let folder = package().join("examples");
    let lessons = files(&folder, "hall");
    assert!(lessons.len() >= 27, "{} lessons", lessons.len());
    for lesson in lessons {
        let name = name_of(&lesson);
        for option in ["--quiet", "--board", "--json"] {
            let answer = hall_in(&folder, &["run", option, name], b"");
            assert_eq!(
                (answer.code, answer.err.as_str()),
                (Some(0), ""),
                "{name} {option}"
            );
        }
        let answer = hall_in(&folder, &["run", name], b"");
        assert_eq!((answer.code, answer.err.as_str()), (Some(0), ""), "{name}");
        assert!(
            answer.out.lines().all(|line| line.len() <= 110),
            "{name}\n{}",
            answer.out
        );
        assert!(answer.out.is_ascii(), "{name}");
    }
}

/// Every lesson and every question, one line each.
#[test]
fn all_of_them_tested_at_once() {
    let answer = hall_in(package(), &["test", "examples"], b"");
    assert_eq!((answer.code, answer.err.as_str()), (Some(0), ""));
    let lines: Vec<&str> = answer.out.lines().collect();
    let of = |what: &str| lines.iter().filter(|line| line.contains(what)).count();
    let (lessons, questions) = (
        of(": lesson: "),
        lines.len() - 1 - of(": lesson: ") - of("has to be"),
    );
    assert_eq!(lessons, files(&package().join("examples"), "hall").len());
    assert!(questions > 30 && of(": holds") > 15 && of("broken, as the text says,") > 8);
    let last = format!(
        "{} texts, {lessons} lessons, {questions} questions: all as they should be",
        lessons + of("has to be")
    );
    assert_eq!(lines.last(), Some(&last.as_str()));
}

/// A lesson that expects nothing would be met by anything.
#[test]
fn every_lesson_expects_something() {
    for lesson in files(&package().join("examples"), "hall") {
        let text = fs::read_to_string(&lesson).unwrap();
        let expectations = text.matches("=>").count();
        assert!(expectations >= 1, "{}", lesson.display());
        assert!(
            text.starts_with("# "),
            "{} says what it shows",
            lesson.display()
        );
    }
}

/// The same choices as bytes, run by the second implementation: number, choices
/// done, tally and trays are those of the lesson.
#[test]
fn the_second_implementation_agrees() {
    let folder = package().join("examples");
    let mut compared = 0;
    for lesson in files(&folder, "hall") {
        let name = name_of(&lesson);
        let bytes = raw_hall_in(&folder, &["build", "--choices", name], b"").stdout;
        let printed = String::from_utf8(printed_run(&bytes)).unwrap();
        let run = hall_in(&folder, &["run", "--json", name], b"").out;
        let last = parsed(run.lines().last().unwrap());
        if last.number("refused") > 0 {
            // A list of choices ends with its refusal, where a lesson goes on.
            assert!(!printed.starts_with("R 0 "), "{name}: {printed}");
            continue;
        }
        compared += 1;
        let head = format!("R 0 {} {}\n", choices_length(&run), last.number("done"));
        let tally = ["commits", "failed", "retries"].map(|field| last.number(field).to_string());
        assert!(
            printed.starts_with(&format!("{head}C {}\n", tally.join(" "))),
            "{name}: {printed}"
        );
        let trays: Vec<String> = printed
            .lines()
            .filter(|line| line.starts_with('T'))
            .map(|line| line.rsplit(' ').next().unwrap().to_owned())
            .collect();
        assert_eq!(trays, counts_in_use(&last), "{name}: {printed}");
        let stations = printed
            .lines()
            .filter(|line| line.starts_with(['P', 'W', 'A']));
        assert_eq!(
            stations.count(),
            last.field("stations").list().len(),
            "{name}: {printed}"
        );
    }
    assert!(compared >= 20, "{compared} were compared");
}

fn choices_length(run: &str) -> usize {
    run.lines()
        .filter(|line| line.contains("\"choice\""))
        .map(|line| parsed(line).field("choice").list().len())
        .sum()
}

/// The last counts of the trays whose first or last is not 0.
fn counts_in_use(last: &Value) -> Vec<String> {
    last.field("trays")
        .fields()
        .iter()
        .map(|(_, counts)| counts.list())
        .filter(|counts| counts.iter().any(|count| *count != Value::Number(0)))
        .map(|counts| match &counts[1] {
            Value::Number(count) => count.to_string(),
            other => panic!("{other:?}"),
        })
        .collect()
}

#[test]
fn what_is_over_a_limit_is_refused() {
    let folder = package().join("examples/refused");
    let refused = |name: &str, arguments: &[&str], line: &str| {
        let answer = hall_in(&folder, arguments, b"");
        assert_eq!(answer.code, Some(1), "{name}");
        let last = answer.err.lines().last().unwrap_or("");
        assert_eq!(
            last,
            format!("      = the engine answered: {line}"),
            "{name}"
        );
    };
    let name = "rehearsal-07-empty.table";
    refused(name, &["check", "--binary", name], "refused 9 at byte 0");
    let expected = [
        ("rehearsal-08-wider.hall", "refused 7 at byte 20"),
        ("rehearsal-09-nine-ways.hall", "refused 7 at byte 13"),
        ("rehearsal-09-seventeen-steps.hall", "refused 7 at byte 49"),
    ];
    for (name, line) in expected {
        refused(name, &["check", name], line);
    }
    let there = files(&folder, "hall").len() + files(&folder, "table").len();
    assert_eq!(there, expected.len() + 1);
}
