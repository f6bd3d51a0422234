//! `hall opening`: an opening turn by turn, for people and for programs.

use std::fs;

use reference::generator::Random;
use reference::hall::{stations_of, Station};
use reference::table::{read_table, width, Table as Second, Term};
use workbench::style::Style;

use crate::common::{called, files, hall_at, hall_in, name_of, package, scratch, tables, Answer};
use crate::json::{parsed, Value};

/// The objects of an opening, the last one apart.
#[track_caller]
fn objects(answer: &Answer, which: &str) -> (Vec<Value>, Value) {
    assert_eq!((answer.code, answer.err.as_str()), (Some(0), ""), "{which}");
    let mut objects: Vec<Value> = answer.out.lines().map(parsed).collect();
    let last = objects.pop().expect("a last object");
    (objects, last)
}

/// What a table's turns open, by the shape of its start term.
fn opened(table: &Second) -> Vec<&'static str> {
    let mut opened = Vec::new();
    let mut waiting = vec![table.start];
    while let Some(term) = waiting.pop() {
        opened.push(match table.terms[term] {
            Term::Nil => "nothing",
            Term::SideBySide { left, right } => {
                waiting.extend([right, left]);
                "beside"
            }
            _ => "station",
        });
    }
    opened
}

/// What a station of the opening does, with the trays' names of a table without
/// a text.
fn does(table: &Second, station: &Station) -> String {
    match *station {
        Station::Putting { tray } => format!("put t{tray}"),
        Station::Waiting { term } => match table.terms[term] {
            Term::Take { tray, .. } => format!("take t{tray}"),
            Term::RepeatedTake { tray, .. } => format!("repeatedly take t{tray}"),
            _ => "block".to_owned(),
        },
        Station::Attempt { .. } => panic!("an opening begins nothing"),
    }
}

/// Tables by chance, beside what the second implementation opens.
#[test]
fn tables_by_chance() {
    let (mut turns_seen, mut stations_seen) = (0, 0);
    for (which, table) in tables(61, 400) {
        let second = read_table(table.bytes()).expect("an accepted table");
        let stations = stations_of(&second, second.start);
        let arguments = ["opening", "--json", "--binary", "-"];
        let answer = called(&arguments, table.bytes(), Style::PLAIN, false);
        let (turns, last) = objects(&answer, &which);
        assert_eq!(turns.len(), 2 * width(&second.terms, second.start) - 1);
        assert_eq!(last.number("turns"), turns.len() as u64, "{which}");
        let kinds: Vec<&str> = turns.iter().map(|turn| turn.words("opened")).collect();
        assert_eq!(kinds, opened(&second), "{which}");
        for (number, turn) in (0..).zip(&turns) {
            assert_eq!(turn.number("turn"), number, "{which}");
        }
        let laid: Vec<&Value> = turns.iter().filter(|turn| turn.has("station")).collect();
        assert_eq!(laid.len(), stations.len(), "{which}");
        for (position, (turn, station)) in (0..).zip(laid.iter().zip(&stations)) {
            assert_eq!(turn.number("position"), position, "{which}");
            assert_eq!(turn.words("does"), does(&second, station), "{which}");
        }
        turns_seen += turns.len();
        stations_seen += stations.len();
    }
    assert!(turns_seen > 8_000 && stations_seen > 4_000);
}

/// For people it is the same, a line for each turn, and no line is too wide.
#[test]
fn for_people_and_for_programs() {
    let folder = package().join("examples");
    let mut beside = 0;
    for file in files(&folder, "hall") {
        let name = name_of(&file);
        let (turns, last) = objects(&hall_in(&folder, &["opening", "--json", name], b""), name);
        let told = hall_at(96, &folder, &["opening", name], b"");
        assert_eq!((told.code, told.err.as_str()), (Some(0), ""), "{name}");
        let mut lines = told.out.lines();
        for turn in &turns {
            let (number, words) = (turn.number("turn"), turn.words("sentence"));
            let expected = format!("{number:>4}  {words}");
            assert_eq!(lines.next(), Some(expected.as_str()), "{name}");
            beside += usize::from(turn.words("opened") == "beside");
        }
        assert_eq!(lines.count(), 2, "{name}: {}", told.out);
        assert!(told.out.lines().all(|line| line.len() <= 96), "{name}");
        let stations = last.field("stations").list();
        let names = turns.iter().filter(|turn| turn.has("station"));
        assert!(
            names.map(|turn| turn.field("station")).eq(stations.iter()),
            "{name}"
        );
        // The names are those of a run's stations.
        let nothing = scratch("no-choices").join("none.choices");
        fs::write(&nothing, "choices\n").unwrap();
        let nothing = nothing.display().to_string();
        let run = hall_in(&folder, &["run", "--json", name, &nothing], b"");
        let (_, end) = objects(&run, name);
        assert_eq!(end.field("stations"), last.field("stations"), "{name}");
    }
    assert!(beside > 80, "{beside}");
}

/// How many terms are left rises by one or falls by one, and ends at none.
#[test]
fn how_many_are_left() {
    let mut random = Random::new(62);
    for (which, table) in tables(62, 100) {
        let json = random.percent(50);
        let mut arguments = vec!["opening", "--binary", "-"];
        if json {
            arguments.push("--json");
        }
        let answer = called(&arguments, table.bytes(), Style::PLAIN, false);
        assert_eq!(answer.code, Some(0), "{which}");
        if !json {
            assert!(answer.out.contains("None left to open.\n\n"), "{which}");
            continue;
        }
        let (turns, _) = objects(&answer, &which);
        let mut left = 1;
        for turn in &turns {
            left = match turn.words("opened") {
                "beside" => left + 1,
                _ => left - 1,
            };
            assert_eq!(turn.number("left"), left, "{which}");
        }
        assert_eq!(left, 0, "{which}");
    }
}
