//! What is written for programs, read back.

use reference::sentence::{sentence, Reply};
use reference::shortage::Shortage;

use crate::common::{files, hall_in, name_of, package};

/// A value that was read.
#[derive(Clone, Debug, PartialEq, Eq)]
pub(crate) enum Value {
    Null,
    Truth(bool),
    Number(u64),
    /// With a point, as it is written.
    Decimal(String),
    Words(String),
    List(Vec<Value>),
    Object(Vec<(String, Value)>),
}

impl Value {
    pub(crate) fn fields(&self) -> &[(String, Value)] {
        match self {
            Value::Object(fields) => fields,
            other => panic!("no object: {other:?}"),
        }
    }

    pub(crate) fn field(&self, name: &str) -> &Value {
        let mut all = self.fields().iter().filter(|(field, _)| field == name);
        let found = all
            .next()
            .unwrap_or_else(|| panic!("no {name} in {self:?}"));
        assert!(all.next().is_none(), "{name} twice in {self:?}");
        &found.1
    }

    pub(crate) fn has(&self, name: &str) -> bool {
        self.fields().iter().any(|(field, _)| field == name)
    }

    pub(crate) fn number(&self, name: &str) -> u64 {
        match self.field(name) {
            Value::Number(number) => *number,
            other => panic!("{name} is {other:?}"),
        }
    }

    pub(crate) fn words(&self, name: &str) -> &str {
        match self.field(name) {
            Value::Words(words) => words,
            other => panic!("{name} is {other:?}"),
        }
    }

    pub(crate) fn list(&self) -> &[Value] {
        match self {
            Value::List(values) => values,
            other => panic!("no list: {other:?}"),
        }
    }
}

/// One line.
pub(crate) fn parsed(line: &str) -> Value {
    let mut rest = line;
    let value = value(&mut rest).unwrap_or_else(|| panic!("not a value: {line}"));
    assert_eq!(rest, "", "something follows in {line}");
    value
}

fn value(rest: &mut &str) -> Option<Value> {
    *rest = rest.trim_start();
    let first = rest.chars().next()?;
    match first {
        '{' => {
            let fields = between(rest, '}', |rest| {
                *rest = rest.trim_start();
                let name = words(rest)?;
                *rest = rest.trim_start().strip_prefix(':')?;
                Some((name, value(rest)?))
            })?;
            Some(Value::Object(fields))
        }
        '[' => Some(Value::List(between(rest, ']', value)?)),
        '"' => words(rest).map(Value::Words),
        '0'..='9' => {
            let end = rest
                .find(|c: char| !c.is_ascii_digit() && c != '.')
                .unwrap_or(rest.len());
            let (number, behind) = rest.split_at(end);
            *rest = behind;
            match number.split_once('.') {
                None => number.parse().ok().map(Value::Number),
                Some((_, "")) => None,
                Some((_, digits)) if digits.contains('.') => None,
                Some(_) => Some(Value::Decimal(number.to_owned())),
            }
        }
        _ => [
            ("true", Value::Truth(true)),
            ("false", Value::Truth(false)),
            ("null", Value::Null),
        ]
        .into_iter()
        .find_map(|(word, value)| {
            *rest = rest.strip_prefix(word)?;
            Some(value)
        }),
    }
}

/// What stands between brackets, parted by commas.
fn between<T>(
    rest: &mut &str,
    close: char,
    mut one: impl FnMut(&mut &str) -> Option<T>,
) -> Option<Vec<T>> {
    let mut all = Vec::new();
    *rest = rest[1..].trim_start();
    if let Some(behind) = rest.strip_prefix(close) {
        *rest = behind;
        return Some(all);
    }
    loop {
        all.push(one(rest)?);
        *rest = rest.trim_start();
        if let Some(behind) = rest.strip_prefix(close) {
            *rest = behind;
            return Some(all);
        }
        *rest = rest.strip_prefix(',')?;
    }
}

fn words(rest: &mut &str) -> Option<String> {
    let mut units = Vec::new();
    let mut characters = rest.strip_prefix('"')?.char_indices();
    let begun = rest.len() - rest.strip_prefix('"')?.len();
    loop {
        let (at, character) = characters.next()?;
        match character {
            '"' => {
                *rest = &rest[begun + at + 1..];
                return String::from_utf16(&units).ok();
            }
            '\\' => match characters.next()?.1 {
                'u' => {
                    let digits: String = (0..4)
                        .filter_map(|_| characters.next())
                        .map(|it| it.1)
                        .collect();
                    units.push(u16::from_str_radix(&digits, 16).ok()?);
                }
                plain @ ('"' | '\\') => units.push(u16::try_from(u32::from(plain)).ok()?),
                _ => return None,
            },
            plain => units.push(u16::try_from(u32::from(plain)).ok()?),
        }
    }
}

#[test]
fn the_reader_itself() {
    let read = parsed("{\"a\": [1, \"x\\u00e4\\\"\", true], \"b\": {}}");
    assert_eq!(
        read.field("a").list()[1],
        Value::Words("x\u{e4}\"".to_owned())
    );
    assert_eq!(read.field("b").fields(), []);
}

/// The problems of a text say where they are, as the words for people do.
#[test]
fn problems_for_programs() {
    let folder = package().join("tests/errors");
    let mut checked = 0;
    for file in files(&folder, "hall")
        .into_iter()
        .chain(files(&folder, "table"))
    {
        let name = name_of(&file);
        if name.starts_with("run-") || name.starts_with("note-") {
            continue;
        }
        let answer = hall_in(&folder, &["check", "--json", name], b"");
        assert_eq!((answer.code, answer.err.as_str()), (Some(1), ""), "{name}");
        assert!(answer.out.is_ascii(), "{name}");
        assert_eq!(answer.out.lines().count(), 1, "{name}");
        let read = parsed(answer.out.trim_end());
        assert_eq!(*read.field("accepted"), Value::Truth(false), "{name}");
        let told = hall_in(&folder, &["check", name], b"").err;
        for problem in read.field("problems").list() {
            checked += 1;
            let message = problem.words("message");
            let head = if file.extension().is_some_and(|ending| ending == "table") {
                format!(
                    "{name}: byte {}: error: {message}\n",
                    problem.number("place")
                )
            } else {
                let (line, column) = (problem.number("line"), problem.number("column"));
                let level = problem.words("level");
                format!("{name}:{line}:{column}: {level}: {message}\n")
            };
            assert!(told.contains(&head), "{name}: {head}");
        }
    }
    assert!(checked > 150, "{checked} problems");
}

/// A run for programs has the same sentences as a run for people.
#[test]
fn runs_for_programs() {
    let folder = package().join("examples");
    for file in files(&folder, "hall") {
        let name = name_of(&file);
        let told = hall_in(&folder, &["run", "--moves", name], b"").out;
        let told: String = told.split_whitespace().collect::<Vec<_>>().join(" ");
        let objects = hall_in(&folder, &["run", "--json", name], b"").out;
        let objects: Vec<Value> = objects.lines().map(parsed).collect();
        let (last, choices) = objects.split_last().unwrap();
        let moved = choices.iter().filter(|it| it.has("moved"));
        assert_eq!(moved.count() as u64, last.number("done"), "{name}");
        for choice in choices {
            assert!(
                told.contains(choice.words("sentence")),
                "{name}: {choice:?}"
            );
        }
    }
}

/// What the second implementation says of an object's choice and its answer.
fn said_by_the_second(choice: &Value) -> String {
    let bytes: Vec<u8> = choice.field("choice").list().iter().map(byte).collect();
    let (kind, position, node) = match bytes[..] {
        [kind, position] => (kind, position, 0),
        [kind, position, node] => (kind, position, node),
        _ => panic!("{choice:?}"),
    };
    let reply = match (choice.has("moved"), choice.has("refused")) {
        (true, false) => Reply::Moved {
            rule: byte(choice.field("moved")),
            short: choice.has("short").then(|| short_of(choice)),
        },
        (false, true) => Reply::Refused(byte(choice.field("refused"))),
        _ => panic!("{choice:?}"),
    };
    sentence(kind, position, node, reply)
}

/// What was short, in numbers: the trays stand in the order of theirs.
fn short_of(choice: &Value) -> Shortage {
    let short = choice.field("short");
    let mut names = choice.field("trays").fields().iter().map(|(name, _)| name);
    let tray = names.position(|name| name == short.words("tray"));
    Shortage {
        tray: u8::try_from(tray.expect("a tray of this name")).unwrap(),
        by: byte(short.field("by")),
    }
}

fn byte(value: &Value) -> u8 {
    match value {
        Value::Number(number) => u8::try_from(*number).unwrap(),
        other => panic!("no byte: {other:?}"),
    }
}

/// Each choice has the engine's own sentence, moved or refused.
#[test]
fn the_engine_s_sentences_for_programs() {
    let folder = package().join("examples");
    let (mut moved, mut refused) = (0, 0);
    for file in files(&folder, "hall") {
        let name = name_of(&file);
        let objects = hall_in(&folder, &["run", "--json", name], b"").out;
        let objects: Vec<Value> = objects.lines().map(parsed).collect();
        let (last, choices) = objects.split_last().unwrap();
        for choice in choices {
            assert_eq!(
                choice.words("engine"),
                said_by_the_second(choice),
                "{name}: {choice:?}"
            );
        }
        moved += last.number("done");
        refused += last.number("refused");
        assert_eq!(
            choices.len() as u64,
            last.number("done") + last.number("refused")
        );
    }
    assert!(moved >= 300 && refused >= 5, "{moved} {refused}");
}

/// A tray that a sentence for people names as short: by how many, how many were to
/// be taken and how many there were.
#[derive(Debug)]
struct Named<'a> {
    tray: &'a str,
    by: u64,
    wanted: u64,
    there: u64,
}

impl<'a> Named<'a> {
    fn new(tray: &'a str, [by, wanted, there]: [&str; 3]) -> Option<Named<'a>> {
        Some(Named {
            tray,
            by: by.parse().ok()?,
            wanted: wanted.parse().ok()?,
            there: there.parse().ok()?,
        })
    }

    /// `sheet is short by 1 (2 noted, 1 there now)`
    fn of_commit(words: &'a str) -> Option<Named<'a>> {
        let (tray, rest) = words.split_once(" is short by ")?;
        let (by, rest) = rest.split_once(" (")?;
        let (wanted, rest) = rest.split_once(" noted, ")?;
        Named::new(tray, [by, wanted, rest.strip_suffix(" there now)")?])
    }

    /// `1 of sheet: it would take 2 and remembers 1`
    fn of_take(words: &'a str) -> Option<Named<'a>> {
        let (by, rest) = words.split_once(" of ")?;
        let (tray, rest) = rest.split_once(": it would take ")?;
        let (wanted, there) = rest.split_once(" and remembers ")?;
        Named::new(tray, [by, wanted, there])
    }
}

/// The trays that people are told were short, in the order in which they are told.
fn named(rule: u64, sentence: &str) -> Option<Vec<Named<'_>>> {
    if rule == 9 {
        let (_, rest) = sentence.split_once(" lacks ")?;
        let (words, _) = rest.split_once(". ")?;
        return Some(vec![Named::of_take(words)?]);
    }
    let (_, rest) = sentence.split_once(" fails to commit: ")?;
    let (words, _) = rest.split_once(". ")?;
    words
        .split_inclusive(')')
        .map(|words| Named::of_commit(words.trim_start_matches(", ")))
        .collect()
}

/// What was short in this object is the first tray that people are told of, and the
/// counts that they are told show that it is so. How many trays they are told of.
#[track_caller]
fn short_as_told(rule: u64, choice: &Value) -> usize {
    let all = named(rule, choice.words("sentence"));
    let all = all.unwrap_or_else(|| panic!("nothing is named short: {choice:?}"));
    for it in &all {
        // Where there is enough, nothing or 0 is left.
        assert_eq!(it.wanted.checked_sub(it.there), Some(it.by), "{choice:?}");
        assert!(it.by > 0, "{choice:?}");
        // A commit that fails leaves the trays as they are.
        let now = choice.field("trays").number(it.tray);
        assert!(rule == 9 || it.there == now, "{choice:?}");
    }
    let trays = choice.field("trays").fields();
    let place = |it: &Named<'_>| trays.iter().position(|(tray, _)| tray == it.tray);
    assert!(
        all.windows(2).all(|two| place(&two[0]) < place(&two[1])),
        "not in the order of the trays: {choice:?}"
    );
    let short = choice.field("short");
    assert_eq!(
        (short.words("tray"), short.number("by")),
        (all[0].tray, all[0].by),
        "{choice:?}"
    );
    all.len()
}

/// A commit that lacks two of the first tray and one of the second, which is noted
/// first; then a take that lacks one of the second.
const LATE: &str = "
tray a has 2
tray b has 1
rule desk is block (take b, take a, take a, end)
rule guest is take a then take a then take b then nothing
start desk beside guest
choices
  act desk  step desk  step desk  step desk
  act guest  act guest  act guest
  act desk => fails
  act desk  step desk => lacks
";

/// The objects of failed commits and takes, and no others, have what was short.
#[test]
fn what_was_short_for_programs() {
    let folder = package().join("examples");
    let mut runs = vec![(
        "late",
        hall_in(&folder, &["run", "--json", "-"], LATE.as_bytes()),
    )];
    let files = files(&folder, "hall");
    for name in files.iter().map(|file| name_of(file)) {
        runs.push((name, hall_in(&folder, &["run", "--json", name], b"")));
    }
    let (mut fails, mut lacks, mut several, mut by_more) = (0, 0, 0, 0);
    for (name, run) in runs {
        for choice in run.out.lines().map(parsed) {
            let rule = choice.has("moved").then(|| choice.number("moved"));
            let Some(rule) = rule.filter(|rule| [6, 9].contains(rule)) else {
                assert!(!choice.has("short"), "{name}: {choice:?}");
                continue;
            };
            let trays = short_as_told(rule, &choice);
            fails += usize::from(rule == 6);
            lacks += usize::from(rule == 9);
            several += usize::from(trays > 1);
            by_more += usize::from(choice.field("short").number("by") > 1);
        }
    }
    assert!(fails >= 4 && lacks >= 6, "{fails} {lacks}");
    assert!(several >= 2 && by_more >= 1, "{several} {by_more}");
}

/// What goes wrong in a run is an object too, and the last line still comes.
#[test]
fn wrong_runs_for_programs() {
    let folder = package().join("tests/errors");
    let wrong = files(&folder, "hall");
    let wrong = wrong
        .iter()
        .filter(|file| name_of(file).starts_with("run-"));
    let mut checked = 0;
    for file in wrong {
        let name = name_of(file);
        let answer = hall_in(&folder, &["run", "--json", name], b"");
        assert_eq!((answer.code, answer.err.as_str()), (Some(1), ""), "{name}");
        let objects: Vec<Value> = answer.out.lines().map(parsed).collect();
        let [.., problem, last] = objects.as_slice() else {
            panic!("{name}: {objects:?}");
        };
        let message = problem.field("problem").words("message");
        let told = hall_in(&folder, &["run", name], b"").err;
        assert!(told.contains(message), "{name}: {message}");
        last.number("done");
        checked += 1;
    }
    assert!(checked >= 12, "{checked}");
}

/// Objects go to standard output, and nothing else does; what is wrong is in an
/// object too.
#[test]
fn objects_on_standard_output() {
    let folder = package().join("examples");
    let ways: [(&[&str], i32); 8] = [
        (&["check", "--json", "ballots.hall"], 0),
        (&["check", "--json", "../tests/errors/items.hall"], 1),
        (&["opening", "--json", "ballots.hall"], 0),
        (&["run", "--json", "ballots.hall"], 0),
        (&["run", "--json", "../tests/errors/run-gone.hall"], 1),
        (&["explore", "--json", "ballots.hall"], 0),
        (
            &[
                "explore",
                "--json",
                "ballots.hall",
                "--never",
                "stations > 0",
            ],
            1,
        ),
        (&["explore", "--json", "--engine", "choice.hall"], 0),
    ];
    for (arguments, code) in ways {
        let answer = hall_in(&folder, arguments, b"");
        let given = (answer.code, answer.err.as_str());
        assert_eq!(given, (Some(code), ""), "{arguments:?}");
        assert!(answer.out.ends_with('\n'), "{arguments:?}");
        let objects: Vec<Value> = answer.out.lines().map(parsed).collect();
        assert!(!objects.is_empty(), "{arguments:?}");
        for object in objects {
            assert!(!object.fields().is_empty(), "{arguments:?}");
        }
    }
}

/// The station of each choice is the one that its words name, at the position
/// that its bytes name; behind the choice the same stations stand as before the
/// next one.
#[test]
fn stations_of_choices() {
    let folder = package().join("examples");
    let (mut ways, mut choices) = (0, 0);
    for file in files(&folder, "hall") {
        let name = name_of(&file);
        let run = hall_in(&folder, &["run", "--json", name], b"").out;
        let run: Vec<Value> = run.lines().map(parsed).collect();
        let moved = run.iter().filter(|it| it.has("moved"));
        for (choice, next) in moved.clone().zip(moved.skip(1)) {
            let position = next.number("position");
            let bytes = next.field("choice").list();
            assert_eq!(bytes[1], Value::Number(position), "{name}: {next:?}");
            let standing = choice.field("stations").list();
            let station = &standing[usize::try_from(position).unwrap()];
            assert_eq!(station, next.field("station"), "{name}: {next:?}");
            choices += 1;
        }
        let arguments = ["explore", "--json", name, "--memory", "5"];
        let explored = parsed(hall_in(&folder, &arguments, b"").out.trim_end());
        let met = ["met_19", "met_20"].map(|name| explored.field(name));
        let met = met.into_iter().filter(|way| **way != Value::Null);
        for way in explored.field("ends").list().iter().chain(met) {
            called_as_said(way);
            ways += 1;
        }
    }
    assert!(choices > 200 && ways > 20, "{choices} {ways}");
}

/// The callers of a way against its words and its bytes.
#[track_caller]
fn called_as_said(way: &Value) {
    let words = way.field("choices").list();
    let callers = way.field("made_by").list();
    assert_eq!(words.len(), callers.len(), "{way:?}");
    let mut bytes = way.field("bytes").list().iter();
    for (words, caller) in words.iter().zip(callers) {
        let Value::Words(words) = words else {
            panic!("{way:?}");
        };
        let station = caller.words("station");
        let said = words.strip_suffix(" => refused 19").unwrap_or(words);
        let said = said.strip_suffix(" => refused 20").unwrap_or(said);
        let node = match bytes.next() {
            None => None,
            Some(kind) => {
                let position = Value::Number(caller.number("position"));
                assert_eq!(bytes.next(), Some(&position), "{way:?}");
                (*kind == Value::Number(2)).then(|| byte(bytes.next().unwrap()))
            }
        };
        let expected = match node {
            None => format!("act {station}"),
            Some(0) => format!("step {station}"),
            Some(node) => format!("step {station} node {node}"),
        };
        assert_eq!(said, expected, "{way:?}");
    }
    assert!(bytes.next().is_none(), "{way:?}");
}
