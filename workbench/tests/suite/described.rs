//! The tables of docs/WORKBENCH.md that describe what is written for programs,
//! held against what is written: no field that is not described, none described
//! that is never written, each of its type.

use std::collections::{BTreeMap, BTreeSet};
use std::fs;
use std::path::{Path, PathBuf};

use ruonfidd::Hall;
use workbench::style::Style;

use crate::common::{called, files, name_of, package, scratch};
use crate::consoles::fenced;
use crate::json::{parsed, Value};

/// The type of a value.
#[derive(Clone, Debug, PartialEq, Eq)]
enum Type {
    Number,
    Decimal,
    Text,
    True,
    False,
    Null,
    Pair,
    List(Vec<Type>),
    Trays(Vec<Type>),
    Object(String),
}

/// A described field: of some of these types, and whether it may be missing.
#[derive(Clone, Debug)]
struct Field {
    name: String,
    types: Vec<Type>,
    perhaps: bool,
}

/// What was seen of a field: one of its types, or that it is missing.
#[derive(Clone, Debug, PartialEq, Eq, PartialOrd, Ord)]
enum Mark {
    Type(String, String, usize),
    /// Of a list, or of trays: a value in it, and which of its types it has.
    Inner(String, String, usize),
    Missing(String, String),
}

impl Type {
    /// The types of what is in it.
    fn inner(&self) -> &[Type] {
        match self {
            Type::List(types) | Type::Trays(types) => types,
            _ => &[],
        }
    }
}

/// The document's description.
#[derive(Debug, Default)]
struct Description {
    objects: BTreeMap<String, Vec<Field>>,
    /// For each command the objects of its lines.
    lines: BTreeMap<String, Vec<String>>,
}

/// The types that a cell names. What follows `list of` belongs to the list.
fn types(cell: &str) -> Vec<Type> {
    if let Some(of) = cell.strip_prefix("list of ") {
        return vec![Type::List(types(of))];
    }
    if let Some((first, rest)) = cell.split_once(" or ") {
        let mut all = types(first);
        all.extend(types(rest));
        return all;
    }
    if let Some(of) = cell.strip_prefix("trays of ") {
        return vec![Type::Trays(types(of))];
    }
    vec![match cell {
        "number" => Type::Number,
        "decimal" => Type::Decimal,
        "text" => Type::Text,
        "true" => Type::True,
        "false" => Type::False,
        "truth" => return vec![Type::True, Type::False],
        "null" => Type::Null,
        "pair" => Type::Pair,
        name => Type::Object(code(name).unwrap_or_else(|| panic!("no type: {name}"))),
    }]
}

/// What stands between backticks.
fn code(cell: &str) -> Option<String> {
    let inner = cell.strip_prefix('`')?.strip_suffix('`')?;
    Some(inner.to_owned())
}

/// The rows of the tables with this head.
fn rows(document: &str, head: &str) -> Vec<Vec<String>> {
    let mut rows = Vec::new();
    let mut inside = false;
    for line in document.lines() {
        if line == head {
            inside = true;
        } else if !line.starts_with('|') {
            inside = false;
        } else if inside && !line.starts_with("|---") {
            let cells = line.trim_matches('|').split('|');
            rows.push(cells.map(|cell| cell.trim().to_owned()).collect());
        }
    }
    rows
}

impl Description {
    fn read() -> Description {
        let document = fs::read_to_string(package().join("../docs/WORKBENCH.md")).unwrap();
        let mut description = Description::default();
        for row in rows(&document, "| command | each line is one of |") {
            let names: Vec<String> = row[1]
                .split('`')
                .skip(1)
                .step_by(2)
                .map(str::to_owned)
                .collect();
            description.lines.insert(code(&row[0]).unwrap(), names);
        }
        let mut object = String::new();
        for row in rows(&document, "| object | field | type | what it says |") {
            if let Some(name) = code(&row[0]) {
                let new = description.objects.insert(name.clone(), Vec::new());
                assert!(new.is_none(), "{name} is described twice");
                object = name;
            }
            let more = match row[1].strip_prefix("all of ").and_then(code) {
                Some(other) => description.objects[&other].clone(),
                None => vec![Field {
                    name: code(&row[1]).unwrap_or_else(|| panic!("no field: {row:?}")),
                    perhaps: row[2].starts_with("perhaps "),
                    types: types(row[2].trim_start_matches("perhaps ")),
                }],
            };
            assert!(row[3].len() > 2, "{row:?} says nothing");
            description.objects.get_mut(&object).unwrap().extend(more);
        }
        description
    }

    /// All that has to be seen.
    fn marks(&self) -> BTreeSet<Mark> {
        let mut marks = BTreeSet::new();
        for (object, fields) in &self.objects {
            for field in fields {
                for (index, kind) in field.types.iter().enumerate() {
                    marks.insert(Mark::Type(object.clone(), field.name.clone(), index));
                    for inner in 0..kind.inner().len() {
                        marks.insert(Mark::Inner(object.clone(), field.name.clone(), inner));
                    }
                }
                if field.perhaps {
                    marks.insert(Mark::Missing(object.clone(), field.name.clone()));
                }
            }
        }
        marks
    }

    /// What a value shows, as one of these types; or why it is none of them.
    fn of_types(&self, value: &Value, types: &[Type]) -> Result<(usize, Vec<Mark>), String> {
        let mut reasons = Vec::new();
        for (index, kind) in types.iter().enumerate() {
            match self.of_type(value, kind) {
                Ok(marks) => return Ok((index, marks)),
                Err(reason) => reasons.push(reason),
            }
        }
        Err(reasons.join("; "))
    }

    fn all_of_types<'a>(
        &self,
        values: impl Iterator<Item = &'a Value>,
        types: &[Type],
    ) -> Result<Vec<Mark>, String> {
        let mut all = Vec::new();
        for value in values {
            all.extend(self.of_types(value, types)?.1);
        }
        Ok(all)
    }

    fn of_type(&self, value: &Value, kind: &Type) -> Result<Vec<Mark>, String> {
        let plain = match (kind, value) {
            (Type::Number, Value::Number(_))
            | (Type::Decimal, Value::Decimal(_))
            | (Type::Text, Value::Words(_))
            | (Type::True, Value::Truth(true))
            | (Type::False, Value::Truth(false))
            | (Type::Null, Value::Null) => true,
            (Type::Pair, Value::List(values)) => {
                matches!(values[..], [Value::Number(_), Value::Number(_)])
            }
            (Type::List(types), Value::List(values)) => {
                return self.all_of_types(values.iter(), types)
            }
            (Type::Trays(types), Value::Object(fields)) => {
                return self.all_of_types(fields.iter().map(|(_, value)| value), types)
            }
            (Type::Object(name), Value::Object(fields)) => return self.of_object(fields, name),
            _ => false,
        };
        if plain {
            Ok(Vec::new())
        } else {
            Err(format!("{value:?} is no {kind:?}"))
        }
    }

    /// Fields stand in the described order.
    fn of_object(&self, fields: &[(String, Value)], object: &str) -> Result<Vec<Mark>, String> {
        let mut fields = fields.iter().peekable();
        let mut marks = Vec::new();
        for field in &self.objects[object] {
            let Some((_, value)) = fields.next_if(|(name, _)| *name == field.name) else {
                if field.perhaps {
                    marks.push(Mark::Missing(object.to_owned(), field.name.clone()));
                    continue;
                }
                return Err(format!("{} is missing in {object}", field.name));
            };
            let (index, more) = self
                .of_types(value, &field.types)
                .map_err(|reason| format!("{} of {object}: {reason}", field.name))?;
            marks.push(Mark::Type(object.to_owned(), field.name.clone(), index));
            marks.extend(more);
            let values: Vec<&Value> = match value {
                Value::List(values) => values.iter().collect(),
                Value::Object(fields) => fields.iter().map(|(_, value)| value).collect(),
                _ => Vec::new(),
            };
            let inner = field.types[index].inner();
            for value in values.into_iter().filter(|_| !inner.is_empty()) {
                let (inner, _) = self.of_types(value, inner)?;
                marks.push(Mark::Inner(object.to_owned(), field.name.clone(), inner));
            }
        }
        match fields.next() {
            Some((name, _)) => Err(format!("{name} is not described in {object}")),
            None => Ok(marks),
        }
    }

    /// What a line of a command shows, as the one object that it is.
    fn of_line(&self, command: &str, line: &str) -> Vec<Mark> {
        let value = parsed(line);
        let mut reasons = Vec::new();
        let mut fits = Vec::new();
        for object in &self.lines[command] {
            match self.of_object(value.fields(), object) {
                Ok(marks) => fits.push(marks),
                Err(reason) => reasons.push(reason),
            }
        }
        assert_eq!(fits.len(), 1, "{command}: {reasons:#?}\n{line}");
        fits.remove(0)
    }
}

/// Every text of the examples, the calls and the document, in a folder.
fn texts(folder: &Path) -> Vec<PathBuf> {
    let mut documents = files(&package().join("tests/calls"), "md");
    documents.push(package().join("../docs/WORKBENCH.md"));
    for document in documents {
        let stem = document.file_stem().unwrap().to_str().unwrap().to_owned();
        for piece in fenced(&fs::read_to_string(document).unwrap()) {
            if let Some(("hall", name)) = piece.kind.split_once(' ') {
                // A name may have folders in it.
                let name = name.replace('/', "-");
                let file = folder.join(format!("{stem}-{name}"));
                fs::write(file, piece.lines.join("\n") + "\n").unwrap();
            }
        }
    }
    for file in files(&package().join("examples"), "hall") {
        fs::copy(&file, folder.join(name_of(&file))).unwrap();
    }
    let mut texts = files(folder, "hall");
    texts.extend(files(&package().join("tests/errors"), "hall"));
    texts.extend(files(&package().join("tests/errors"), "table"));
    texts
}

/// 715 sorts of ends; beside a clock as many sorts of rounds.
fn many_sorts(clock: bool) -> String {
    let rules: Vec<String> = (0..10).map(|number| format!("r{number}")).collect();
    let rule =
        |name: &String| format!("tray o{name}\nrule {name} is 4 of (take a then put o{name})\n");
    let text: String = rules.iter().map(rule).collect();
    let (tick, clock) = if clock {
        (
            "tray tick has 1\nrule clock is repeatedly take tick then put tick\n",
            " beside clock",
        )
    } else {
        ("", "")
    };
    format!(
        "tray a has 4\n{text}{tick}start {}{clock}\n",
        rules.join(" beside ")
    )
}

struct Seen {
    description: Description,
    marks: BTreeSet<Mark>,
    lines: usize,
}

impl Seen {
    /// Calls a command with `--json` and looks at each line.
    fn call(&mut self, arguments: &[&str]) {
        let mode = ["--groups", "--engine"]
            .into_iter()
            .find(|mode| arguments.contains(mode));
        let command = match mode {
            Some(mode) => format!("{} {mode}", arguments[0]),
            None => arguments[0].to_owned(),
        };
        let mut arguments = arguments.to_vec();
        arguments.push("--json");
        let answer = called(&arguments, b"", Style::PLAIN, false);
        // The engine's own steps do not answer every question.
        if mode == Some("--engine") && answer.code == Some(2) {
            return;
        }
        assert!(
            matches!(answer.code, Some(0 | 1)),
            "{arguments:?}: {answer:?}"
        );
        // Nothing but objects is on standard output, and none elsewhere.
        assert!(answer.out.ends_with("}\n"), "{arguments:?}: {answer:?}");
        assert!(!answer.err.contains('{'), "{arguments:?}: {answer:?}");
        for line in answer.out.lines() {
            self.marks.extend(self.description.of_line(&command, line));
            self.lines += 1;
        }
    }
}

#[test]
fn every_field_is_described_and_every_described_field_is_written() {
    let folder = scratch("described");
    let mut seen = Seen {
        description: Description::read(),
        marks: BTreeSet::new(),
        lines: 0,
    };
    for text in texts(&folder) {
        let text = text.to_str().unwrap();
        seen.call(&["check", text]);
        seen.call(&["opening", text]);
        seen.call(&["run", text]);
        let asked = ["--never", "stations > 3", "--ends", "stations = 0"];
        for more in [
            &["--graph", "30", "--memory", "5"][..],
            &["--graph", "100000", "--memory", "20"],
            &["--seconds", "0"],
            &["--engine", "--memory", "2"],
            &["--groups", "--memory", "1"],
            &["--groups", "--seconds", "0"],
        ] {
            let mut arguments = vec!["explore", text];
            arguments.extend(asked);
            arguments.extend(more);
            seen.call(&arguments);
        }
    }
    stored_halls(&folder, &mut seen);
    bounded_telling(&folder, &mut seen);
    let described = seen.description.marks();
    let never: Vec<&Mark> = described.difference(&seen.marks).collect();
    assert!(never.is_empty(), "never written: {never:#?}");
    assert!(seen.lines > 1_000, "{}", seen.lines);
}

fn stored_halls(folder: &Path, seen: &mut Seen) {
    let table = [7, 10, 1, 0, 9, 0, 1, 6, 2, 12, 0, 1, 13, 3];
    let (hall, _) = Hall::open(&table).unwrap();
    let path = |name: &str| folder.join(name).to_str().unwrap().to_owned();
    let [table_file, stored, short] = ["a.table", "stored", "short"].map(path);
    fs::write(&table_file, table).unwrap();
    fs::write(&stored, hall.as_bytes()).unwrap();
    fs::write(&short, &hall.as_bytes()[1..]).unwrap();
    seen.call(&["check", &table_file, &stored]);
    seen.call(&["check", &table_file, &short]);
}

/// Where a limit ends the telling.
fn bounded_telling(folder: &Path, seen: &mut Seen) {
    for (name, clock, memory) in [("ends", false, "4"), ("rounds", true, "8")] {
        let file = folder.join(name);
        fs::write(&file, many_sorts(clock)).unwrap();
        let file = file.to_str().unwrap();
        seen.call(&["explore", file, "--graph", "1000", "--memory", memory]);
    }
}
