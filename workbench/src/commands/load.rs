//! From a file's name to its table and what its text says.

use super::{Failure, Streams};
use crate::input::{self, Material};
use crate::table::{split_choices, Table, Unread};
use crate::text::choices::Line;
use crate::text::grammar;
use crate::text::problems::{self, Problem};
use crate::text::source::Source;
use crate::text::tree::Program;
use crate::text::{self, Misunderstood, Understood};
use ruonfidd::Refusal;

/// What a file holds, once it is accepted.
#[derive(Debug)]
pub struct Loaded {
    /// The text, if it is one.
    pub source: Option<Source>,
    /// What it says; for a table what [`Program::of_table`] says.
    pub program: Program,
    /// The table.
    pub table: Table,
    /// The terms of the text's rules and plans.
    pub terms: Vec<Option<u8>>,
    /// The bytes behind a table's start record.
    pub choice_bytes: Vec<u8>,
    /// What is worth saying about the text.
    pub notes: Vec<Problem>,
    /// Whether it is an exact text.
    pub exact: bool,
}

/// Why a file gave no table.
#[derive(Debug)]
pub enum Unloaded {
    /// A text with errors.
    Text(Source, Vec<Problem>),
    /// Bytes that the engine refused.
    Table(Vec<u8>, Refusal),
    /// Something else went wrong.
    Failed(Failure),
}

impl From<Failure> for Unloaded {
    fn from(failure: Failure) -> Unloaded {
        Unloaded::Failed(failure)
    }
}

/// All bytes of a file.
///
/// # Errors
///
/// Where it can't be read.
pub fn bytes_of(name: &str, streams: &mut Streams<'_>) -> Result<Vec<u8>, Failure> {
    input::bytes_of(name, streams.input).map_err(|error| {
        let shown = input::shown_name(name);
        Failure::File(format!("cannot read {shown}: {error}"))
    })
}

/// The table of a file, whose choices may stand behind it.
///
/// # Errors
///
/// Where there is no accepted one.
pub fn load(name: &str, binary: bool, streams: &mut Streams<'_>) -> Result<Loaded, Unloaded> {
    match material_of(name, binary, streams)? {
        Material::Bytes(bytes) => {
            let (table, choices) = split_choices(&bytes);
            of_bytes(table, choices)
        }
        other => of_material(other),
    }
}

/// What a file holds, told by its bytes.
///
/// # Errors
///
/// Where it can't be read.
pub fn material_of(
    name: &str,
    binary: bool,
    streams: &mut Streams<'_>,
) -> Result<Material, Failure> {
    let bytes = bytes_of(name, streams)?;
    Ok(input::material(name, bytes, binary))
}

/// The table of what a file holds, with nothing behind it: where bytes follow,
/// the engine's refusal is seen.
///
/// # Errors
///
/// Where there is no accepted one.
pub fn of_material(material: Material) -> Result<Loaded, Unloaded> {
    match material {
        Material::Text(source) => of_text(source),
        Material::Unreadable(source, problem) => Err(Unloaded::Text(source, vec![*problem])),
        Material::Bytes(bytes) => of_bytes(&bytes, &[]),
    }
}

/// What a text holds.
///
/// # Errors
///
/// Where it is wrong or the engine refuses its table.
pub fn of_text(source: Source) -> Result<Loaded, Unloaded> {
    match text::understand(&source) {
        Ok(Understood {
            program,
            table,
            terms,
            exact,
            notes,
        }) => Ok(Loaded {
            source: Some(source),
            program,
            table,
            terms,
            choice_bytes: Vec::new(),
            notes,
            exact,
        }),
        Err(Misunderstood::Problems(problems)) => Err(Unloaded::Text(source, problems)),
        Err(Misunderstood::Contradiction(words)) => {
            Err(Failure::Contradiction(words.to_owned()).into())
        }
    }
}

/// What the bytes of a table hold.
///
/// # Errors
///
/// Where the engine refuses them.
pub fn of_bytes(bytes: &[u8], choices: &[u8]) -> Result<Loaded, Unloaded> {
    let table = Table::read(bytes).map_err(|unread| match unread {
        Unread::Refused(refusal) => Unloaded::Table(bytes.to_vec(), refusal),
        Unread::Contradiction => {
            Failure::Contradiction("an accepted table cannot be read".to_owned()).into()
        }
    })?;
    Ok(Loaded {
        source: None,
        program: Program::of_table(&table),
        table,
        terms: Vec::new(),
        choice_bytes: choices.to_vec(),
        notes: Vec::new(),
        exact: false,
    })
}

/// Choices from a file of their own.
#[derive(Debug)]
pub enum Choices {
    /// A text's lines.
    Lines(Source, Vec<Line>),
    /// Bytes.
    Bytes(Vec<u8>),
}

/// The choices of a file.
///
/// # Errors
///
/// Where its text is wrong.
pub fn choices(
    name: &str,
    program: &Program,
    streams: &mut Streams<'_>,
) -> Result<Choices, Unloaded> {
    let bytes = bytes_of(name, streams)?;
    match input::material(name, bytes, false) {
        Material::Bytes(bytes) => Ok(Choices::Bytes(bytes)),
        Material::Unreadable(source, problem) => Err(Unloaded::Text(source, vec![*problem])),
        Material::Text(source) => match grammar::read_choices(&source, program) {
            Ok(lines) => Ok(Choices::Lines(source, lines)),
            Err(problems) => Err(Unloaded::Text(source, problems)),
        },
    }
}

/// Tells problems of a text on standard error.
///
/// # Errors
///
/// Where nobody reads them.
pub fn tell(
    source: &Source,
    problems: &[Problem],
    streams: &mut Streams<'_>,
) -> Result<(), Failure> {
    for problem in problems {
        let words = problems::told(source, problem, streams.err_style);
        streams.err.write_all(words.as_bytes())?;
    }
    Ok(())
}
