//! The text form of rule tables and choices.
//!
//! | Module | What it holds |
//! |---|---|
//! | [`source`] | a text with its name, and places in it |
//! | [`lexer`] | a text cut into words, numbers and signs |
//! | [`words`] | the words of the language, and those taken for one |
//! | [`reader`], [`references`] | what all readers share; names where they are used |
//! | [`grammar`], [`process`], [`ways`] | items, stations, ways of a block |
//! | [`ask_item`], [`asking`] | questions: where they stand in a text, and what they say |
//! | [`lesson`], [`choices`] | the lines behind `choices`, read and as read |
//! | [`exact`] | texts of one record a line |
//! | [`tree`] | what a text says |
//! | [`problems`] | errors with carets |
//! | [`assembly`] | from the tree to bytes |
//! | [`compare`] | an accepted table against the tree it was made of |
//! | [`refused`] | the engine's refusals, put back onto the text |
//!
//! [`understand`] goes all the way from a text to a table.

use ruonfidd::Refusal;

pub mod ask_item;
pub mod asking;
pub mod assembly;
pub mod choices;
pub mod compare;
pub mod exact;
pub mod grammar;
pub mod lesson;
pub mod lexer;
pub mod problems;
pub mod process;
pub mod reader;
pub mod references;
pub mod refused;
pub mod source;
pub mod tree;
pub mod ways;
pub mod words;

use crate::table::{Table, Unread};
use grammar::Said;
use problems::Problem;
use source::Source;
use tree::Program;

/// A text and the table that was made of it, which the engine accepted and
/// which was compared with the text.
#[derive(Clone, Debug, PartialEq, Eq)]
pub struct Understood {
    /// What the text says.
    pub program: Program,
    /// Its table.
    pub table: Table,
    /// The terms of the text's rules and plans, by their index.
    pub terms: Vec<Option<u8>>,
    /// Whether it is an exact text.
    pub exact: bool,
    /// What is worth saying about it.
    pub notes: Vec<Problem>,
}

/// Why a text gave no table.
#[derive(Clone, Debug, PartialEq, Eq)]
pub enum Misunderstood {
    /// The text is wrong, or the engine refused its table.
    Problems(Vec<Problem>),
    /// The program is at odds with itself: no table is handed out.
    Contradiction(&'static str),
}

/// Reads a text, makes its table, asks the engine and compares.
///
/// # Errors
///
/// What is wrong with the text.
pub fn understand(source: &Source) -> Result<Understood, Misunderstood> {
    match grammar::read(source).map_err(Misunderstood::Problems)? {
        Said::Rules(program) => of_rules(program),
        Said::Exact(records) => of_records(records),
    }
}

fn of_rules(program: Program) -> Result<Understood, Misunderstood> {
    let assembled = assembly::assemble(&program);
    let table = accepted(&assembled.bytes, |refusal| {
        refused::on_rules(refusal, &assembled, &program)
    })?;
    if !compare::means(&table, &program) {
        return Err(Misunderstood::Contradiction(
            "the table is not what the text says",
        ));
    }
    Ok(Understood {
        notes: notes(&program, &table),
        table,
        terms: assembled.terms,
        exact: false,
        program,
    })
}

fn of_records(records: exact::Records) -> Result<Understood, Misunderstood> {
    let table = accepted(&records.bytes, |refusal| {
        refused::on_records(refusal, &records.bytes, &records.places)
    })?;
    let mut program = Program::of_table(&table);
    for tray in &mut program.trays {
        let named = records.trays.iter().find(|it| it.number == tray.number);
        if let Some(named) = named {
            tray.name.clone_from(&named.name);
            tray.span = named.span;
        }
    }
    program.choices = records.choices;
    program.questions = records.questions;
    Ok(Understood {
        notes: Vec::new(),
        table,
        terms: Vec::new(),
        exact: true,
        program,
    })
}

/// The table, or the engine's refusal told on the text.
fn accepted(
    bytes: &[u8],
    tell: impl Fn(Refusal) -> Option<Problem>,
) -> Result<Table, Misunderstood> {
    Table::read(bytes).map_err(|unread| match unread {
        Unread::Contradiction => Misunderstood::Contradiction("the table cannot be read back"),
        Unread::Refused(refusal) => match tell(refusal) {
            Some(problem) => Misunderstood::Problems(vec![problem]),
            None => Misunderstood::Contradiction("the engine refused what the text cannot say"),
        },
    })
}

/// What is written and comes to nothing, in the order of the text.
fn notes(program: &Program, table: &Table) -> Vec<Problem> {
    let mut notes: Vec<Problem> = unused_definitions(program).collect();
    notes.extend(unused_trays(program, table));
    notes.sort_by_key(|note| note.span.start);
    notes.truncate(problems::MOST_PROBLEMS);
    notes
}

/// Rules and plans that the start does not use make no record.
fn unused_definitions(program: &Program) -> impl Iterator<Item = Problem> + '_ {
    let used = assembly::used_definitions(program);
    let definitions = program.definitions.iter().zip(used);
    definitions
        .filter(|(_, used)| !used)
        .map(|(definition, _)| {
            let class = definition.class.word();
            Problem::note(
                definition.span,
                format!("{class} '{}' is not used by the start", definition.name),
            )
            .label("it makes no record, and its size is not checked")
        })
}

/// Trays that no station takes from or puts into.
fn unused_trays<'a>(program: &'a Program, table: &'a Table) -> impl Iterator<Item = Problem> + 'a {
    let is_used = |number: u8| table.terms().iter().any(|term| term.tray() == Some(number));
    let unused = program
        .trays
        .iter()
        .filter(move |tray| !is_used(tray.number));
    unused.map(|tray| {
        Problem::note(tray.span, format!("tray '{}' is used by nobody", tray.name))
            .label("no station takes from it or puts into it")
    })
}
