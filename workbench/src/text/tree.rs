//! What a text says, as a tree: trays, rules, plans, the start and the choices.
//!
//! Parts stand in one list and refer to each other by index, so that a chain of
//! any length needs no deep stack. A part refers only to parts before it.

use crate::table::{Counts, Table, Term, TRAYS};

use super::asking::Asking;
use super::choices::Line;
use super::source::Span;

/// An index into [`Program::parts`].
pub type PartId = usize;

/// One phrase of a text.
#[derive(Clone, Copy, Debug, PartialEq, Eq)]
pub struct Part {
    /// What it says.
    pub kind: PartKind,
    /// The words that make it: what an error about it points at.
    pub span: Span,
}

/// What a phrase says.
#[derive(Clone, Copy, Debug, PartialEq, Eq)]
pub enum PartKind {
    /// `nothing`
    Nothing,
    /// `put T`, a station.
    Put(u8),
    /// `take T then P`
    Take(u8, PartId),
    /// `repeatedly take T then P`
    Repeatedly(u8, PartId),
    /// `P beside Q`
    Beside(PartId, PartId),
    /// `block ( M )`
    Block(PartId),
    /// `end`
    End,
    /// `retry`
    Retry,
    /// `take T, M`, inside a block.
    NoteTake(u8, PartId),
    /// `put T, M`, inside a block.
    NotePut(u8, PartId),
    /// `M or else N`
    OrElse(PartId, PartId),
    /// `n of P`
    Copies(u8, PartId),
    /// The name of a rule or a plan: an index into [`Program::definitions`].
    Named(usize),
}

/// A tray of a text.
#[derive(Clone, Debug, PartialEq, Eq)]
pub struct Tray {
    /// 0 to 15.
    pub number: u8,
    /// Its name.
    pub name: String,
    /// What it has at the opening; 0 makes no record.
    pub count: u8,
    /// Where it is named.
    pub span: Span,
    /// Whether what it has at an end is as it should be.
    pub may_stay: bool,
}

/// Rules name processes, plans name expressions.
#[derive(Clone, Copy, Debug, PartialEq, Eq)]
pub enum Class {
    /// Defined by `rule`.
    Rule,
    /// Defined by `plan`.
    Plan,
}

impl Class {
    /// The word that defines one.
    #[must_use]
    pub fn word(self) -> &'static str {
        match self {
            Class::Rule => "rule",
            Class::Plan => "plan",
        }
    }
}

/// A rule or a plan.
#[derive(Clone, Debug, PartialEq, Eq)]
pub struct Definition {
    /// Which of the two.
    pub class: Class,
    /// Its name.
    pub name: String,
    /// What it stands for.
    pub body: PartId,
    /// Where it is named.
    pub span: Span,
    /// Whether its stations may be left at an end.
    pub may_stay: bool,
}

/// A question of a text.
#[derive(Clone, Debug, PartialEq, Eq)]
pub struct Ask {
    /// What it asks.
    pub asking: Asking,
    /// All of it, behind the word `ask`.
    pub span: Span,
}

/// A whole text.
#[derive(Clone, Debug, Default, PartialEq, Eq)]
pub struct Program {
    /// All parts; each refers to earlier ones only.
    pub parts: Vec<Part>,
    /// The trays, in the order of the text.
    pub trays: Vec<Tray>,
    /// Rules and plans, in the order of the text.
    pub definitions: Vec<Definition>,
    /// The process that the hall opens with.
    pub start: PartId,
    /// Its questions, in the order of the text.
    pub questions: Vec<Ask>,
    /// What stands behind `choices`; none where the text has no such word.
    pub choices: Option<Vec<Line>>,
}

impl Program {
    /// Adds a part and gives its index.
    pub fn add(&mut self, kind: PartKind, span: Span) -> PartId {
        self.parts.push(Part { kind, span });
        self.parts.len() - 1
    }

    /// The part of this index, `nothing` for an index that is not there.
    #[must_use]
    pub fn part(&self, id: PartId) -> Part {
        self.parts.get(id).copied().unwrap_or(Part {
            kind: PartKind::Nothing,
            span: Span::default(),
        })
    }

    /// What a part says once names are followed, and the innermost rule or plan
    /// on the way there.
    #[must_use]
    pub fn resolved(&self, id: PartId) -> (PartKind, Option<usize>) {
        let mut kind = self.part(id).kind;
        let mut innermost = None;
        while let PartKind::Named(index) = kind {
            let Some(definition) = self.definitions.get(index) else {
                break;
            };
            innermost = Some(index);
            kind = self.part(definition.body).kind;
        }
        (kind, innermost)
    }

    /// The name of a tray: the text's, or `t5` for one that the text does not
    /// name.
    #[must_use]
    pub fn tray_name(&self, number: u8) -> String {
        self.trays
            .iter()
            .find(|tray| tray.number == number)
            .map_or_else(|| format!("t{number}"), |tray| tray.name.clone())
    }

    /// Whether what a tray has at an end is as it should be.
    #[must_use]
    pub fn tray_may_stay(&self, number: u8) -> bool {
        let mut trays = self.trays.iter();
        trays.any(|tray| tray.number == number && tray.may_stay)
    }

    /// The counts that the text gives.
    #[must_use]
    pub fn counts(&self) -> Counts {
        let mut counts = [0; TRAYS];
        for tray in &self.trays {
            if let Some(slot) = counts.get_mut(usize::from(tray.number)) {
                *slot = tray.count;
            }
        }
        counts
    }

    /// The text of a table without one: a part for each term, no rules, and
    /// trays called `t0`, `t1`, ..
    #[must_use]
    pub fn of_table(table: &Table) -> Program {
        let mut program = Program::default();
        for term in table.terms() {
            program.add(kind_of_term(*term), Span::default());
        }
        let counts = table.counts();
        for number in table.trays_in_use() {
            program.trays.push(Tray {
                number,
                name: format!("t{number}"),
                count: counts.get(usize::from(number)).copied().unwrap_or(0),
                span: Span::default(),
                may_stay: false,
            });
        }
        program.start = table.start().into();
        program
    }
}

fn kind_of_term(term: Term) -> PartKind {
    match term {
        Term::Nothing => PartKind::Nothing,
        Term::Put { tray } => PartKind::Put(tray),
        Term::Take { tray, then } => PartKind::Take(tray, then.into()),
        Term::Repeatedly { tray, then } => PartKind::Repeatedly(tray, then.into()),
        Term::Beside { left, right } => PartKind::Beside(left.into(), right.into()),
        Term::Block { body } => PartKind::Block(body.into()),
        Term::End => PartKind::End,
        Term::Retry => PartKind::Retry,
        Term::NoteTake { tray, rest } => PartKind::NoteTake(tray, rest.into()),
        Term::NotePut { tray, rest } => PartKind::NotePut(tray, rest.into()),
        Term::OrElse { left, right } => PartKind::OrElse(left.into(), right.into()),
    }
}
