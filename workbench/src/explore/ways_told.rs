//! The ways of an exploration in lines: step by step, or as choices.

use crate::steps::fold::{told, Told};
use crate::steps::layout::Layout;
use crate::steps::Entry;
use crate::style::{width, Style};
use crate::table::Table;
use crate::text::tree::Program;

use super::replay::Witness;
use super::report::{choice_lines, counted};

/// Longer ways are cut in print; a file has all of them.
const MOST_CHOICES: usize = 100;
/// The same for a way told by steps.
const MOST_ROWS: usize = 40;

/// How ways are told.
#[derive(Clone, Copy, Debug)]
pub struct Ways<'a> {
    /// The text of the hall.
    pub program: &'a Program,
    /// Colour.
    pub style: Style,
    /// Whether each choice is told, and not each step.
    pub moves: bool,
}

impl Ways<'_> {
    /// A way of a hall of this table, behind so many spaces. Numbers of steps have
    /// room before them already, and stand two further to the left.
    #[must_use]
    pub fn lines(&self, table: &Table, witness: &Witness, indent: usize) -> Vec<String> {
        let entries = witness.told(table, self.program);
        match entries.filter(|_| !self.moves) {
            Some(entries) => self.steps(&entries, indent),
            None => choices(witness, indent),
        }
    }

    /// A way that is known by steps.
    #[must_use]
    pub fn steps(&self, entries: &[Entry], indent: usize) -> Vec<String> {
        let rows = told(entries);
        let shown = rows.get(..MOST_ROWS).unwrap_or(&rows);
        let layout = Layout {
            program: self.program,
            style: self.style,
            width: width(),
            indent: indent.saturating_sub(2),
        };
        let mut lines = layout.lines(shown);
        let left = rows.get(shown.len()..).unwrap_or(&[]);
        let steps = |it: &Told| match it {
            Told::Row(row) => row.numbers.1 + 1 - row.numbers.0,
            Told::Apart(_) => 0,
        };
        let left: usize = left.iter().map(steps).sum();
        if left > 0 {
            let left = counted(u64::try_from(left).unwrap_or(u64::MAX), "step");
            let margin = " ".repeat(indent);
            lines.push(format!("{margin} .. and {left} more: --save keeps all"));
        }
        lines
    }
}

/// A way as `choices` text, cut where it is long.
fn choices(witness: &Witness, indent: usize) -> Vec<String> {
    let words: Vec<&str> = witness.words().collect();
    if words.is_empty() {
        return Vec::new();
    }
    let margin = " ".repeat(indent);
    let mut lines = vec![format!("{margin}choices")];
    let shown = words.get(..MOST_CHOICES).unwrap_or(&words);
    lines.extend(choice_lines(shown, indent + 2, width()));
    if words.len() > shown.len() {
        lines.push(format!(
            "{margin}  # and {} more: --save keeps all of them",
            words.len() - shown.len()
        ));
    }
    lines
}
