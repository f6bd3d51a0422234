//! Readable texts: which terms get a name, and how each is written.
//!
//! Assembly lays terms down definition by definition, inner parts first, and
//! merges equal ones. So a term that would come out of its turn is given a name
//! of its own, and its definition stands where its turn is. With every term
//! named the order is right, so this ends.

use std::fmt::Write as _;

use super::piece::{Piece, DEFINITION, LONGEST_LINE};
use super::reduced::{reduced, Reduced};
use super::Labels;
use crate::table::{Table, Term};

/// A shared part longer than this gets a name; shorter ones are written again.
const LONGEST_SHARED: usize = 40;

struct Layout<'a> {
    reduced: Reduced,
    labels: &'a Labels,
    /// The names of terms that have a definition of their own.
    names: Vec<Option<String>>,
    shared: Vec<bool>,
}

/// The readable text of a table; it rebuilds the reduced table.
#[must_use]
pub fn readable(table: &Table, labels: &Labels) -> String {
    let mut layout = Layout::new(table, labels);
    let pieces = layout.settled();
    layout.written(table, &pieces)
}

impl<'a> Layout<'a> {
    fn new(table: &Table, labels: &'a Labels) -> Layout<'a> {
        let reduced = reduced(table);
        let mut names = vec![None; reduced.terms.len()];
        for (old, name) in &labels.terms {
            let new = reduced.new_number.get(usize::from(*old)).copied().flatten();
            if let Some(slot) = new.and_then(|new| names.get_mut(usize::from(new))) {
                slot.get_or_insert_with(|| name.clone());
            }
        }
        let mut uses = vec![0_usize; reduced.terms.len()];
        for reference in reduced.terms.iter().flat_map(|term| term.references()) {
            if let Some(count) = uses.get_mut(usize::from(reference)) {
                *count += 1;
            }
        }
        Layout {
            shared: uses.into_iter().map(|count| count > 1).collect(),
            reduced,
            labels,
            names,
        }
    }

    /// Names terms until lines are short enough and the order is right.
    fn settled(&mut self) -> Vec<Piece> {
        loop {
            let named = self.how_many_named();
            let pieces = self.pieces();
            if self.how_many_named() > named {
                continue;
            }
            match self.first_out_of_turn() {
                Some(due) => self.name(due),
                None => return pieces,
            }
        }
    }

    fn is_named(&self, number: u8) -> bool {
        self.names
            .get(usize::from(number))
            .is_some_and(Option::is_some)
    }

    fn how_many_named(&self) -> usize {
        self.names.iter().flatten().count()
    }

    fn name(&mut self, number: u8) {
        let process = self.term(number).is_process();
        let letter = if process { 'r' } else { 'p' };
        let name = self.labels.unused(format!("{letter}{number}"));
        if let Some(slot) = self.names.get_mut(usize::from(number)) {
            slot.get_or_insert(name);
        }
    }

    fn term(&self, number: u8) -> Term {
        let term = self.reduced.terms.get(usize::from(number));
        term.copied().unwrap_or(Term::Nothing)
    }

    /// Every term as its definition would say it. Terms that make a line too
    /// long, or that are shared and long, get a name on the way.
    fn pieces(&mut self) -> Vec<Piece> {
        let mut pieces: Vec<Piece> = Vec::new();
        for number in (0..=u8::MAX).take(self.reduced.terms.len()) {
            let mut piece = self.body(number, &pieces);
            while DEFINITION + piece.width() > LONGEST_LINE {
                let Some(longest) = self.longest_inner(number, &pieces) else {
                    break;
                };
                self.name(longest);
                piece = self.body(number, &pieces);
            }
            let shared = self.shared.get(usize::from(number)) == Some(&true);
            if shared && piece.words.len() > LONGEST_SHARED {
                self.name(number);
            }
            pieces.push(piece);
        }
        pieces
    }

    /// The longest inner part that has no name yet.
    fn longest_inner(&self, number: u8, pieces: &[Piece]) -> Option<u8> {
        let length = |number: &u8| pieces.get(usize::from(*number)).map(|it| it.words.len());
        let inner = self.term(number).references();
        let unnamed = inner.into_iter().filter(|inner| !self.is_named(*inner));
        unnamed
            .filter(|inner| !self.term(*inner).references().is_empty())
            .max_by_key(length)
    }

    /// A term where it is used: its name, or its words.
    fn used(&self, number: u8, pieces: &[Piece]) -> Piece {
        let name = self.names.get(usize::from(number)).cloned().flatten();
        match name {
            Some(name) => Piece::closed(name),
            None => pieces
                .get(usize::from(number))
                .cloned()
                .unwrap_or_else(|| Piece::closed("")),
        }
    }

    /// A term as its definition says it.
    fn body(&self, number: u8, pieces: &[Piece]) -> Piece {
        let used = |number| self.used(number, pieces);
        let tray = |number| self.labels.tray(number);
        match self.term(number) {
            Term::Nothing => Piece::closed("nothing"),
            Term::End => Piece::closed("end"),
            Term::Retry => Piece::closed("retry"),
            Term::Put { tray: t } => Piece::closed(format!("put {}", tray(t))),
            Term::Block { body } => Piece::block(&used(body)),
            Term::Take { tray: t, then } => {
                Piece::take(&format!("take {} then ", tray(t)), &used(then))
            }
            Term::Repeatedly { tray: t, then } => {
                let before = format!("repeatedly take {} then ", tray(t));
                Piece::take(&before, &used(then))
            }
            Term::NoteTake { tray: t, rest } => {
                Piece::step(&format!("take {}, ", tray(t)), &used(rest))
            }
            Term::NotePut { tray: t, rest } => {
                Piece::step(&format!("put {}, ", tray(t)), &used(rest))
            }
            Term::OrElse { left, right } => Piece::or_else(&used(left), &used(right)),
            Term::Beside { left, right } => self.beside(left, right, pieces),
        }
    }

    /// Two processes side by side: `n of P` where they are so many of one,
    /// grouped as assembly groups them.
    fn beside(&self, left: u8, right: u8, pieces: &[Piece]) -> Piece {
        let first = self.used(left, pieces);
        let second = self.used(right, pieces);
        let times = |number, piece: &Piece| piece.copies.unwrap_or((1, number));
        let (of_left, one) = times(left, &first);
        let (of_right, other) = times(right, &second);
        if one == other && (of_left == of_right || of_left == of_right + 1) {
            return Piece::several(of_left + of_right, one, &self.used(one, pieces));
        }
        Piece::beside(&first, &second)
    }

    /// The term that was due where assembly would first lay down another one.
    fn first_out_of_turn(&self) -> Option<u8> {
        let mut due: u8 = 0;
        let numbers = (0..=u8::MAX).take(self.names.len());
        let mut definitions: Vec<u8> = numbers.filter(|number| self.is_named(*number)).collect();
        definitions.push(self.reduced.start);
        for definition in definitions {
            let mut to_lay = vec![(definition, false)];
            while let Some((number, inner_laid)) = to_lay.pop() {
                if number < due {
                    continue;
                }
                if !inner_laid {
                    to_lay.push((number, true));
                    let inner = self.term(number).references();
                    to_lay.extend(inner.into_iter().rev().map(|inner| (inner, false)));
                } else if number == due {
                    due = due.saturating_add(1);
                } else {
                    return Some(due);
                }
            }
        }
        None
    }

    fn written(&self, table: &Table, pieces: &[Piece]) -> String {
        let mut text = String::new();
        let counts = table.counts();
        for tray in self.labels.trays_of(table) {
            let _ = match counts.get(usize::from(tray)).copied().unwrap_or(0) {
                0 => writeln!(text, "tray {tray} {}", self.labels.tray(tray)),
                count => writeln!(text, "tray {tray} {} has {count}", self.labels.tray(tray)),
            };
        }
        text.push('\n');
        for ((term, name), piece) in self.reduced.terms.iter().zip(&self.names).zip(pieces) {
            if let Some(name) = name {
                let word = if term.is_process() { "rule" } else { "plan" };
                let _ = writeln!(text, "{word} {name} is{}", piece.laid_out());
            }
        }
        if self.names.iter().any(Option::is_some) {
            text.push('\n');
        }
        let _ = writeln!(
            text,
            "start{}",
            self.used(self.reduced.start, pieces).laid_out()
        );
        text
    }
}
