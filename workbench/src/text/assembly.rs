//! From a text's tree to the bytes of a table.
//!
//! Rules and plans that the start uses are laid down in the order of the text,
//! then the start, each with its inner parts first, left to right. A record
//! equal to an earlier one is that one. Then come the tokens by tray, and the
//! start record. No limit is looked at but one: behind the 201st term nothing
//! is laid down, since no reference could name it; the engine refuses it there.

use std::collections::HashMap;

use super::source::Span;
use super::tree::{PartId, PartKind, Program};
use crate::table::Term;

/// The engine has room for 200 terms.
const MOST_TERMS: usize = 200;

/// The bytes of a text.
#[derive(Clone, Debug, Default, PartialEq, Eq)]
pub struct Assembled {
    /// The table.
    pub bytes: Vec<u8>,
    /// Where each record begins in the bytes, and the words that made it: of
    /// shared parts the first in the text.
    pub places: Vec<(usize, Span)>,
    /// The term of each rule or plan that is used.
    pub terms: Vec<Option<u8>>,
}

/// There are more than 200 terms: the bytes end with the 201st.
#[derive(Debug)]
struct Full;

struct Assembler<'a> {
    program: &'a Program,
    laid: Assembled,
    numbers: HashMap<Term, u8>,
    of_part: HashMap<PartId, u8>,
}

/// The bytes of a text, whether the engine accepts them or not.
#[must_use]
pub fn assemble(program: &Program) -> Assembled {
    let mut assembler = Assembler {
        program,
        laid: Assembled::default(),
        numbers: HashMap::new(),
        of_part: HashMap::new(),
    };
    // Full or not, what was laid down is what the engine is asked about.
    let _ = assembler.all();
    assembler.laid
}

/// Which rules and plans the start uses, directly or through others.
#[must_use]
pub fn used_definitions(program: &Program) -> Vec<bool> {
    let mut used = vec![false; program.definitions.len()];
    let mut seen = vec![false; program.parts.len()];
    let mut to_see = vec![program.start];
    while let Some(part) = to_see.pop() {
        if seen.get(part).copied().unwrap_or(true) {
            continue;
        }
        if let Some(slot) = seen.get_mut(part) {
            *slot = true;
        }
        if let PartKind::Named(index) = program.part(part).kind {
            if let Some(slot) = used.get_mut(index) {
                *slot = true;
            }
        }
        to_see.extend(inner(program, part));
    }
    used
}

/// The parts that a part is made of, the left one first.
fn inner(program: &Program, part: PartId) -> Vec<PartId> {
    match program.part(part).kind {
        PartKind::Nothing | PartKind::Put(_) | PartKind::End | PartKind::Retry => vec![],
        PartKind::Take(_, inner)
        | PartKind::Repeatedly(_, inner)
        | PartKind::NoteTake(_, inner)
        | PartKind::NotePut(_, inner)
        | PartKind::Copies(_, inner)
        | PartKind::Block(inner) => vec![inner],
        PartKind::Beside(left, right) | PartKind::OrElse(left, right) => vec![left, right],
        PartKind::Named(index) => program
            .definitions
            .get(index)
            .map(|definition| definition.body)
            .into_iter()
            .collect(),
    }
}

impl Assembler<'_> {
    fn all(&mut self) -> Result<(), Full> {
        let used = used_definitions(self.program);
        self.laid.terms = vec![None; used.len()];
        for (index, definition) in self.program.definitions.iter().enumerate() {
            if used.get(index) == Some(&true) {
                let term = self.lay(definition.body)?;
                if let Some(slot) = self.laid.terms.get_mut(index) {
                    *slot = Some(term);
                }
            }
        }
        let start = self.lay(self.program.start)?;
        let span = self.program.part(self.program.start).span;
        let mut trays: Vec<_> = self.program.trays.iter().collect();
        trays.sort_by_key(|tray| tray.number);
        for tray in trays.into_iter().filter(|tray| tray.count > 0) {
            self.record(&[12, tray.number, tray.count], tray.span);
        }
        self.record(&[13, start], span);
        Ok(())
    }

    fn record(&mut self, bytes: &[u8], span: Span) {
        self.laid.places.push((self.laid.bytes.len(), span));
        self.laid.bytes.extend(bytes);
    }

    /// Lays a part down, inner parts first, and gives its term. A part is met
    /// twice: before its inner parts and behind them.
    fn lay(&mut self, part: PartId) -> Result<u8, Full> {
        let mut to_lay = vec![(part, false)];
        while let Some((part, inner_laid)) = to_lay.pop() {
            if self.of_part.contains_key(&part) {
                continue;
            }
            if inner_laid {
                let term = self.lay_outer(part)?;
                self.of_part.insert(part, term);
            } else {
                to_lay.push((part, true));
                let inner = inner(self.program, part);
                to_lay.extend(inner.into_iter().rev().map(|part| (part, false)));
            }
        }
        Ok(self.term_of(part))
    }

    /// The term of a part that was laid down.
    fn term_of(&self, part: PartId) -> u8 {
        self.of_part.get(&part).copied().unwrap_or(u8::MAX)
    }

    /// A part whose inner parts were laid down.
    fn lay_outer(&mut self, part: PartId) -> Result<u8, Full> {
        let span = self.program.part(part).span;
        let of = |part| self.term_of(part);
        let term = match self.program.part(part).kind {
            PartKind::Nothing => Term::Nothing,
            PartKind::Put(tray) => Term::Put { tray },
            PartKind::Take(tray, then) => Term::Take {
                tray,
                then: of(then),
            },
            PartKind::Repeatedly(tray, then) => Term::Repeatedly {
                tray,
                then: of(then),
            },
            PartKind::Beside(left, right) => Term::Beside {
                left: of(left),
                right: of(right),
            },
            PartKind::Block(body) => Term::Block { body: of(body) },
            PartKind::End => Term::End,
            PartKind::Retry => Term::Retry,
            PartKind::NoteTake(tray, rest) => Term::NoteTake {
                tray,
                rest: of(rest),
            },
            PartKind::NotePut(tray, rest) => Term::NotePut {
                tray,
                rest: of(rest),
            },
            PartKind::OrElse(left, right) => Term::OrElse {
                left: of(left),
                right: of(right),
            },
            PartKind::Copies(count, one) => return self.copies(of(one), count, span),
            PartKind::Named(index) => {
                let body = self.program.definitions.get(index).map(|it| it.body);
                return Ok(body.map_or(u8::MAX, of));
            }
        };
        self.term(term, span)
    }

    /// So many of a term side by side, grouped in halves.
    fn copies(&mut self, one: u8, count: u8, span: Span) -> Result<u8, Full> {
        if count <= 1 {
            return Ok(one);
        }
        let right = count / 2;
        let left = self.copies(one, count - right, span)?;
        let right = self.copies(one, right, span)?;
        self.term(Term::Beside { left, right }, span)
    }

    /// The number of a term, which is laid down unless it is there already.
    fn term(&mut self, term: Term, span: Span) -> Result<u8, Full> {
        if let Some(number) = self.numbers.get(&term) {
            return Ok(*number);
        }
        let number = self.numbers.len();
        self.record(&term.record(), span);
        if number >= MOST_TERMS {
            return Err(Full);
        }
        let number = u8::try_from(number).map_err(|_| Full)?;
        self.numbers.insert(term, number);
        Ok(number)
    }
}
