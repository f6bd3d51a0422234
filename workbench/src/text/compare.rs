//! A table that the engine accepted, compared with the text it was made of.
//!
//! This shares nothing with the assembler: it goes from the start of both, part
//! by part against term by term, and says whether the table means the text.

use std::collections::HashSet;

use super::tree::{PartId, PartKind, Program};
use crate::table::{Record, Table, Term};

/// Whether the table is the text's: the same counts, and from the start on the
/// same terms once names are followed.
#[must_use]
pub fn means(table: &Table, program: &Program) -> bool {
    let trays = table.counts() == program.counts();
    trays && records_in_order(table) && same(table, program)
}

/// Terms first, then tokens by tray, then the start: a table of a text has its
/// records in this order.
fn records_in_order(table: &Table) -> bool {
    let rank = |record: &Record| match *record {
        Record::Term(_) => (0, 0),
        Record::Tokens { tray, .. } => (1, tray),
        Record::Start(_) => (2, 0),
    };
    let ranks: Vec<_> = table.records().iter().map(rank).collect();
    ranks.windows(2).all(|pair| pair.first() <= pair.last())
}

/// Pairs that were seen are remembered, so that shared parts stay cheap.
fn same(table: &Table, program: &Program) -> bool {
    let mut seen: HashSet<(PartId, u8, u8)> = HashSet::new();
    let mut pairs = vec![(program.start, 1, table.start())];
    while let Some((part, copies, term)) = pairs.pop() {
        if !seen.insert((part, copies, term)) {
            continue;
        }
        match inner_pairs(
            program.part(part).kind,
            copies,
            table.term(term),
            part,
            term,
        ) {
            Some(inner) => pairs.extend(inner),
            None => return false,
        }
        if let PartKind::Named(index) = program.part(part).kind {
            let Some(definition) = program.definitions.get(index) else {
                return false;
            };
            pairs.push((definition.body, copies, term));
        }
    }
    true
}

/// What has to be equal inside, where the outsides are; none where they are not.
fn inner_pairs(
    kind: PartKind,
    copies: u8,
    term: Term,
    part: PartId,
    number: u8,
) -> Option<Vec<(PartId, u8, u8)>> {
    if copies > 1 {
        let Term::Beside { left, right } = term else {
            return None;
        };
        return Some(vec![
            (part, copies - copies / 2, left),
            (part, copies / 2, right),
        ]);
    }
    let one = |part, term| Some(vec![(part, 1, term)]);
    match (kind, term) {
        (PartKind::Nothing, Term::Nothing)
        | (PartKind::End, Term::End)
        | (PartKind::Retry, Term::Retry)
        | (PartKind::Named(_), _) => Some(vec![]),
        (PartKind::Copies(count, of), _) => Some(vec![(of, count, number)]),
        (PartKind::Put(a), Term::Put { tray: b }) if a == b => Some(vec![]),
        (PartKind::Take(a, then), Term::Take { tray: b, then: to })
        | (PartKind::Repeatedly(a, then), Term::Repeatedly { tray: b, then: to })
        | (PartKind::NoteTake(a, then), Term::NoteTake { tray: b, rest: to })
        | (PartKind::NotePut(a, then), Term::NotePut { tray: b, rest: to })
            if a == b =>
        {
            one(then, to)
        }
        (PartKind::Block(ways), Term::Block { body }) => one(ways, body),
        (PartKind::Beside(a, b), Term::Beside { left, right })
        | (PartKind::OrElse(a, b), Term::OrElse { left, right }) => {
            Some(vec![(a, 1, left), (b, 1, right)])
        }
        _ => None,
    }
}
