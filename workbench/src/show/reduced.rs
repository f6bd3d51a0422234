//! The reduced table: the terms that the start uses, of equal ones the first,
//! in their old order; behind them the tokens by tray, then the start. It means
//! the same as the table: each choice gets the same answer in both.

use std::collections::HashMap;

use crate::table::{Table, Term};

/// A reduced table.
#[derive(Clone, Debug, PartialEq, Eq)]
pub struct Reduced {
    /// Its terms.
    pub terms: Vec<Term>,
    /// Its start.
    pub start: u8,
    /// The new number of each old term that is kept or has an equal.
    pub new_number: Vec<Option<u8>>,
}

/// Reduces a table.
#[must_use]
pub fn reduced(table: &Table) -> Reduced {
    let used = used(table);
    let mut terms = Vec::new();
    let mut numbers: HashMap<Term, u8> = HashMap::new();
    let mut new_number: Vec<Option<u8>> = Vec::new();
    for (term, used) in table.terms().iter().zip(used) {
        if !used {
            new_number.push(None);
            continue;
        }
        let renumbered = term.with_references(|old| number_of(&new_number, old));
        let number = *numbers.entry(renumbered).or_insert_with(|| {
            terms.push(renumbered);
            u8::try_from(terms.len() - 1).unwrap_or(u8::MAX)
        });
        new_number.push(Some(number));
    }
    Reduced {
        start: number_of(&new_number, table.start()),
        terms,
        new_number,
    }
}

fn number_of(new_number: &[Option<u8>], old: u8) -> u8 {
    let number = new_number.get(usize::from(old)).copied().flatten();
    number.unwrap_or(u8::MAX)
}

/// Which terms the start uses. A reference goes to an earlier term, so one pass
/// from the back finds them all.
fn used(table: &Table) -> Vec<bool> {
    let mut used = vec![false; table.terms().len()];
    let mark = |used: &mut Vec<bool>, number: u8| {
        if let Some(slot) = used.get_mut(usize::from(number)) {
            *slot = true;
        }
    };
    mark(&mut used, table.start());
    for (number, term) in table.terms().iter().enumerate().rev() {
        if used.get(number) == Some(&true) {
            for reference in term.references() {
                mark(&mut used, reference);
            }
        }
    }
    used
}

impl Reduced {
    /// The bytes of the reduced table, with the counts of the table it is from.
    #[must_use]
    pub fn bytes(&self, table: &Table) -> Vec<u8> {
        let mut bytes: Vec<u8> = self.terms.iter().flat_map(|term| term.record()).collect();
        for (tray, count) in (0..).zip(table.counts()) {
            if count > 0 {
                bytes.extend([12, tray, count]);
            }
        }
        bytes.extend([13, self.start]);
        bytes
    }
}
