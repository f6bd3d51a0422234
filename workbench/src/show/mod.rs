//! From a table back to text: readable, or exact.
//!
//! The readable text rebuilds the reduced ([`reduced`]) table to the byte, the
//! exact text the very table.

mod exact;
mod layout;
mod piece;
pub mod reduced;

use std::collections::BTreeMap;

use crate::table::Table;
use crate::text::tree::Program;
use crate::text::words;

pub use exact::exact;
pub use layout::readable;

/// Names for the trays and terms of a table.
#[derive(Clone, Debug, Default, PartialEq, Eq)]
pub struct Labels {
    trays: BTreeMap<u8, String>,
    terms: BTreeMap<u8, String>,
}

impl Labels {
    /// The names of a text; `terms` are the terms of its rules and plans.
    #[must_use]
    pub fn of_text(program: &Program, terms: &[Option<u8>]) -> Labels {
        let mut labels = Labels::default();
        for tray in &program.trays {
            labels.trays.insert(tray.number, tray.name.clone());
        }
        for (definition, term) in program.definitions.iter().zip(terms) {
            if let Some(term) = term {
                let name = || definition.name.clone();
                labels.terms.entry(*term).or_insert_with(name);
            }
        }
        labels
    }

    fn tray(&self, number: u8) -> String {
        self.trays
            .get(&number)
            .cloned()
            .unwrap_or_else(|| self.unused(format!("t{number}")))
    }

    /// The trays to name: those in use, and those that the text named.
    fn trays_of(&self, table: &Table) -> Vec<u8> {
        let mut trays = table.trays_in_use();
        trays.extend(self.trays.keys());
        trays.sort_unstable();
        trays.dedup();
        trays
    }

    /// A name that nothing else has: this one, or this one with a tail.
    fn unused(&self, name: String) -> String {
        let taken = |name: &String| {
            words::reserved(name)
                || self.trays.values().any(|other| other == name)
                || self.terms.values().any(|other| other == name)
        };
        let mut free = name;
        while taken(&free) {
            free.push('x');
        }
        free
    }
}
