//! The ways of a block, in words and with what they need.
//!
//! Only accepted tables come here: a block has at most 8 ways of 16 steps.

use crate::stations::{takes, Action};
use crate::table::{Counts, Table, Term};
use crate::text::tree::Program;

/// One way through a block.
#[derive(Clone, Debug, PartialEq, Eq)]
pub struct Way {
    /// Its steps.
    pub actions: Vec<Action>,
    /// Whether it finishes in `end`; the others give up.
    pub ends: bool,
}

impl Way {
    /// How many tokens of each tray it takes.
    #[must_use]
    pub fn needs(&self) -> Counts {
        takes(&self.actions)
    }

    /// Whether it can be gone to its end where the trays have this much.
    #[must_use]
    pub fn readable(&self, counts: &Counts) -> bool {
        self.ends && within(&self.needs(), counts)
    }
}

/// Whether no tray is short.
#[must_use]
pub fn within(needs: &Counts, counts: &Counts) -> bool {
    needs.iter().zip(counts).all(|(need, count)| need <= count)
}

/// The trays that are short, and by how many.
#[must_use]
pub fn shortages(needs: &Counts, counts: &Counts) -> Vec<(u8, u8)> {
    (0..)
        .zip(needs.iter().zip(counts))
        .filter(|(_, (need, count))| need > count)
        .map(|(tray, (need, count))| (tray, need - count))
        .collect()
}

/// The ways of an expression, in the order in which they are tried.
#[must_use]
pub fn ways(table: &Table, expression: u8) -> Vec<Way> {
    let stepped = |action, rest| {
        let mut all = ways(table, rest);
        for way in &mut all {
            way.actions.insert(0, action);
        }
        all
    };
    match table.term(expression) {
        Term::NoteTake { tray, rest } => stepped(Action::Take(tray), rest),
        Term::NotePut { tray, rest } => stepped(Action::Put(tray), rest),
        Term::OrElse { left, right } => {
            let mut all = ways(table, left);
            all.extend(ways(table, right));
            all
        }
        term => vec![Way {
            actions: Vec::new(),
            ends: term == Term::End,
        }],
    }
}

/// The ways of a block, by its term.
#[must_use]
pub fn ways_of_block(table: &Table, block: u8) -> Vec<Way> {
    match table.term(block) {
        Term::Block { body } => ways(table, body),
        _ => Vec::new(),
    }
}

/// The trays that a block's ways may take from.
#[must_use]
pub fn trays_taken(table: &Table, block: u8) -> Vec<u8> {
    let mut trays: Vec<u8> = ways_of_block(table, block)
        .iter()
        .flat_map(|way| way.actions.iter())
        .filter_map(|action| match *action {
            Action::Take(tray) => Some(tray),
            Action::Put(_) => None,
        })
        .collect();
    trays.sort_unstable();
    trays.dedup();
    trays
}

/// Steps in words; three or more equal ones in a row are counted.
#[must_use]
pub fn action_words(program: &Program, actions: &[Action]) -> String {
    let mut words: Vec<String> = Vec::new();
    let mut rest = actions;
    while let Some(action) = rest.first() {
        let equal = rest.iter().take_while(|other| *other == action).count();
        let word = match *action {
            Action::Take(tray) => format!("take {}", program.tray_name(tray)),
            Action::Put(tray) => format!("put {}", program.tray_name(tray)),
        };
        if equal >= 3 {
            words.push(format!("{word} x{equal}"));
        } else {
            words.extend(std::iter::repeat(word).take(equal));
        }
        rest = rest.get(equal..).unwrap_or(&[]);
    }
    words.join(", ")
}

/// Notes in words: `none` where there are none.
#[must_use]
pub fn notes(program: &Program, actions: &[Action]) -> String {
    if actions.is_empty() {
        "none".to_owned()
    } else {
        action_words(program, actions)
    }
}

/// An expression in the words of a text.
#[must_use]
pub fn expression_words(table: &Table, program: &Program, expression: u8) -> String {
    let mut actions = Vec::new();
    let mut at = expression;
    let last = loop {
        match table.term(at) {
            Term::NoteTake { tray, rest } => {
                actions.push(Action::Take(tray));
                at = rest;
            }
            Term::NotePut { tray, rest } => {
                actions.push(Action::Put(tray));
                at = rest;
            }
            term => break term,
        }
    };
    let finish = match last {
        Term::OrElse { left, right } => {
            let first = expression_words(table, program, left);
            let first = match table.term(left) {
                Term::OrElse { .. } => format!("({first})"),
                _ => first,
            };
            let second = expression_words(table, program, right);
            let both = format!("{first} or else {second}");
            if actions.is_empty() {
                both
            } else {
                format!("({both})")
            }
        }
        Term::Retry => "retry".to_owned(),
        _ => "end".to_owned(),
    };
    if actions.is_empty() {
        finish
    } else {
        format!("{}, {finish}", action_words(program, &actions))
    }
}

/// Trays with a count each: `batch 1, screen 0`.
#[must_use]
pub fn tray_counts(program: &Program, trays: &[u8], counts: &Counts) -> String {
    let words: Vec<String> = trays
        .iter()
        .map(|tray| format!("{} {}", program.tray_name(*tray), count_of(counts, *tray)))
        .collect();
    words.join(", ")
}

/// The count of a tray.
#[must_use]
pub fn count_of(counts: &Counts, tray: u8) -> u8 {
    counts.get(usize::from(tray)).copied().unwrap_or(0)
}

/// The trays whose count is not 0.
#[must_use]
pub fn trays_counted(counts: &Counts) -> Vec<u8> {
    (0..)
        .zip(counts)
        .filter(|(_, count)| **count > 0)
        .map(|(tray, _)| tray)
        .collect()
}

/// Shortages in words: `screen is short by 1`.
#[must_use]
pub fn shortage_words(program: &Program, shortages: &[(u8, u8)]) -> String {
    let words: Vec<String> = shortages
        .iter()
        .map(|(tray, by)| format!("{} is short by {by}", program.tray_name(*tray)))
        .collect();
    words.join(", ")
}
