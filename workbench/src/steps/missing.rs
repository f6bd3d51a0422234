//! What an attempt found too little of, and who has it.

use std::collections::BTreeMap;

use crate::names::Identity;
use crate::rehearsal::{Happened, Moment};
use crate::stations::Station;
use crate::table::{Counts, Table, Term};
use crate::text::tree::Program;
use crate::ways::{count_of, shortages, Way};

use super::Step;

/// Who took the last token of a tray.
#[derive(Clone, Debug)]
struct Taker {
    /// Its name, as it is spoken of.
    name: String,
    /// Those that it laid down by taking, else itself.
    hands: Vec<Identity>,
}

/// Who took from which tray last.
#[derive(Clone, Debug, Default)]
pub struct Missing {
    takers: BTreeMap<u8, Taker>,
}

impl Missing {
    /// Keeps in mind who took, after a step.
    pub(super) fn moved(&mut self, happened: &Happened, step: &Step) {
        let position = happened.position();
        for change in step.changes.iter().filter(|it| it.to < it.from) {
            let came = step.came.iter().map(|(identity, _)| identity);
            let itself = step.station.iter().filter(|_| step.came.is_empty());
            let taker = Taker {
                name: happened.before.names.spoken(position),
                hands: came.chain(itself).cloned().collect(),
            };
            self.takers.insert(change.tray, taker);
        }
    }

    /// Why none of these ways could be gone with these counts: for each the first
    /// tray that is short.
    pub(super) fn of_ways(
        &self,
        program: &Program,
        table: &Table,
        ways: &[Way],
        counts: &Counts,
        now: Option<&Moment>,
    ) -> String {
        let mut told: Vec<(u8, u8)> = Vec::new();
        for way in ways.iter().filter(|way| way.ends) {
            for (tray, by) in shortages(&way.needs(), counts).into_iter().take(1) {
                if !told.contains(&(tray, by)) {
                    told.push((tray, by));
                }
            }
        }
        let words: Vec<String> = told
            .into_iter()
            .map(|(tray, by)| {
                let there = count_of(counts, tray);
                self.words(program, table, (tray, by, there), now)
            })
            .collect();
        words.join("; ")
    }

    /// `no screen: the guest has it`, for a tray that is short by so many where so
    /// many are there. Who has it is known of the hall as it stands now alone.
    pub(super) fn words(
        &self,
        program: &Program,
        table: &Table,
        (tray, by, there): (u8, u8, u8),
        now: Option<&Moment>,
    ) -> String {
        let name = program.tray_name(tray);
        let short = match there {
            0 => format!("no {name}"),
            _ => format!("{name} short by {by}"),
        };
        let holder = now.and_then(|now| self.holder(table, tray, now));
        match holder {
            // Where none is there, whoever took last took the last one.
            Some(holder) if there == 0 => format!("{short}: {holder} it"),
            _ => short,
        }
    }

    /// Who took from a tray last: `the guest has`, where it can still put the
    /// token back, else `the guest took`.
    fn holder(&self, table: &Table, tray: u8, now: &Moment) -> Option<String> {
        let taker = self.takers.get(&tray)?;
        let holds = |identity: &Identity| {
            let position = now.names.position_of(identity)?;
            let station = now.stations.get(position)?;
            may_put(table, station, tray).then(|| now.names.spoken(position))
        };
        Some(match taker.hands.iter().find_map(holds) {
            Some(name) => format!("{name} has"),
            None => format!("{} took", taker.name),
        })
    }
}

/// Whether a station puts into a tray now or later.
fn may_put(table: &Table, station: &Station, tray: u8) -> bool {
    let first = match station {
        Station::Putting(other) => return *other == tray,
        Station::Waiting(term) => *term,
        Station::Attempt(attempt) => attempt.block,
    };
    let mut seen = [false; 256];
    let mut to_see = vec![first];
    while let Some(term) = to_see.pop() {
        if seen
            .get_mut(usize::from(term))
            .map_or(true, |seen| std::mem::replace(seen, true))
        {
            continue;
        }
        match table.term(term) {
            Term::Put { tray: other } if other == tray => return true,
            Term::NotePut { tray: other, rest } => {
                if other == tray {
                    return true;
                }
                to_see.push(rest);
            }
            Term::Take { then, .. } | Term::Repeatedly { then, .. } => to_see.push(then),
            Term::NoteTake { rest, .. } => to_see.push(rest),
            Term::Block { body } => to_see.push(body),
            Term::Beside { left, right } | Term::OrElse { left, right } => {
                to_see.extend([left, right]);
            }
            Term::Put { .. } | Term::Nothing | Term::End | Term::Retry => {}
        }
    }
    false
}
