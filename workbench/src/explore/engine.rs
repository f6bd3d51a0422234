//! Every way a hall can go, by the library's own steps.
//!
//! Every position and every node is tried on every hall: nothing of the rules is
//! known here. This finds faults of an engine, where the other exploration finds
//! faults of rules; it is for small halls.

use std::collections::HashMap;

use ruonfidd::{Choice, Hall, Refusal, Tally, HALL_BYTES};

use crate::stations;
use crate::table::Table;

use super::components::{bottom_components, Edges};
use super::model::Model;
use super::search::{Cut, Limits};
use super::store::{Index, Kept, NoRoom, Store};

/// What was found by the library's steps.
#[derive(Clone, Debug)]
pub struct EngineFound {
    /// The halls: their bytes without the zeros at the end.
    pub halls: Store,
    /// The situations of these halls, open attempts read as blocks not begun.
    pub situations: Store,
    /// For each situation the first hall that was seen to have it.
    pub first_hall: Vec<Index>,
    /// How many steps there are between the halls.
    pub steps: u64,
    /// The situations that some hall never leaves.
    pub ends: Vec<Index>,
    /// The sets of two situations or more that some hall never leaves, and all
    /// of which it can come to from each of them.
    pub rounds: Vec<Vec<Index>>,
    /// For each situation of an end or a round the first hall that has it and
    /// never leaves what it is in.
    pub last_halls: HashMap<Index, Index>,
    /// Whether some choice was refused 19.
    pub full_hall: bool,
    /// Whether some choice was refused 20.
    pub full_tray: bool,
    /// Why not all was seen.
    pub cut: Option<Cut>,
}

/// Why there is no answer.
#[derive(Clone, Debug, PartialEq, Eq)]
pub enum Failed {
    /// The engine refused a hall that it had made.
    Refused(Refusal),
    /// A hall of the engine has no situation of the table's.
    NoSituation,
}

/// How many halls are gone through between two looks at the limits.
const BETWEEN_LOOKS: u32 = 1 << 8;

/// Shown now and then what was found so far, and how many halls are done with;
/// gives why the search has to stop.
pub type Watch<'a> = dyn FnMut(&EngineFound, Index) -> Option<Cut> + 'a;

/// Goes through every hall, or as many as the limits allow. What is never left is
/// looked for now and then; that takes no steps of the engine.
///
/// # Errors
///
/// Where the engine contradicts itself.
pub fn engine_search(
    table: &Table,
    limits: Limits,
    watch: &mut Watch<'_>,
) -> Result<EngineFound, Failed> {
    let (hall, _) = Hall::open(table.bytes()).map_err(Failed::Refused)?;
    let mut search = Search {
        table,
        model: Model::of(table),
        found: EngineFound {
            halls: Store::new(),
            situations: Store::new(),
            first_hall: Vec::new(),
            steps: 0,
            ends: Vec::new(),
            rounds: Vec::new(),
            last_halls: HashMap::new(),
            full_hall: false,
            full_tray: false,
            cut: None,
        },
        situation_of: Vec::new(),
        edges: Edges::default(),
    };
    search.keep(&hall, 0)?;
    let mut index = 0;
    let mut next_ends = BETWEEN_LOOKS;
    while search.found.cut.is_none() && place(index) < search.found.halls.len() {
        if index % BETWEEN_LOOKS == 0 {
            if index >= next_ends {
                search.find_ends();
                next_ends = index.saturating_add(index / 2);
            }
            let met = limits.met(search.memory());
            search.found.cut = met.or_else(|| watch(&search.found, index));
            if search.found.cut.is_some() {
                break;
            }
        }
        search.go_on(index)?;
        index += 1;
    }
    search.find_ends();
    Ok(search.found)
}

fn place(index: Index) -> usize {
    usize::try_from(index).unwrap_or(usize::MAX)
}

struct Search<'a> {
    table: &'a Table,
    model: Model,
    found: EngineFound,
    /// For each hall its situation.
    situation_of: Vec<Index>,
    /// The steps between halls.
    edges: Edges,
}

impl Search<'_> {
    fn go_on(&mut self, index: Index) -> Result<(), Failed> {
        let hall = self.found.hall(self.table, index)?;
        let mut refusals = Vec::new();
        let mut reached = Vec::new();
        each_choice(self.table, &hall, |_, answer| match answer {
            Ok(next) => reached.push(next.clone()),
            Err(number) => refusals.push(number),
        });
        self.found.full_hall |= refusals.contains(&19);
        self.found.full_tray |= refusals.contains(&20);
        for next in reached {
            self.found.steps += 1;
            let Some(to) = self.keep(&next, index)? else {
                return Ok(());
            };
            self.edges.add(to);
        }
        self.edges.close();
        Ok(())
    }

    /// Keeps a hall and its situation; none where there is no room.
    fn keep(&mut self, hall: &Hall, parent: Index) -> Result<Option<Index>, Failed> {
        match self.found.halls.keep(without_zeros(hall), parent) {
            Ok(Kept::Known(index)) => Ok(Some(index)),
            Ok(Kept::New(index)) => {
                let kept = self.keep_situation(hall, index)?;
                Ok(kept.ok().map(|()| index))
            }
            Err(NoRoom) => {
                self.found.cut = Some(Cut::Memory);
                Ok(None)
            }
        }
    }

    fn keep_situation(&mut self, hall: &Hall, index: Index) -> Result<Result<(), NoRoom>, Failed> {
        let stations = stations::stations(hall).ok_or(Failed::NoSituation)?;
        let situation = self
            .model
            .situation(&stations::counts(hall), &stations)
            .ok_or(Failed::NoSituation)?;
        match self.found.situations.keep(&situation, 0) {
            Ok(Kept::New(number)) => {
                self.found.first_hall.push(index);
                self.situation_of.push(number);
            }
            Ok(Kept::Known(number)) => self.situation_of.push(number),
            Err(NoRoom) => {
                self.found.cut = Some(Cut::Memory);
                return Ok(Err(NoRoom));
            }
        }
        Ok(Ok(()))
    }

    /// What halls never leave, of those that were gone on from: one situation is an
    /// end, several are a round. Such a set stays one, whatever is found later.
    fn find_ends(&mut self) {
        self.found.ends.clear();
        self.found.rounds.clear();
        let mut sets: Vec<Vec<Index>> = Vec::new();
        for halls in bottom_components(&self.edges) {
            let mut set = Vec::new();
            for hall in halls {
                let situation = self.situation_of.get(hall).copied().unwrap_or(0);
                let hall = Index::try_from(hall).unwrap_or(0);
                let first = self.found.last_halls.entry(situation).or_insert(hall);
                *first = hall.min(*first);
                set.push(situation);
            }
            set.sort_unstable();
            set.dedup();
            sets.push(set);
        }
        sets.sort_unstable();
        sets.dedup();
        for set in sets {
            match set.as_slice() {
                [end] => self.found.ends.push(*end),
                _ => self.found.rounds.push(set),
            }
        }
    }

    fn memory(&self) -> usize {
        self.found.halls.memory()
            + self.found.situations.memory()
            + self.found.first_hall.len() * 4
            + self.situation_of.len() * 4
            + self.edges.memory()
    }
}

impl EngineFound {
    /// The hall of a number.
    ///
    /// # Errors
    ///
    /// Where the engine does not take it back.
    pub fn hall(&self, table: &Table, index: Index) -> Result<Hall, Failed> {
        let mut bytes = self.halls.get(index).to_vec();
        bytes.resize(HALL_BYTES, 0);
        Hall::from_bytes(table.bytes(), &bytes).map_err(Failed::Refused)
    }

    /// The choices that lead to a hall.
    ///
    /// # Errors
    ///
    /// Where the engine contradicts itself.
    pub fn choices_to(&self, table: &Table, index: Index) -> Result<Vec<Choice>, Failed> {
        let mut choices = Vec::new();
        for pair in self.halls.way_to(index).windows(2) {
            let [from, to] = *pair else { continue };
            let target = self.halls.get(to);
            let mut found = None;
            each_choice(table, &self.hall(table, from)?, |choice, answer| {
                let there = answer.is_ok_and(|next| without_zeros(next) == target);
                if there && found.is_none() {
                    found = Some(choice);
                }
            });
            choices.extend(found);
        }
        Ok(choices)
    }
}

/// Tries each position and each node: as many as there are by the engine's own
/// answers. Shows the hall after an accepted choice, or the refusal's number.
fn each_choice(table: &Table, hall: &Hall, mut show: impl FnMut(Choice, Result<&Hall, u8>)) {
    let mut next = hall.clone();
    let mut tried = |choice: Choice| {
        let mut tally = Tally::fresh();
        match next.step(table.bytes(), choice, &mut tally) {
            Ok(_) => {
                show(choice, Ok(&next));
                next.clone_from(hall);
                0
            }
            Err(refused) => {
                show(choice, Err(refused.refusal.number));
                refused.refusal.number
            }
        }
    };
    for position in 0..=u8::MAX {
        if tried(Choice::Act { position }) == Refusal::NO_STATION {
            return;
        }
        for node in 0..=u8::MAX {
            let number = tried(Choice::Inside { position, node });
            if matches!(number, Refusal::WRONG_STATION | Refusal::NO_NODE) {
                break;
            }
        }
    }
}

/// The bytes of a hall up to the last one that is not zero.
fn without_zeros(hall: &Hall) -> &[u8] {
    let bytes = hall.as_bytes().as_slice();
    let used = bytes
        .iter()
        .rposition(|byte| *byte != 0)
        .map_or(0, |at| at + 1);
    bytes.get(..used).unwrap_or(bytes)
}
