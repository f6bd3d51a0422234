//! A hall under way: the engine's bytes and tally, with the names beside them.

use ruonfidd::{Choice, Hall, Refusal, Shortage, Tally};

use crate::names::Names;
use crate::rules::{self, Rule};
use crate::stations::{self, Station};
use crate::table::{Counts, Table};
use crate::text::tree::Program;

/// The hall as people see it at one moment.
#[derive(Clone, Debug, PartialEq, Eq)]
pub struct Moment {
    /// What the trays have.
    pub counts: Counts,
    /// The stations in order.
    pub stations: Vec<Station>,
    /// Their names, in the same order.
    pub names: Names,
}

/// An accepted choice, and the hall before and after it.
#[derive(Clone, Debug, PartialEq, Eq)]
pub struct Happened {
    /// The choice.
    pub choice: Choice,
    /// The engine's answer.
    pub rule: Rule,
    /// What was short, as the engine told it: where a commit or a take failed.
    pub shortage: Option<Shortage>,
    /// The hall before.
    pub before: Moment,
    /// The hall after.
    pub after: Moment,
}

impl Happened {
    /// The position that the choice names.
    #[must_use]
    pub fn position(&self) -> usize {
        position_of(self.choice)
    }
}

/// Why a choice was not made.
#[derive(Clone, Copy, Debug, PartialEq, Eq)]
pub enum Unmade {
    /// The engine refused it.
    Refused(Refusal),
    /// This program's names and the engine's hall are at odds.
    Contradiction,
}

/// A hall under way. A copy of it goes its own way.
#[derive(Clone, Debug)]
pub struct Rehearsal<'a> {
    table: &'a Table,
    program: &'a Program,
    hall: Hall,
    tally: Tally,
    now: Moment,
}

impl<'a> Rehearsal<'a> {
    /// The hall that the table opens. The program is the table's text, or
    /// [`Program::of_table`].
    ///
    /// # Errors
    ///
    /// [`Unmade::Contradiction`] where the text is not this table's.
    pub fn open(table: &'a Table, program: &'a Program) -> Result<Rehearsal<'a>, Unmade> {
        let (hall, tally) = Hall::open(table.bytes()).map_err(Unmade::Refused)?;
        let now = moment(table, program, &hall, Names::open(program))?;
        Ok(Rehearsal {
            table,
            program,
            hall,
            tally,
            now,
        })
    }

    /// Makes a choice, if the engine accepts it.
    ///
    /// # Errors
    ///
    /// The engine's refusal: the hall is as it was.
    pub fn make(&mut self, choice: Choice) -> Result<Happened, Unmade> {
        let mut hall = self.hall.clone();
        let mut tally = self.tally;
        let moved = hall
            .step(self.table.bytes(), choice, &mut tally)
            .map_err(|refused| Unmade::Refused(refused.refusal))?;
        let rule = rules::by_number(moved.rule).ok_or(Unmade::Contradiction)?;
        let position = position_of(choice);
        let acted = self
            .now
            .stations
            .get(position)
            .ok_or(Unmade::Contradiction)?;
        let mut names = self.now.names.clone();
        names.follow(self.program, position, rule.number, acted);
        let after = moment(self.table, self.program, &hall, names)?;
        let before = std::mem::replace(&mut self.now, after.clone());
        self.hall = hall;
        self.tally = tally;
        Ok(Happened {
            choice,
            rule,
            shortage: moved.shortage,
            before,
            after,
        })
    }

    /// What the engine would answer to a choice; nothing changes.
    ///
    /// # Errors
    ///
    /// The engine's refusal.
    pub fn ask(&self, choice: Choice) -> Result<Option<Rule>, Refusal> {
        let mut hall = self.hall.clone();
        let mut tally = self.tally;
        let moved = hall.step(self.table.bytes(), choice, &mut tally)?;
        Ok(rules::by_number(moved.rule))
    }

    /// Every choice that the engine accepts now, with its rule: each position
    /// and each node is tried on a copy, from the lowest on.
    #[must_use]
    pub fn accepted(&self) -> Vec<(Choice, Rule)> {
        let mut accepted = Vec::new();
        for (position, station) in (0..=u8::MAX).zip(&self.now.stations) {
            let nodes = match station {
                Station::Attempt(attempt) => attempt.nodes.len(),
                _ => 0,
            };
            let acts = std::iter::once(Choice::Act { position });
            let steps = (0..=u8::MAX)
                .take(nodes)
                .map(|node| Choice::Inside { position, node });
            accepted.extend(
                acts.chain(steps)
                    .filter_map(|choice| Some((choice, self.ask(choice).ok()??))),
            );
        }
        accepted
    }

    /// The next choice of a station that goes on by itself to the end of what it
    /// does: inside an attempt the first node that the engine accepts, else its
    /// act.
    #[must_use]
    pub fn next_of(&self, position: u8) -> Choice {
        let nodes = match self.now.stations.get(usize::from(position)) {
            Some(Station::Attempt(attempt)) => attempt.nodes.len(),
            _ => 0,
        };
        (0..=u8::MAX)
            .take(nodes)
            .map(|node| Choice::Inside { position, node })
            .find(|choice| self.ask(*choice).is_ok())
            .unwrap_or(Choice::Act { position })
    }

    /// The engine's suggestion, the first of [`Rehearsal::accepted`]; none where
    /// the hall is still.
    ///
    /// # Errors
    ///
    /// None is expected: table and hall were accepted.
    pub fn suggestion(&self) -> Result<Option<Choice>, Refusal> {
        self.hall.suggest(self.table.bytes())
    }

    /// The table.
    #[must_use]
    pub fn table(&self) -> &'a Table {
        self.table
    }

    /// The text's tree.
    #[must_use]
    pub fn program(&self) -> &'a Program {
        self.program
    }

    /// The hall as the engine keeps it.
    #[must_use]
    pub fn hall(&self) -> &Hall {
        &self.hall
    }

    /// Commits, failed, retries.
    #[must_use]
    pub fn tally(&self) -> Tally {
        self.tally
    }

    /// The hall as it stands.
    #[must_use]
    pub fn now(&self) -> &Moment {
        &self.now
    }
}

/// The position that a choice names.
#[must_use]
pub fn position_of(choice: Choice) -> usize {
    match choice {
        Choice::Act { position } | Choice::Inside { position, .. } => position.into(),
        _ => usize::MAX,
    }
}

fn moment(table: &Table, program: &Program, hall: &Hall, names: Names) -> Result<Moment, Unmade> {
    let stations = stations::stations(hall).ok_or(Unmade::Contradiction)?;
    if !names.agree(program, table, &stations) {
        return Err(Unmade::Contradiction);
    }
    Ok(Moment {
        counts: stations::counts(hall),
        stations,
        names,
    })
}
