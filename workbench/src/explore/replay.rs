//! Steps turned into choices, each made on the library.
//!
//! A step of an exploration is believed only once the engine has made it: a
//! take or put is one choice, a commit is an attempt opened, moved to its end
//! and acted on, and after each step the engine's hall has to be the situation
//! that was foretold.

use std::mem::size_of;

use ruonfidd::{Choice, Moved};

use crate::lesson::choice_words;
use crate::refusals;
use crate::rehearsal::{position_of, Moment, Rehearsal};
use crate::rules::Rule;
use crate::stations::{Attempt, Station};
use crate::steps::{Entry, Steps};
use crate::table::Table;
use crate::text::tree::Program;

use super::model::{Kind, Model};
use super::situations::Situations;
use super::steps::{Deed, Step, Stepper, Tried};
use super::store::Index;

/// Exploration and engine are at odds.
#[derive(Clone, Debug, PartialEq, Eq)]
pub struct Contradiction {
    /// What was foretold, and what the engine did.
    pub what: String,
}

/// One choice that was made.
#[derive(Clone, Debug, PartialEq, Eq)]
pub struct Line {
    /// The choice.
    pub choice: Choice,
    /// The same in the words of a text.
    pub words: String,
    /// The rule by which it moved.
    pub rule: Rule,
}

impl Line {
    /// The station that the choice calls, as its words name it.
    #[must_use]
    pub fn station(&self) -> &str {
        let words = self.words.split_once(' ').map_or("", |(_, words)| words);
        match self.choice {
            Choice::Inside { node: 1.., .. } => {
                words.rsplit_once(" node ").map_or(words, |(name, _)| name)
            }
            _ => words,
        }
    }
}

/// A way through a hall, made on the library.
#[derive(Clone, Debug)]
pub struct Witness {
    /// The choices in order.
    pub lines: Vec<Line>,
    /// A last choice that is refused, and by which number.
    pub refused: Option<String>,
    /// The same as a choice.
    pub refused_choice: Option<Choice>,
    /// How many steps they make: a block acts in one.
    pub steps: usize,
    /// The hall at their end.
    pub last: Moment,
}

impl Witness {
    /// The choices as they stand in a text, in order.
    pub fn words(&self) -> impl Iterator<Item = &str> {
        let made = self.lines.iter().map(|line| line.words.as_str());
        made.chain(self.refused.as_deref())
    }

    /// About what it takes until it is told: its lines and the stations at its
    /// end, and the words for them, several times over while an object is put
    /// together.
    #[must_use]
    pub fn memory(&self) -> usize {
        let of_line = |line: &Line| size_of::<Line>() + 6 * (line.words.len() + 20);
        let stations = self.last.stations.len() * 600;
        500 + stations + self.lines.iter().map(of_line).sum::<usize>()
    }

    /// For each of the words the station that is called, with its position.
    pub fn called(&self) -> impl Iterator<Item = (String, usize)> + '_ {
        let made = self.lines.iter().map(|line| {
            let position = position_of(line.choice);
            (line.station().to_owned(), position)
        });
        let refused = self.refused_choice.map(|choice| {
            let position = position_of(choice);
            (self.last.names.name(position), position)
        });
        made.chain(refused)
    }

    /// The choices told by steps, made once more on the library; none where it
    /// does not make them again.
    #[must_use]
    pub fn told(&self, table: &Table, program: &Program) -> Option<Vec<Entry>> {
        let mut rehearsal = Rehearsal::open(table, program).ok()?;
        let mut steps = Steps::new(table, program);
        for line in &self.lines {
            steps.moved(&rehearsal.make(line.choice).ok()?);
        }
        if let Some(choice) = self.refused_choice {
            let refusal = rehearsal.ask(choice).err()?;
            let name = rehearsal.now().names.name(position_of(choice));
            let reason = refusals::reason(&rehearsal, choice, refusal);
            steps.refused(name, refusal.number, &reason);
        }
        Some(steps.entries().to_vec())
    }

    /// The choices as bytes.
    #[must_use]
    pub fn bytes(&self) -> Vec<u8> {
        let mut bytes = Vec::new();
        for line in &self.lines {
            line.choice.write_to(&mut bytes);
        }
        bytes
    }
}

/// Makes choices on the library and names them.
///
/// # Errors
///
/// Where one is refused.
pub fn rehearse(
    table: &Table,
    program: &Program,
    model: &Model,
    choices: &[Choice],
) -> Result<Witness, Contradiction> {
    let mut replay = Replay::open(table, program, model)?;
    for choice in choices {
        replay.choose(*choice)?;
        replay.steps += 1;
    }
    Ok(replay.witness())
}

/// A hall in which steps are made.
#[derive(Clone, Debug)]
pub struct Replay<'a> {
    model: &'a Model,
    stepper: Stepper<'a>,
    rehearsal: Rehearsal<'a>,
    lines: Vec<Line>,
    refused: Option<String>,
    refused_choice: Option<Choice>,
    steps: usize,
}

/// Makes the steps that lead to a situation of a store.
///
/// # Errors
///
/// Where the engine does not do what was foretold.
pub fn replay(
    table: &Table,
    program: &Program,
    model: &Model,
    store: &Situations,
    to: Index,
) -> Result<Witness, Contradiction> {
    let mut replay = Replay::open(table, program, model)?;
    replay.follow(store, &store.way_to(to))?;
    Ok(replay.witness())
}

impl<'a> Replay<'a> {
    /// The hall at its opening.
    ///
    /// # Errors
    ///
    /// Where it is not the situation that the model begins with.
    pub fn open(
        table: &'a Table,
        program: &'a Program,
        model: &'a Model,
    ) -> Result<Replay<'a>, Contradiction> {
        let rehearsal = Rehearsal::open(table, program)
            .map_err(|unmade| contradiction(format!("the hall does not open: {unmade:?}")))?;
        let replay = Replay {
            model,
            stepper: Stepper::new(model),
            rehearsal,
            lines: Vec::new(),
            refused: None,
            refused_choice: None,
            steps: 0,
        };
        replay.compare(model.opening())?;
        Ok(replay)
    }

    /// Makes the steps from each of these situations to the next.
    ///
    /// # Errors
    ///
    /// Where the engine does not do what was foretold.
    pub fn follow(&mut self, store: &Situations, way: &[Index]) -> Result<(), Contradiction> {
        for pair in way.windows(2) {
            if let [from, to] = *pair {
                self.step(&store.get(from), &store.get(to))?;
            }
        }
        Ok(())
    }

    /// Makes steps of these codes from a situation, each to the one beside it; gives
    /// the last.
    ///
    /// # Errors
    ///
    /// Where the engine does not do what was foretold.
    pub fn follow_codes(
        &mut self,
        store: &Situations,
        from: Index,
        steps: &[(u8, Index)],
    ) -> Result<Index, Contradiction> {
        let mut at = from;
        for (code, to) in steps {
            let (before, after) = (store.get(at), store.get(*to));
            let mut found = None;
            self.stepper.each(&before, |step, tried| {
                if step.code == *code && tried == Tried::To(&after) {
                    found = Some(step);
                }
            });
            let step =
                found.ok_or_else(|| contradiction(format!("code {code} makes no such step")))?;
            self.make(step)?;
            self.steps += 1;
            self.compare(&after)?;
            at = *to;
        }
        Ok(at)
    }

    /// Has the engine say that a station cannot act, by this number.
    ///
    /// # Errors
    ///
    /// Where it says something else.
    pub fn refused(&mut self, code: u8, number: u8) -> Result<(), Contradiction> {
        let position = self
            .position_of(code)
            .ok_or_else(|| contradiction(format!("no station of code {code} stands")))?;
        if matches!(self.model.kind(code), Some(Kind::Block { .. })) {
            self.attempt(position)?;
        }
        let choice = Choice::Act { position };
        match self.rehearsal.ask(choice) {
            Err(refusal) if refusal.number == number => {
                let words = choice_words(self.rehearsal.now(), choice);
                self.refused = Some(format!("{words} => refused {number}"));
                self.refused_choice = Some(choice);
                Ok(())
            }
            other => Err(contradiction(format!(
                "refusal {number} was foretold, and the engine answered {other:?}"
            ))),
        }
    }

    /// What was made so far.
    #[must_use]
    pub fn witness(&self) -> Witness {
        Witness {
            lines: self.lines.clone(),
            refused: self.refused.clone(),
            refused_choice: self.refused_choice,
            steps: self.steps,
            last: self.rehearsal.now().clone(),
        }
    }

    /// How many choices were made so far.
    #[must_use]
    pub fn choices(&self) -> usize {
        self.lines.len()
    }

    fn step(&mut self, from: &[u8], to: &[u8]) -> Result<(), Contradiction> {
        let step = step_between(&mut self.stepper, from, to)
            .ok_or_else(|| contradiction("two situations that no step joins".to_owned()))?;
        self.make(step)?;
        self.steps += 1;
        self.compare(to)
    }

    fn make(&mut self, step: Step) -> Result<(), Contradiction> {
        let position = self
            .position_of(step.code)
            .ok_or_else(|| contradiction(format!("no station can make {step:?}")))?;
        match step.deed {
            Deed::Put => self.act(position, Moved::OUT),
            Deed::Take => self.act(position, Moved::IN),
            Deed::Repeat => self.act(position, Moved::REP),
            Deed::Note(_) => self.attempt(position),
            Deed::Drop => self.act(position, Moved::ATFAIL),
            Deed::Commit(_) => {
                if matches!(self.model.kind(step.code), Some(Kind::Block { .. })) {
                    self.attempt(position)?;
                }
                self.act(position, Moved::ATOK)
            }
        }
    }

    /// A station of this code. One with a note is an attempt whose notes are
    /// those of the way; any other is none.
    fn position_of(&self, code: u8) -> Option<u8> {
        (0_u8..)
            .zip(&self.rehearsal.now().stations)
            .find(|(_, station)| self.code_with_note(station) == Some(code))
            .map(|(position, _)| position)
    }

    fn code_with_note(&self, station: &Station) -> Option<u8> {
        let code = self.model.code(station)?;
        match station {
            Station::Attempt(attempt) => self.noted_code(code, attempt),
            _ => Some(code),
        }
    }

    fn noted_code(&self, block: u8, attempt: &Attempt) -> Option<u8> {
        let log = &attempt.single_leaf()?.log;
        let Some(Kind::Block { ways, noted, .. }) = self.model.kind(block) else {
            return None;
        };
        let way = ways.iter().position(|way| way.actions == *log)?;
        noted.get(way.checked_sub(1)?).copied()
    }

    /// Opens an attempt and makes the first move that it accepts, until it
    /// accepts none.
    fn attempt(&mut self, position: u8) -> Result<(), Contradiction> {
        self.act(position, Moved::ATST)?;
        while let choice @ Choice::Inside { .. } = self.rehearsal.next_of(position) {
            self.choose(choice)?;
        }
        Ok(())
    }

    fn act(&mut self, position: u8, rule: u8) -> Result<(), Contradiction> {
        let moved = self.choose(Choice::Act { position })?;
        if moved.number == rule {
            return Ok(());
        }
        Err(contradiction(format!(
            "rule {rule} was foretold, and the engine moved by {}",
            moved.calculus
        )))
    }

    fn choose(&mut self, choice: Choice) -> Result<Rule, Contradiction> {
        let words = choice_words(self.rehearsal.now(), choice);
        let happened = self
            .rehearsal
            .make(choice)
            .map_err(|unmade| contradiction(format!("'{words}' was not made: {unmade:?}")))?;
        self.lines.push(Line {
            choice,
            words,
            rule: happened.rule,
        });
        Ok(happened.rule)
    }

    /// The engine's hall has to be this situation.
    fn compare(&self, foretold: &[u8]) -> Result<(), Contradiction> {
        let now = self.rehearsal.now();
        let codes: Option<Vec<u8>> = now
            .stations
            .iter()
            .map(|station| self.code_with_note(station))
            .collect();
        let situation = codes.map(|codes| self.model.sorted(&now.counts, codes));
        if situation.as_deref() == Some(foretold) {
            return Ok(());
        }
        Err(contradiction(format!(
            "the situation {foretold:?} was foretold, and the engine came to {situation:?}"
        )))
    }
}

/// A step that leads from one situation to the other.
#[must_use]
fn step_between(stepper: &mut Stepper<'_>, from: &[u8], to: &[u8]) -> Option<Step> {
    let mut between = None;
    stepper.each(from, |step, tried| {
        if between.is_none() && tried == Tried::To(to) {
            between = Some(step);
        }
    });
    between
}

fn contradiction(what: String) -> Contradiction {
    Contradiction { what }
}
