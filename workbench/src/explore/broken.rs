//! Broken questions, each with a way that was made on the library.

use crate::stations::Station;
use crate::table::Table;
use crate::text::tree::Program;

use super::facts::{Again, Answer, Verdict};
use super::leads_to::{Lasso, Led};
use super::model::Model;
use super::question::Question;
use super::replay::{replay, Contradiction, Replay, Witness};
use super::rounds::Codes;
use super::situations::Situations;
use super::store::Index;
use super::waiting::{left, InRound, Left};

/// A hall, and its situations as far as they were found.
#[derive(Clone, Copy, Debug)]
pub struct Maker<'a> {
    /// The table.
    pub table: &'a Table,
    /// Its text.
    pub program: &'a Program,
    /// The stations' codes.
    pub model: &'a Model,
    /// The situations.
    pub store: &'a Situations,
}

/// What breaks a question.
#[derive(Clone, Copy, Debug)]
pub enum Broken<'a> {
    /// A situation.
    At(Index),
    /// An end.
    AtEnd(Index),
    /// A situation of a round that is never left, and who acts there.
    InRound(Index, Codes),
    /// A run that never comes to what it should lead to.
    By(&'a Lasso),
}

impl Maker<'_> {
    /// The answer to a question that is broken so.
    ///
    /// # Errors
    ///
    /// Where the engine does not go that way.
    pub fn answer(&self, question: &Question, broken: Broken<'_>) -> Result<Answer, Contradiction> {
        let (witness, left, round, again) = match broken {
            Broken::At(index) => (self.way_to(index)?, Vec::new(), None, None),
            Broken::AtEnd(index) => {
                let witness = self.way_to(index)?;
                let left = self.left_at(&witness);
                (witness, left, None, None)
            }
            Broken::InRound(index, acting) => {
                let witness = self.way_to(index)?;
                let who = self.in_round(&witness, acting);
                (witness, Vec::new(), Some(who), None)
            }
            Broken::By(lasso) => {
                let (witness, again) = self.lasso(lasso)?;
                let left = match again {
                    None => self.left_at(&witness),
                    Some(_) => Vec::new(),
                };
                (witness, left, None, again)
            }
        };
        Ok(Answer {
            round,
            again,
            ..Answer::of(question, Verdict::Broken(Box::new(witness), left))
        })
    }

    /// The answer to a question of what leads to something, with what it took.
    ///
    /// # Errors
    ///
    /// Where the engine does not go the way that breaks it.
    pub fn led(&self, question: &Question, led: &Led) -> Result<Answer, Contradiction> {
        let answer = match &led.broken {
            Some(lasso) => self.answer(question, Broken::By(lasso))?,
            None => Answer::of(question, Verdict::Holds),
        };
        let cost = Some((led.situations, led.steps, led.memory));
        Ok(Answer { cost, ..answer })
    }

    /// The way to a situation.
    ///
    /// # Errors
    ///
    /// Where the engine does not go it.
    pub fn way_to(&self, index: Index) -> Result<Witness, Contradiction> {
        replay(self.table, self.program, self.model, self.store, index)
    }

    /// Who is left at the end of a way.
    #[must_use]
    pub fn left_at(&self, witness: &Witness) -> Vec<Left> {
        left(self.table, self.program, &witness.last)
    }

    /// Who goes on at the end of a way into a round in which these act.
    #[must_use]
    pub fn in_round(&self, witness: &Witness, acting: Codes) -> InRound {
        let acts = |station: &Station| {
            let code = self.model.code(station);
            code.is_some_and(|code| acting.contains(code))
        };
        InRound::of(self.program, &witness.last, acts)
    }

    /// The way to an end, or into a round and once through it.
    fn lasso(&self, lasso: &Lasso) -> Result<(Witness, Option<Again>), Contradiction> {
        let mut replay = Replay::open(self.table, self.program, self.model)?;
        replay.follow(self.store, &self.store.way_to(lasso.begins))?;
        let entered = replay.follow_codes(self.store, lasso.begins, &lasso.way)?;
        let before = replay.choices();
        replay.follow_codes(self.store, entered, &lasso.round)?;
        let steps = lasso.round.len();
        let again = (steps > 0).then_some(Again { before, steps });
        Ok((replay.witness(), again))
    }
}

/// What breaks a question about ends: the nearest of those that were found.
#[must_use]
pub fn nearest<'a>(end: Option<Index>, round: Option<(Index, Codes)>) -> Option<Broken<'a>> {
    match (end, round) {
        (Some(end), Some((at, _))) if end <= at => Some(Broken::AtEnd(end)),
        (_, Some((at, acting))) => Some(Broken::InRound(at, acting)),
        (end, None) => end.map(Broken::AtEnd),
    }
}
