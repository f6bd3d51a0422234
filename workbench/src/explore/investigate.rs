//! An exploration that knows whether it is exact.
//!
//! Commits by the first way readable now leave out those by a way that was the
//! first one when the attempt opened and is not any more. It owes that to puts
//! in between, and the same situation is reached when these puts come after the
//! commit; only the limit of 64 stations can forbid the delay. So where that
//! limit was met, and some block has a choice of ways, the hall is explored once
//! more with notes of what each attempt found.

use crate::table::Table;

use super::leads_to::{leads_to, Led};
use super::model::Model;
use super::possible::first_without;
use super::round_sorts::{rounds, Rounds};
use super::search::{search, Cut, Found, Limits, Progress, Questions, SoFar};
use super::store::Index;

/// Whether the situations found are those of the hall, all of them and no
/// others.
#[derive(Clone, Copy, Debug, PartialEq, Eq)]
pub enum Exact {
    /// They are: 19 was never met.
    NeverFull,
    /// They are: 19 was met, and no block has two ways.
    NoAlternatives,
    /// They are: all was seen with notes.
    WithNotes,
    /// Each of them is one, and there may be more.
    No(Doubt),
}

/// Why there may be more situations.
#[derive(Clone, Copy, Debug, PartialEq, Eq)]
pub enum Doubt {
    /// The exploration was cut short.
    Cut(Cut),
    /// That without notes was not, that with notes was.
    NotesCut(Cut),
    /// There are more sorts of blocks with notes than codes.
    TooManyNotes,
}

impl Exact {
    /// Whether nothing is left out.
    #[must_use]
    pub fn yes(self) -> bool {
        !matches!(self, Exact::No(_))
    }
}

/// What was found, and what it rests on.
#[derive(Clone, Debug)]
pub struct Explored {
    /// The stations' codes.
    pub model: Model,
    /// What was found.
    pub found: Found,
    /// Whether that is all.
    pub exact: Exact,
    /// The rounds that are never left; none where they are not known.
    pub rounds: Option<Rounds>,
    /// For each question of what is always possible, whether it is; none where that
    /// was not looked for.
    pub possible: Vec<Possible>,
    /// For each question of what leads to something what was found; none where that
    /// is not known. The last ones are missing where they were not looked for.
    pub leads: Vec<Option<Led>>,
}

/// Whether something is possible from every situation.
#[derive(Clone, Copy, Debug, PartialEq, Eq)]
pub enum Possible {
    /// It is.
    Always,
    /// From this situation it is not any more. It is the nearest such one, or where
    /// a limit was met before that was known the nearest end or round.
    NotFrom(Index),
}

impl Explored {
    /// Whether all situations are known, so that what none of them breaks
    /// holds.
    #[must_use]
    pub fn complete(&self) -> bool {
        self.exact.yes() && self.found.cut.is_none()
    }

    /// Whether all ends and all rounds that are never left are known too.
    #[must_use]
    pub fn ends_known(&self) -> bool {
        self.complete() && self.rounds.is_some()
    }

    /// The rounds that are never left, as far as they were found.
    #[must_use]
    pub fn rounds_found(&self) -> &Rounds {
        self.rounds.as_ref().unwrap_or(&self.found.rounds)
    }

    /// For a question of what is always possible the nearest end or round that was
    /// seen to break it.
    #[must_use]
    pub fn seen_impossible(&self, number: usize) -> Option<Index> {
        let ends = self.found.impossible.get(number).copied().flatten();
        let rounds = self.rounds_found().impossible.get(number).copied();
        ends.into_iter().chain(rounds.flatten()).min()
    }

    fn so_far<'a>(&'a self, leads: &'a [Option<Led>]) -> SoFar<'a> {
        SoFar {
            rounds: self.rounds_found(),
            leads,
            ..SoFar::of(&self.model, &self.found)
        }
    }

    /// Whether a fault was found, and no more than the first is wanted.
    fn is_enough(&self, questions: &Questions) -> bool {
        let fault = self.found.has_fault(questions) || self.rounds_found().has_fault(questions);
        questions.only_first && fault
    }
}

/// Explores a hall, with notes where they are needed, and looks for the rounds
/// that are never left.
pub fn investigate(
    table: &Table,
    questions: &Questions,
    limits: Limits,
    progress: &mut Progress<'_>,
) -> Explored {
    let mut explored = all_situations(table, questions, limits, progress);
    if !explored.complete() {
        return explored;
    }
    let Explored { model, found, .. } = &mut explored;
    let done = found.store.len();
    found.take_in_stuck(model, questions);
    progress(SoFar::of(model, found), done);
    if explored.is_enough(questions) {
        return explored;
    }
    let Explored { model, found, .. } = &mut explored;
    let found_rounds = rounds(model, found, questions, limits, |found, rounds| {
        let so_far = SoFar::of(model, found);
        progress(SoFar { rounds, ..so_far }, done);
    });
    explored.rounds = found_rounds.ok();
    if !explored.is_enough(questions) {
        explored.possible = possible(&explored, questions, limits);
        explored.leads = leads(&explored, questions, limits, progress);
    }
    explored
}

/// The ends and the rounds tell whether something is always possible.
fn possible(explored: &Explored, questions: &Questions, limits: Limits) -> Vec<Possible> {
    let Explored { model, found, .. } = explored;
    if explored.rounds.is_none() {
        return Vec::new();
    }
    let questions = questions.possible.iter().enumerate();
    let answered = questions.map(|(number, question)| {
        let Some(seen) = explored.seen_impossible(number) else {
            return Possible::Always;
        };
        let first = first_without(model, found, question, limits);
        Possible::NotFrom(first.ok().flatten().unwrap_or(seen))
    });
    answered.collect()
}

/// With notes a station may act in two steps, and is not asked whether it goes on.
fn leads(
    explored: &Explored,
    questions: &Questions,
    limits: Limits,
    progress: &mut Progress<'_>,
) -> Vec<Option<Led>> {
    let mut leads = Vec::new();
    if explored.exact == Exact::WithNotes {
        return leads;
    }
    let Explored { model, found, .. } = explored;
    for question in &questions.leads {
        let led = leads_to(model, found, question, limits).ok();
        let broken = led.as_ref().is_some_and(|led| led.broken.is_some());
        leads.push(led);
        progress(explored.so_far(&leads), found.store.len());
        if questions.only_first && broken && !question.asking.breaks {
            break;
        }
    }
    leads
}

fn all_situations(
    table: &Table,
    questions: &Questions,
    limits: Limits,
    progress: &mut Progress<'_>,
) -> Explored {
    let model = Model::of(table);
    let found = search(&model, questions, limits, progress);
    let exact = match (found.cut, found.marks.full_hall) {
        (Some(cut), _) => Exact::No(Doubt::Cut(cut)),
        (None, None) => Exact::NeverFull,
        (None, Some(_)) if !model.has_alternatives() => Exact::NoAlternatives,
        (None, Some(_)) => Exact::No(Doubt::TooManyNotes),
    };
    let plain = Explored {
        model,
        found,
        exact,
        rounds: None,
        possible: Vec::new(),
        leads: Vec::new(),
    };
    if exact != Exact::No(Doubt::TooManyNotes) {
        return plain;
    }
    match Model::with_notes(table) {
        Some(model) => again(plain, model, questions, limits, progress),
        None => plain,
    }
}

/// Explores with notes. Where that is cut short, what was found without them is
/// more, unless a question was found broken.
fn again(
    mut plain: Explored,
    model: Model,
    questions: &Questions,
    limits: Limits,
    progress: &mut Progress<'_>,
) -> Explored {
    let left = Limits {
        memory: limits.memory.saturating_sub(plain.found.memory()),
        ..limits
    };
    let found = search(&model, questions, left, progress);
    let Some(cut) = found.cut else {
        return Explored {
            model,
            found,
            exact: Exact::WithNotes,
            rounds: None,
            possible: Vec::new(),
            leads: Vec::new(),
        };
    };
    plain.exact = Exact::No(Doubt::NotesCut(cut));
    if plain.found.breaks_something() || !found.breaks_something() {
        return plain;
    }
    Explored {
        model,
        found,
        exact: plain.exact,
        rounds: None,
        possible: Vec::new(),
        leads: Vec::new(),
    }
}
