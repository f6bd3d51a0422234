//! Every situation that a hall can come to, breadth first.

use std::collections::HashSet;
use std::time::Instant;

use crate::text::asking::Asked;

use super::endless::{feeds_nothing_round, Allowed};
use super::leads_to::Led;
use super::model::{Kind, Model};
use super::question::Question;
use super::round_sorts::{rounds_so_far, Rounds};
use super::situations::Situations;
use super::steps::{Deed, Limit, Step, Stepper};
use super::store::{Batch, Index};
use crate::system;

/// How far an exploration may go.
#[derive(Clone, Copy, Debug)]
pub struct Limits {
    /// When it has to stop.
    pub until: Option<Instant>,
    /// How many bytes it may use.
    pub memory: usize,
}

impl Limits {
    /// No limit of time, and so many bytes.
    #[must_use]
    pub fn memory(bytes: usize) -> Limits {
        Limits {
            until: None,
            memory: bytes,
        }
    }

    /// Which limit is met with so many bytes in use. A signal is one at any
    /// time.
    #[must_use]
    pub fn met(&self, memory: usize) -> Option<Cut> {
        if system::interrupted() {
            return Some(Cut::Signal);
        }
        if memory > self.memory {
            return Some(Cut::Memory);
        }
        let late = self.until.is_some_and(|until| Instant::now() >= until);
        late.then_some(Cut::Time)
    }
}

/// Why an exploration ended before all was seen.
#[derive(Clone, Copy, Debug, PartialEq, Eq)]
pub enum Cut {
    /// The time was over.
    Time,
    /// The memory was used up.
    Memory,
    /// A fault was found, and no more than the first was wanted.
    Fault,
    /// A signal asked for an end.
    Signal,
}

/// What is asked beside all that is reported anyway.
#[derive(Clone, Debug, Default)]
pub struct Questions {
    /// What must be so in no situation.
    pub never: Vec<Question>,
    /// What must be so at every end.
    pub ends: Vec<Question>,
    /// What must be possible from every situation.
    pub possible: Vec<Question>,
    /// What must lead to something.
    pub leads: Vec<Question>,
    /// The slots of trays that may have something at an end.
    pub may_stay: Vec<usize>,
    /// Whether to stop where the first of them is broken.
    pub only_first: bool,
}

impl Questions {
    /// Whether nothing is asked.
    #[must_use]
    pub fn is_empty(&self) -> bool {
        self.all().next().is_none()
    }

    /// All questions, those of a sort together.
    pub fn all(&self) -> impl Iterator<Item = &Question> {
        let known_on_the_way = self.never.iter().chain(&self.ends);
        known_on_the_way.chain(&self.possible).chain(&self.leads)
    }

    /// One more; it is answered behind those before it.
    pub fn add(&mut self, mut question: Question) {
        question.place = self.all().count();
        match question.asked {
            Asked::Never => self.never.push(question),
            Asked::Ends => self.ends.push(question),
            Asked::Possible => self.possible.push(question),
            Asked::Leads => self.leads.push(question),
        }
    }

    /// What the trays have, but for those that may stay.
    #[must_use]
    pub fn left_over(&self, counts: &[u8]) -> Vec<u8> {
        let mut counts = counts.to_vec();
        for slot in &self.may_stay {
            if let Some(count) = counts.get_mut(*slot) {
                *count = 0;
            }
        }
        counts
    }
}

/// A step that a limit of the engine forbids, where it was first met.
#[derive(Clone, Copy, Debug, PartialEq, Eq)]
pub struct Barred {
    /// The situation.
    pub at: Index,
    /// The station that could not act.
    pub code: u8,
}

/// What the steps showed.
#[derive(Clone, Debug, Default)]
pub struct Marks {
    /// How many there are.
    pub steps: u64,
    /// Which codes ever act.
    pub acted: Vec<bool>,
    /// For each code which of its ways are ever taken, a bit for each.
    pub taken: Vec<u8>,
    /// Whether a repeated take ever acts: without one every run ends.
    pub repeats: bool,
    /// Whether a block is ever committed.
    pub commits: bool,
    /// Where 19 was first met.
    pub full_hall: Option<Barred>,
    /// Where 20 was first met.
    pub full_tray: Option<Barred>,
}

impl Marks {
    fn of(codes: usize) -> Marks {
        Marks {
            acted: vec![false; codes],
            taken: vec![0; codes],
            ..Marks::default()
        }
    }

    fn mark(&mut self, model: &Model, step: Step) {
        self.steps += 1;
        let code = usize::from(step.code);
        // To open an attempt is not to act: it may come to nothing.
        let acts = step.deed.has_effect();
        if let Some(acted) = self.acted.get_mut(code) {
            *acted |= acts;
        }
        match step.deed {
            Deed::Repeat => self.repeats = true,
            Deed::Commit(way) => {
                self.commits = true;
                let block = match model.kind(step.code) {
                    Some(Kind::Noted { block, .. }) => usize::from(*block),
                    _ => code,
                };
                if let Some(taken) = self.taken.get_mut(block) {
                    *taken |= 1 << way;
                }
            }
            Deed::Put | Deed::Take | Deed::Note(_) | Deed::Drop => {}
        }
    }

    fn meet(&mut self, limit: Limit, at: Index, code: u8) {
        let first = match limit {
            Limit::Stations => &mut self.full_hall,
            Limit::Tray => &mut self.full_tray,
        };
        first.get_or_insert(Barred { at, code });
    }
}

/// What an exploration found.
#[derive(Clone, Debug)]
pub struct Found {
    /// The situations, and from which each was first reached. Those with notes
    /// are among them.
    pub store: Situations,
    /// How many situations there are, those with notes left out.
    pub situations: u64,
    /// The situations from which no step is left, in the order in which they
    /// were found.
    pub ends: Vec<Index>,
    /// Those with notes from which none is left.
    pub stuck: Vec<Index>,
    /// For each slot the least and the most that its tray ever has.
    pub extremes: Vec<(u8, u8)>,
    /// What the steps between them showed.
    pub marks: Marks,
    /// For each question of `never`, the first situation in which it is so.
    pub never: Vec<Option<Index>>,
    /// For each question of `ends`, the first end at which it is not so.
    pub broken_ends: Vec<Option<Index>>,
    /// For each question of `possible`, the first end at which it is not so.
    pub impossible: Vec<Option<Index>>,
    /// Rounds that are never left and were found before all were looked for.
    pub rounds: Rounds,
    /// Why not all was seen.
    pub cut: Option<Cut>,
}

/// What was found so far.
#[derive(Clone, Copy, Debug)]
pub struct SoFar<'a> {
    /// The stations' codes.
    pub model: &'a Model,
    /// What was found.
    pub found: &'a Found,
    /// The rounds that are never left.
    pub rounds: &'a Rounds,
    /// For the first questions of `leads` what was found; none where that is not
    /// known.
    pub leads: &'a [Option<Led>],
}

impl<'a> SoFar<'a> {
    /// What a search has found.
    #[must_use]
    pub fn of(model: &'a Model, found: &'a Found) -> SoFar<'a> {
        SoFar {
            model,
            found,
            rounds: &found.rounds,
            leads: &[],
        }
    }
}

/// Shown now and then what was found so far, and how many situations are done
/// with.
pub type Progress<'a> = dyn FnMut(SoFar<'_>, usize) + 'a;

/// So many situations, or a few more, are looked up at once.
const BATCH: usize = 256;

/// So many batches are gone through between two looks at the limits.
const BETWEEN_LOOKS: u32 = 16;

/// So many situations are gone on from before rounds that are never left are looked
/// for among them; then twice as many each time, so that it costs a part of the
/// search.
const BEFORE_ROUNDS: usize = 1 << 13;

/// Goes through every situation of a model, or as many as the limits allow.
pub fn search(
    model: &Model,
    questions: &Questions,
    limits: Limits,
    progress: &mut Progress<'_>,
) -> Found {
    let mut search = Search {
        model,
        questions,
        found: Found::of_opening(model, questions),
        next_rounds: BEFORE_ROUNDS,
    };
    // Where every run ends there is no round to be looked for afterwards.
    if !feeds_nothing_round(model, Allowed::Any) {
        search.found.store.keep_least();
    }
    let mut opening = Batch::default();
    search.found.store.add(&mut opening, model.opening(), 0);
    search.keep(&mut opening);
    search.go_through(limits, progress);
    search.found
}

struct Search<'a> {
    model: &'a Model,
    questions: &'a Questions,
    found: Found,
    /// Once so many situations are gone on from, rounds are looked for.
    next_rounds: usize,
}

impl Search<'_> {
    fn go_through(&mut self, limits: Limits, progress: &mut Progress<'_>) {
        let mut stepper = Stepper::new(self.model);
        let mut batch = Batch::default();
        let mut batches = 0_u32;
        let mut done = 0;
        while done < self.found.store.len() && self.found.cut.is_none() {
            if batches % BETWEEN_LOOKS == 0 {
                self.look_for_rounds(done, limits);
                let met = limits.met(self.found.memory());
                self.found.cut = self.found.cut.or(met);
                progress(self.so_far(), done);
                if self.found.cut.is_some() {
                    return;
                }
            }
            batches = batches.wrapping_add(1);
            batch.clear();
            while done < self.found.store.len() && batch.len() < BATCH {
                self.go_on(&mut stepper, done, &mut batch);
                done += 1;
            }
            // More slots are asked for all at once: they have to fit too.
            if self.found.memory_with(batch.len()) > limits.memory {
                self.found.cut = Some(Cut::Memory);
                return;
            }
            self.keep(&mut batch);
            self.stop_at_first_fault();
        }
        // Ends come last, and to look for rounds may take as long again.
        if self.found.cut.is_none() {
            progress(self.so_far(), done);
        }
    }

    fn so_far(&self) -> SoFar<'_> {
        SoFar::of(self.model, &self.found)
    }

    fn stop_at_first_fault(&mut self) {
        let Search {
            found, questions, ..
        } = self;
        if questions.only_first && found.has_fault(questions) {
            found.cut.get_or_insert(Cut::Fault);
        }
    }

    /// Looks for rounds that are never left, if enough is new and one of them may
    /// show something.
    fn look_for_rounds(&mut self, done: usize, limits: Limits) {
        if done < self.next_rounds {
            return;
        }
        self.next_rounds = done.saturating_mul(2);
        let found = &mut self.found;
        if found.marks.repeats && found.rounds_can_break() && knows_all_steps(self.model, found) {
            rounds_so_far(self.model, found, done, self.questions, limits);
            self.stop_at_first_fault();
        }
    }

    /// All steps from one situation.
    fn go_on(&mut self, stepper: &mut Stepper<'_>, place: usize, batch: &mut Batch) {
        let Ok(index) = Index::try_from(place) else {
            return;
        };
        let Search {
            model,
            found,
            questions,
            ..
        } = self;
        let Found {
            store,
            marks,
            ends,
            stuck,
            broken_ends,
            impossible,
            ..
        } = found;
        let ended = std::cell::Cell::new(true);
        let show = |step: Step, barred| match barred {
            None => {
                ended.set(ended.get() && matches!(step.deed, Deed::Note(_)));
                marks.mark(model, step);
            }
            Some(limit) => marks.meet(limit, index, step.code),
        };
        store.go_on(stepper, index, batch, show, |situation| {
            if !ended.get() {
                return;
            }
            if situation.noted {
                stuck.push(index);
                return;
            }
            ends.push(index);
            for (first, question) in broken_ends.iter_mut().zip(&questions.ends) {
                if first.is_none() && !question.holds(situation) {
                    *first = Some(index);
                }
            }
            for (first, question) in impossible.iter_mut().zip(&questions.possible) {
                if first.is_none() && !question.holds(situation) {
                    *first = Some(index);
                }
            }
        });
    }

    fn keep(&mut self, batch: &mut Batch) {
        let Search {
            found, questions, ..
        } = self;
        let Found {
            store,
            situations,
            extremes,
            never,
            ..
        } = found;
        let kept = store.keep_batch(batch, |index, situation| {
            // With notes each situation is there without them too.
            if situation.noted {
                return;
            }
            *situations += 1;
            for ((least, most), count) in extremes.iter_mut().zip(situation.counts) {
                *least = (*least).min(*count);
                *most = (*most).max(*count);
            }
            for (first, question) in never.iter_mut().zip(&questions.never) {
                if first.is_none() && question.holds(situation) {
                    *first = Some(index);
                }
            }
        });
        if kept.is_err() {
            found.cut = Some(Cut::Memory);
        }
    }
}

/// Whether no station of a situation gone on from has steps that are not known.
/// Without notes that is so only where the limit of 64 stations was not met, or no
/// block has two ways.
fn knows_all_steps(model: &Model, found: &Found) -> bool {
    let notes = model.first_noted() < model.kinds().len();
    notes || found.marks.full_hall.is_none() || !model.has_alternatives()
}

impl Found {
    fn of_opening(model: &Model, questions: &Questions) -> Found {
        let (counts, _) = model.split(model.opening());
        Found {
            store: Situations::of(model),
            situations: 0,
            ends: Vec::new(),
            stuck: Vec::new(),
            extremes: counts.iter().map(|count| (*count, *count)).collect(),
            marks: Marks::of(model.kinds().len()),
            never: vec![None; questions.never.len()],
            broken_ends: vec![None; questions.ends.len()],
            impossible: vec![None; questions.possible.len()],
            rounds: Rounds::none(questions),
            cut: None,
        }
    }

    /// Takes those ends in at which an attempt is stuck: finished by a way whose
    /// puts have no room among 64 stations, though a new attempt would go
    /// another way. Read without notes such a situation is no end by itself, and
    /// it is one end whatever the notes are.
    pub fn take_in_stuck(&mut self, model: &Model, questions: &Questions) {
        let mut plain: HashSet<Index> = self.ends.iter().copied().collect();
        let mut taken = Vec::new();
        for index in &self.stuck {
            let read = model.read_without_notes(&self.store.get(*index));
            if self
                .store
                .find(&read)
                .is_some_and(|read| plain.insert(read))
            {
                taken.push(*index);
            }
        }
        for index in &taken {
            self.store.glance(*index, |glance| {
                let ends = self.broken_ends.iter_mut().zip(&questions.ends);
                let possible = self.impossible.iter_mut().zip(&questions.possible);
                for (first, question) in ends.chain(possible) {
                    let before = first.is_some_and(|first| first < *index);
                    if !before && !question.holds(glance) {
                        *first = Some(*index);
                    }
                }
            });
        }
        self.ends.extend(taken);
        self.ends.sort_unstable();
    }

    /// The memory in use.
    #[must_use]
    pub fn memory(&self) -> usize {
        self.store.memory() + 4 * (self.ends.len() + self.stuck.len())
    }

    fn memory_with(&self, more: usize) -> usize {
        self.store.memory_with(more) + 4 * (self.ends.len() + self.stuck.len())
    }

    /// Whether a question was found broken.
    #[must_use]
    pub fn breaks_something(&self) -> bool {
        let places = self.never.iter().chain(&self.broken_ends);
        let mut places = places
            .chain(&self.impossible)
            .chain(&self.rounds.impossible);
        places.any(Option::is_some) || self.rounds.broken.iter().any(Option::is_some)
    }

    /// Whether one was that the text expects to hold.
    #[must_use]
    pub fn has_fault(&self, questions: &Questions) -> bool {
        let never = questions.never.iter().zip(&self.never);
        let ends = questions.ends.iter().zip(&self.broken_ends);
        let possible = questions.possible.iter().zip(&self.impossible);
        let mut broken = never.chain(ends).chain(possible);
        broken.any(|(question, broken)| broken.is_some() && !question.asking.breaks)
            || self.rounds.has_fault(questions)
    }

    /// Whether some question is not known to be broken that rounds can break.
    fn rounds_can_break(&self) -> bool {
        let ends = self.broken_ends.iter().zip(&self.rounds.broken);
        let possible = self.impossible.iter().zip(&self.rounds.impossible);
        let mut ends = ends.map(|(end, round)| end.is_none() && round.is_none());
        let mut possible = possible.map(|(end, round)| end.is_none() && round.is_none());
        ends.any(|open| open) || possible.any(|open| open)
    }
}

#[cfg(test)]
#[allow(clippy::unwrap_used)]
mod tests {
    use super::{knows_all_steps, search, Limits, Questions};
    use crate::explore::model::Model;
    use crate::text::source::Source;
    use crate::text::understand;

    /// Where the limit of 64 stations was met and a block has two ways, there are steps
    /// that only notes show.
    #[test]
    fn steps_that_only_notes_show() {
        let known = |ways: &str, idle: usize, notes: bool| {
            let text = format!(
                "tray a\ntray c\nrule desk is block ({ways})\nrule idle is take a then nothing\n\
                 start desk beside {idle} of idle\n"
            );
            let table = understand(&Source::new("", text)).unwrap().table;
            let model = if notes {
                Model::with_notes(&table).unwrap()
            } else {
                Model::of(&table)
            };
            let limits = Limits::memory(10_000_000);
            let found = search(&model, &Questions::default(), limits, &mut |_, _| {});
            assert_eq!(found.marks.full_hall.is_some(), idle == 63);
            knows_all_steps(&model, &found)
        };
        let (one, two) = ("put c, put c, end", "take a, end or else put c, put c, end");
        assert!(known(one, 62, false) && known(two, 62, false));
        assert!(known(one, 63, false));
        assert!(!known(two, 63, false));
        assert!(known(two, 63, true));
    }
}
