//! What an exploration has to say, with every way in it made on the library.

use std::collections::HashMap;

use crate::table::Table;
use crate::text::asking::Event;
use crate::text::tree::Program;
use crate::ways::action_words;

pub use crate::text::asking::Asked;

use super::broken::{nearest, Broken, Maker};
use super::endless::{endless, Allowed, Endless};
use super::investigate::{Exact, Explored, Possible};
use super::labels::Labels;
use super::model::Kind;
use super::question::Question;
use super::replay::{Contradiction, Replay, Witness};
use super::search::{Barred, Cut, Limits, Questions};
use super::steps::Limit;
use super::store::Index;
use super::waiting::{InRound, Left};

/// All that is reported of an exploration.
#[derive(Clone, Debug)]
pub struct Facts {
    /// The ends, those with the same counts taken together, the nearest first.
    pub ends: Vec<End>,
    /// How many sorts of ends there are; some may be left out of `ends`.
    pub sorts: usize,
    /// Why not all ends that were wanted are told.
    pub ends_cut: Option<Cut>,
    /// The rounds that are never left, those in which trays have the same taken
    /// together, the nearest first; none where they are not known.
    pub rounds: Option<Vec<LastRound>>,
    /// Why not all rounds that were wanted are told.
    pub rounds_cut: Option<Cut>,
    /// For each tray in use its name, and the least and the most it ever has.
    pub trays: Vec<(String, u8, u8)>,
    /// Stations that stand in some situation and act in none.
    pub never_act: Vec<String>,
    /// Stations that the table could open and that never stand there.
    pub never_open: Vec<String>,
    /// Ways of blocks that are never taken: the block, the way's number and its
    /// words.
    pub never_taken: Vec<(String, usize, String)>,
    /// Whether a run can go on for ever.
    pub for_ever: ForEver,
    /// Whether one can without a commit.
    pub for_ever_no_commit: ForEver,
    /// Where 19 was first met.
    pub full_hall: Option<Witness>,
    /// Where 20 was first met.
    pub full_tray: Option<Witness>,
    /// What is answered to the questions.
    pub answers: Vec<Answer>,
}

/// Ends that are told, how many sorts there are, and why not all are told.
struct Ends {
    told: Vec<End>,
    sorts: usize,
    cut: Option<Cut>,
}

/// So many sorts of ends are told whatever the limits are.
const ALWAYS_TOLD: usize = 12;

/// So many ends are sorted between two looks at the limits.
const BETWEEN_LOOKS: usize = 1 << 12;

/// Ends with the same counts.
#[derive(Clone, Debug)]
pub struct End {
    /// The counts of the trays in use.
    pub counts: Vec<u8>,
    /// How many situations.
    pub situations: usize,
    /// The shortest way to one of them.
    pub witness: Witness,
    /// Who is left there.
    pub left: Vec<Left>,
}

/// Rounds that are never left, and in which trays have the same.
#[derive(Clone, Debug)]
pub struct LastRound {
    /// For each tray in use the least and the most that it has there.
    pub extremes: Vec<(u8, u8)>,
    /// How many rounds.
    pub rounds: usize,
    /// How many situations the nearest of them has.
    pub situations: u64,
    /// The shortest way into it.
    pub witness: Witness,
    /// Who goes on in it, and who does not.
    pub who: InRound,
}

/// Whether a run can go on for ever.
#[derive(Clone, Debug)]
pub enum ForEver {
    /// Every run ends.
    No,
    /// A way into a round, of which so many choices come before the round.
    Yes(Box<Witness>, usize),
    /// None was found, and not all is known.
    Unknown,
}

/// The answer to a question.
#[derive(Clone, Debug)]
pub struct Answer {
    /// What was asked.
    pub asked: Asked,
    /// The question.
    pub question: String,
    /// What was found.
    pub verdict: Verdict,
    /// Where it is broken in a round that is never left: who goes on there.
    pub round: Option<InRound>,
    /// Where it is broken by a round.
    pub again: Option<Again>,
    /// What had to be gone through once more for it: situations, steps, bytes.
    pub cost: Option<(usize, usize, usize)>,
    /// Whether the text says that it is broken.
    pub breaks: bool,
    /// Whether it is about what can happen next.
    pub of_events: bool,
    /// Which of all that are asked it is.
    pub place: usize,
}

/// A round at the end of a way, which can be gone through again and again.
#[derive(Clone, Copy, Debug, PartialEq, Eq)]
pub struct Again {
    /// How many choices of the way come before it.
    pub before: usize,
    /// How many steps it has.
    pub steps: usize,
}

/// What was found.
#[derive(Clone, Debug)]
pub enum Verdict {
    /// All situations are known, and none breaks it.
    Holds,
    /// The shortest way to a situation that breaks it; where it is an end, who
    /// is left there.
    Broken(Box<Witness>, Vec<Left>),
    /// None was found that breaks it, and not all are known.
    Open,
}

/// Collects the facts.
#[derive(Clone, Copy, Debug)]
pub struct Collector<'a> {
    /// The table.
    pub table: &'a Table,
    /// Its text.
    pub program: &'a Program,
    /// What was found.
    pub explored: &'a Explored,
    /// What was asked.
    pub questions: &'a Questions,
    /// What looking for rounds may cost.
    pub limits: Limits,
    /// So many sorts of ends are told.
    pub most_ends: usize,
}

impl Collector<'_> {
    /// All facts.
    ///
    /// # Errors
    ///
    /// Where the engine does not go one of the ways found.
    pub fn collect(&self) -> Result<Facts, Contradiction> {
        let answers = self.answers()?;
        let ends = self.ends()?;
        let (rounds, rounds_cut) = self.rounds()?;
        let labels = Labels::of(self.table, self.program, &self.explored.model);
        let (never_act, never_open) = self.never_act(&labels);
        let marks = &self.explored.found.marks;
        let for_ever_no_commit = self.for_ever(Allowed::NoCommit)?;
        let for_ever = match &for_ever_no_commit {
            known @ ForEver::Yes(..) => known.clone(),
            known if !marks.commits => known.clone(),
            _ => self.for_ever(Allowed::Any)?,
        };
        Ok(Facts {
            ends: ends.told,
            sorts: ends.sorts,
            ends_cut: ends.cut,
            rounds,
            rounds_cut,
            trays: self.trays(),
            never_act,
            never_open,
            never_taken: self.never_taken(&labels),
            for_ever,
            for_ever_no_commit,
            full_hall: self.barred(marks.full_hall, Limit::Stations)?,
            full_tray: self.barred(marks.full_tray, Limit::Tray)?,
            answers,
        })
    }

    fn maker(&self) -> Maker<'_> {
        Maker {
            table: self.table,
            program: self.program,
            model: &self.explored.model,
            store: &self.explored.found.store,
        }
    }

    /// The ends are found in the order of their distance, so the first of a
    /// sort is the nearest. The nearest few are told whatever the limits are.
    fn ends(&self) -> Result<Ends, Contradiction> {
        let (sorts, cut) = self.sorts_of_ends();
        let memory = sorts.len() * self.memory_of_a_sort();
        let (told, met) = self.within_limits(&sorts, memory, |(index, situations)| {
            let end = self.end(*index, *situations)?;
            let memory = end.witness.memory();
            Ok((end, memory))
        })?;
        Ok(Ends {
            told,
            sorts: sorts.len(),
            cut: met.or(cut),
        })
    }

    /// Tells one after the other, as many as are wanted and as the limits allow;
    /// and which limit was met.
    fn within_limits<S, T>(
        &self,
        sorts: &[S],
        mut memory: usize,
        tell: impl Fn(&S) -> Result<(T, usize), Contradiction>,
    ) -> Result<(Vec<T>, Option<Cut>), Contradiction> {
        let mut told = Vec::new();
        for sort in sorts.iter().take(self.most_ends) {
            if told.len() >= ALWAYS_TOLD {
                if let Some(cut) = self.met(memory) {
                    return Ok((told, Some(cut)));
                }
            }
            let (one, more) = tell(sort)?;
            memory += more;
            told.push(one);
        }
        Ok((told, None))
    }

    fn end(&self, index: Index, situations: usize) -> Result<End, Contradiction> {
        let Explored { model, found, .. } = self.explored;
        let witness = self.maker().way_to(index)?;
        let situation = found.store.get(index);
        let (counts, _) = model.split(&situation);
        Ok(End {
            counts: counts.to_vec(),
            situations,
            left: self.maker().left_at(&witness),
            witness,
        })
    }

    /// For each sort of ends its first one, and how many there are; and why not
    /// all ends were looked at.
    fn sorts_of_ends(&self) -> (Vec<(Index, usize)>, Option<Cut>) {
        let Explored { model, found, .. } = self.explored;
        let mut sorts: Vec<(Index, usize)> = Vec::new();
        let mut of_counts: HashMap<Vec<u8>, usize> = HashMap::new();
        let mut situation = Vec::new();
        for ends in found.ends.chunks(BETWEEN_LOOKS) {
            for index in ends {
                found.store.read(*index, &mut situation);
                let (counts, _) = model.split(&situation);
                let counts = self.questions.left_over(counts);
                let known = of_counts.get(&counts).copied();
                if let Some((_, situations)) = known.and_then(|sort| sorts.get_mut(sort)) {
                    *situations += 1;
                } else {
                    of_counts.insert(counts, sorts.len());
                    sorts.push((*index, 1));
                }
            }
            if let Some(cut) = self.met(sorts.len() * self.memory_of_a_sort()) {
                return (sorts, Some(cut));
            }
        }
        (sorts, None)
    }

    /// As of ends, the nearest are told first.
    fn rounds(&self) -> Result<(Option<Vec<LastRound>>, Option<Cut>), Contradiction> {
        let Some(rounds) = &self.explored.rounds else {
            return Ok((None, None));
        };
        let (told, cut) = self.within_limits(&rounds.sorts, 0, |sort| {
            let witness = self.maker().way_to(sort.first)?;
            let memory = witness.memory();
            let round = LastRound {
                extremes: sort.extremes.clone(),
                rounds: sort.rounds,
                situations: sort.situations,
                who: self.maker().in_round(&witness, sort.acting),
                witness,
            };
            Ok((round, memory))
        })?;
        Ok((Some(told), cut))
    }

    /// Which limit is met with so many bytes more than the exploration uses.
    fn met(&self, more: usize) -> Option<Cut> {
        self.limits.met(self.explored.found.memory() + more)
    }

    fn memory_of_a_sort(&self) -> usize {
        // Its counts stand apart, and not all room for entries is taken.
        self.explored.model.trays().len() + 80
    }

    fn trays(&self) -> Vec<(String, u8, u8)> {
        let trays = self.explored.model.trays().iter();
        trays
            .zip(&self.explored.found.extremes)
            .map(|(tray, (least, most))| (self.program.tray_name(*tray), *least, *most))
            .collect()
    }

    /// Codes that stand somewhere and never act, and codes that never stand
    /// anywhere: what opens is what acts and the start put there.
    fn never_act(&self, labels: &Labels) -> (Vec<String>, Vec<String>) {
        let Explored { model, found, .. } = self.explored;
        let mut stood = vec![false; model.kinds().len()];
        let mut mark = |codes: &[u8]| {
            for code in codes {
                if let Some(stood) = stood.get_mut(usize::from(*code)) {
                    *stood = true;
                }
            }
        };
        mark(model.split(model.opening()).1);
        for (kind, (acted, taken)) in self.kinds_with_marks() {
            match kind {
                Kind::Take { opens, .. } if acted => mark(opens),
                Kind::Block { ways, .. } => {
                    for (bit, way) in ways.iter().enumerate() {
                        if taken >> bit & 1 == 1 {
                            mark(&way.puts);
                        }
                    }
                }
                _ => {}
            }
        }
        let mut never_act = Vec::new();
        let mut never_open = Vec::new();
        for (code, (kind, (acted, taken))) in (0_u8..).zip(self.kinds_with_marks()) {
            let stood = stood.get(usize::from(code)).copied().unwrap_or(false);
            if matches!(kind, Kind::Noted { .. }) || acted || taken > 0 {
                continue;
            }
            if stood {
                never_act.push(labels.told(code));
            } else if found.cut.is_none() {
                never_open.push(labels.told(code));
            }
        }
        (never_act, never_open)
    }

    fn kinds_with_marks(&self) -> impl Iterator<Item = (&Kind, (bool, u8))> {
        let Explored { model, found, .. } = self.explored;
        let marks = found.marks.acted.iter().zip(&found.marks.taken);
        let marks = marks.map(|(acted, taken)| (*acted, *taken));
        model.kinds().iter().zip(marks)
    }

    /// Of all blocks, those that never act too.
    fn never_taken(&self, labels: &Labels) -> Vec<(String, usize, String)> {
        let mut never = Vec::new();
        for (code, (kind, (_, taken))) in (0_u8..).zip(self.kinds_with_marks()) {
            let Kind::Block { ways, .. } = kind else {
                continue;
            };
            for (bit, way) in ways.iter().enumerate() {
                if taken >> bit & 1 == 0 {
                    let words = action_words(self.program, &way.actions);
                    never.push((labels.told(code), way.number, words));
                }
            }
        }
        never
    }

    fn for_ever(&self, allowed: Allowed) -> Result<ForEver, Contradiction> {
        let Explored { model, found, .. } = self.explored;
        let round = match endless(model, found, allowed, self.limits) {
            Endless::No if self.explored.complete() => return Ok(ForEver::No),
            Endless::No | Endless::Unknown(_) => return Ok(ForEver::Unknown),
            Endless::Round(round) => round,
        };
        let mut replay = Replay::open(self.table, self.program, model)?;
        if let Some(first) = round.first() {
            replay.follow(&found.store, &found.store.way_to(*first))?;
        }
        let before = replay.choices();
        replay.follow(&found.store, &round)?;
        Ok(ForEver::Yes(Box::new(replay.witness()), before))
    }

    fn barred(
        &self,
        barred: Option<Barred>,
        limit: Limit,
    ) -> Result<Option<Witness>, Contradiction> {
        let Some(Barred { at, code }) = barred else {
            return Ok(None);
        };
        let Explored { model, found, .. } = self.explored;
        let mut replay = Replay::open(self.table, self.program, model)?;
        replay.follow(&found.store, &found.store.way_to(at))?;
        replay.refused(code, limit.number())?;
        Ok(Some(replay.witness()))
    }

    /// The answers to the questions alone.
    ///
    /// # Errors
    ///
    /// Where the engine does not go one of the ways found.
    pub fn answers(&self) -> Result<Vec<Answer>, Contradiction> {
        let found = &self.explored.found;
        let mut answers = Vec::new();
        for (question, broken) in self.questions.never.iter().zip(&found.never) {
            let broken = broken.map(Broken::At);
            answers.push(self.answer(question, broken, self.explored.complete())?);
        }
        for (number, question) in self.questions.ends.iter().enumerate() {
            let end = found.broken_ends.get(number).copied().flatten();
            let round = self.explored.rounds_found().broken.get(number);
            let broken = nearest(end, round.copied().flatten());
            answers.push(self.answer(question, broken, self.explored.ends_known())?);
        }
        for (number, question) in self.questions.possible.iter().enumerate() {
            let broken = match self.explored.possible.get(number) {
                Some(Possible::NotFrom(index)) => Some(*index),
                Some(Possible::Always) => None,
                None => self.explored.seen_impossible(number),
            };
            let broken = broken.map(Broken::At);
            answers.push(self.answer(question, broken, self.explored.ends_known())?);
        }
        for (number, question) in self.questions.leads.iter().enumerate() {
            let led = self.explored.leads.get(number).and_then(Option::as_ref);
            answers.push(match led {
                Some(led) => self.maker().led(question, led)?,
                None => Answer::of(question, Verdict::Open),
            });
        }
        answers.sort_by_key(|answer| answer.place);
        Ok(answers)
    }

    /// What is broken so, or is not seen to be broken where all is known or not.
    fn answer(
        &self,
        question: &Question,
        broken: Option<Broken<'_>>,
        all_known: bool,
    ) -> Result<Answer, Contradiction> {
        let verdict = match broken {
            Some(broken) => return self.maker().answer(question, broken),
            None if all_known => self.holds(question),
            None => Verdict::Open,
        };
        Ok(Answer::of(question, verdict))
    }

    /// With notes an attempt can fail in ways that no situation tells.
    fn holds(&self, question: &Question) -> Verdict {
        if self.explored.exact == Exact::WithNotes
            && question.asks_for(|event| event == Event::Fails)
        {
            Verdict::Open
        } else {
            Verdict::Holds
        }
    }
}

impl Answer {
    /// An answer that no round is in the way of.
    #[must_use]
    pub fn of(question: &Question, verdict: Verdict) -> Answer {
        Answer {
            asked: question.asked,
            question: question.text.clone(),
            verdict,
            round: None,
            again: None,
            cost: None,
            breaks: question.asking.breaks,
            of_events: question.asked == Asked::Never && question.asks_for(|_| true),
            place: question.place,
        }
    }

    /// The question as it is told.
    #[must_use]
    pub fn told(&self) -> String {
        self.asked.told(&self.question)
    }

    /// Whether it is as it should be: it holds, or is broken where the text says
    /// so.
    #[must_use]
    pub fn as_expected(&self) -> bool {
        match self.verdict {
            Verdict::Holds => !self.breaks,
            Verdict::Broken(..) => self.breaks,
            Verdict::Open => false,
        }
    }
}

impl Facts {
    /// Whether every question was answered as it should be.
    #[must_use]
    pub fn all_hold(&self) -> bool {
        self.answers.iter().all(Answer::as_expected)
    }
}
