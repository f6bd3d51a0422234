//! What `hall explore --engine` finds on its way: questions that are broken, and
//! what the rules do not lead to.

use std::collections::{BTreeSet, HashSet};

use super::faults::MANY;
use super::progress::Progress;
use super::{tell_early, Job};
use crate::commands::load::Loaded;
use crate::commands::{Failure, Streams};
use crate::explore::engine::EngineFound;
use crate::explore::facts::{Answer, Asked, Verdict};
use crate::explore::investigate::Explored;
use crate::explore::model::Model;
use crate::explore::question::Question;
use crate::explore::replay::rehearse;
use crate::explore::report::{counted, told_early};
use crate::explore::search::Cut;
use crate::explore::situations::Glance;
use crate::explore::store::Index;
use crate::explore::ways_told::Ways;
use crate::style::Style;

/// For each tray the least and the most.
type Extremes = Vec<(u8, u8)>;

/// What the rules lead to.
pub(super) struct Foretold<'a> {
    explored: &'a Explored,
    /// The ends, notes left out.
    ends: HashSet<Index>,
    rounds: BTreeSet<Extremes>,
}

impl<'a> Foretold<'a> {
    pub(super) fn of(explored: &'a Explored) -> Foretold<'a> {
        let Explored { model, found, .. } = explored;
        let read = |end: &Index| model.read_without_notes(&found.store.get(*end));
        let ends = found.ends.iter();
        let rounds = explored.rounds_found().sorts.iter();
        Foretold {
            explored,
            ends: ends
                .filter_map(|end| found.store.find(&read(end)))
                .collect(),
            rounds: rounds.map(|sort| sort.extremes.clone()).collect(),
        }
    }

    fn find(&self, found: &EngineFound, situation: Index) -> Option<Index> {
        let store = &self.explored.found.store;
        store.find(found.situations.get(situation))
    }

    /// Whether these ends and rounds of the engine are among the foretold.
    fn has_last(&self, found: &EngineFound) -> bool {
        let is_end = |end: &Index| {
            let end = self.find(found, *end);
            end.is_some_and(|end| self.ends.contains(&end))
        };
        let rounds = sorts_of_rounds(&self.explored.model, found);
        found.ends.iter().all(is_end) && rounds.is_subset(&self.rounds)
    }

    /// All that the engine comes to has to be foretold, and the other way round.
    pub(super) fn compare(&self, found: &EngineFound) -> Result<(), Failure> {
        let number = |count: usize| u64::try_from(count).unwrap_or(u64::MAX);
        let situations = number(found.situations.len());
        let by_rules = self.explored.found.situations;
        let mut indexes = found.situations.indexes();
        let known = indexes.all(|index| self.find(found, index).is_some());
        let same_ends = found.ends.len() == self.ends.len() && self.has_last(found);
        let same_rounds = self.rounds == sorts_of_rounds(&self.explored.model, found);
        if known && situations == by_rules && same_ends && same_rounds {
            return Ok(());
        }
        Err(Failure::Contradiction(format!(
            "by its own steps the engine comes to {} and {}, by the rules there are {} and {}; \
             rounds that are never left are {}",
            counted(situations, "situation"),
            counted(number(found.ends.len()), "end"),
            counted(by_rules, "situation"),
            counted(number(self.ends.len()), "end"),
            if same_rounds { "alike" } else { "others" },
        )))
    }
}

/// What trays have in the rounds that the engine's halls never leave.
fn sorts_of_rounds(model: &Model, found: &EngineFound) -> BTreeSet<Extremes> {
    let extremes = |round: &Vec<Index>| {
        let mut extremes: Extremes = vec![(u8::MAX, 0); model.trays().len()];
        for situation in round {
            let (counts, _) = model.split(found.situations.get(*situation));
            for ((least, most), count) in extremes.iter_mut().zip(counts) {
                *least = (*least).min(*count);
                *most = (*most).max(*count);
            }
        }
        extremes
    };
    found.rounds.iter().map(extremes).collect()
}

/// Looks at what the engine's steps lead to, again and again.
pub(super) struct Watch<'a> {
    job: &'a Job<'a>,
    foretold: Option<&'a Foretold<'a>>,
    model: Model,
    /// For each question the first situation that is known to break it.
    broken: Vec<(&'a Question, Option<Index>)>,
    /// The questions that were told.
    told: Vec<usize>,
    /// So many situations, and so many ends and rounds, were looked at.
    looked_at: (usize, usize),
    at_odds: Option<String>,
}

impl<'a> Watch<'a> {
    pub(super) fn new(job: &'a Job<'a>, foretold: Option<&'a Foretold<'a>>) -> Watch<'a> {
        let questions = job.questions.all();
        let questions = questions.filter(|question| question.asked != Asked::Leads);
        Watch {
            job,
            foretold,
            model: Model::of(&job.loaded.table),
            broken: questions.map(|question| (question, None)).collect(),
            told: Vec::new(),
            looked_at: (0, 0),
            at_odds: None,
        }
    }

    /// Looks at what is new, and tells what is broken while the search goes on.
    /// Gives why it need not.
    pub(super) fn look(
        &mut self,
        found: &EngineFound,
        progress: &mut Progress,
        streams: &mut Streams<'_>,
    ) -> Option<Cut> {
        self.look_at_new(found);
        let mut broken = self.broken.iter().filter(|(_, broken)| broken.is_some());
        let fault = broken.any(|(question, _)| !question.asking.breaks);
        if self.at_odds.is_some() || (fault && self.job.questions.only_first) {
            return Some(Cut::Fault);
        }
        for words in self.new_words(found, streams.style) {
            progress.wipe();
            tell_early(&words, self.job.json, streams);
        }
        None
    }

    /// The first thing that the rules do not lead to.
    pub(super) fn at_odds(&mut self) -> Result<(), Failure> {
        match self.at_odds.take() {
            Some(words) => Err(Failure::Contradiction(words)),
            None => Ok(()),
        }
    }

    fn look_at_new(&mut self, found: &EngineFound) {
        let (situations, last) = self.looked_at;
        for index in found.situations.indexes().skip(situations) {
            self.look_at(found, index);
        }
        let now = found.ends.len() + found.rounds.len();
        if now > last {
            self.look_at_last(found);
        }
        self.looked_at = (found.situations.len(), now);
    }

    fn look_at(&mut self, found: &EngineFound, index: Index) {
        let glance = |question: &Question| is_so(&self.model, question, found, index);
        for (question, broken) in &mut self.broken {
            if question.asked == Asked::Never && broken.is_none() && glance(question) {
                *broken = Some(index);
            }
        }
        let known = |foretold: &Foretold<'_>| foretold.find(found, index).is_some();
        if !self.foretold.map_or(true, known) && self.at_odds.is_none() {
            let situation = found.situations.get(index);
            self.at_odds = Some(format!(
                "by its own steps the engine comes to the situation {situation:?}, to which the \
                 rules do not lead"
            ));
        }
    }

    /// Ends and rounds: from an end nothing more is reached, from a round its
    /// situations.
    fn look_at_last(&mut self, found: &EngineFound) {
        let sets = || {
            let ends = found.ends.iter().map(std::slice::from_ref);
            ends.chain(found.rounds.iter().map(Vec::as_slice))
        };
        for (question, broken) in &mut self.broken {
            let so = |index: &Index| is_so(&self.model, question, found, *index);
            match question.asked {
                Asked::Ends => *broken = sets().flatten().filter(|it| !so(it)).min().copied(),
                Asked::Possible => {
                    let without = sets().filter(|set| !set.iter().any(so));
                    *broken = without.flatten().min().copied();
                }
                Asked::Never | Asked::Leads => {}
            }
        }
        let known = |foretold: &Foretold<'_>| foretold.has_last(found);
        if !self.foretold.map_or(true, known) && self.at_odds.is_none() {
            let words = "by its own steps the engine never leaves what it leaves by the rules";
            self.at_odds = Some(words.to_owned());
        }
    }

    /// The words for what was found broken since this was last asked.
    fn new_words(&mut self, found: &EngineFound, style: Style) -> Vec<String> {
        let mut words = Vec::new();
        let halls = u64::try_from(found.halls.len()).unwrap_or(u64::MAX);
        if halls < MANY {
            return words;
        }
        let Loaded { table, program, .. } = self.job.loaded;
        // A step of the engine is a choice.
        let ways = Ways {
            program,
            style,
            moves: true,
        };
        for (question, broken) in &self.broken {
            if broken.is_none() || self.told.contains(&question.place) {
                continue;
            }
            self.told.push(question.place);
            // Where the engine does not go that way, that is told in the end.
            if let Ok(answer) = self.answer(question, *broken, found) {
                let among = counted(halls, "hall");
                words.push(told_early(&answer, &among, &ways, table));
            }
        }
        words
    }

    /// What is answered to the questions.
    pub(super) fn answers(&mut self, found: &EngineFound) -> Result<Vec<Answer>, Failure> {
        self.look_at_new(found);
        let broken = self.broken.iter();
        let answers = broken.map(|(question, broken)| self.answer(question, *broken, found));
        let mut answers = answers.collect::<Result<Vec<_>, _>>()?;
        answers.sort_by_key(|answer| answer.place);
        Ok(answers)
    }

    fn answer(
        &self,
        question: &Question,
        broken: Option<Index>,
        found: &EngineFound,
    ) -> Result<Answer, Failure> {
        let Loaded { table, program, .. } = self.job.loaded;
        let verdict = match broken {
            Some(situation) => {
                let hall = match question.asked {
                    Asked::Ends | Asked::Possible => found.last_halls.get(&situation).copied(),
                    Asked::Never | Asked::Leads => first_hall(found, situation),
                };
                let choices = found.choices_to(table, hall.unwrap_or(0))?;
                let witness = rehearse(table, program, &self.model, &choices)?;
                Verdict::Broken(Box::new(witness), Vec::new())
            }
            None if found.cut.is_none() => Verdict::Holds,
            None => Verdict::Open,
        };
        Ok(Answer::of(question, verdict))
    }
}

fn is_so(model: &Model, question: &Question, found: &EngineFound, index: Index) -> bool {
    let (counts, codes) = model.split(found.situations.get(index));
    question.holds(Glance::of_codes(counts, codes, model.first_noted()))
}

fn first_hall(found: &EngineFound, situation: Index) -> Option<Index> {
    let place = usize::try_from(situation).ok()?;
    found.first_hall.get(place).copied()
}

#[cfg(test)]
#[allow(clippy::unwrap_used)]
mod tests {
    use std::time::Instant;

    use super::super::progress::Progress;
    use super::super::Job;
    use super::{counted, Foretold, Watch};
    use crate::commands::load::Loaded;
    use crate::commands::{Failure, Streams};
    use crate::explore::engine::{engine_search, EngineFound};
    use crate::explore::investigate::{investigate, Explored};
    use crate::explore::search::{Cut, Limits, Questions};
    use crate::style::Style;
    use crate::text::source::Source;
    use crate::text::{understand, Understood};

    /// Workers who use up what they have as long as there is a key, and somebody who
    /// may take it away at once.
    const KEY: &str = "tray key has 1\ntray s0 has 12\ntray s1 has 12\ntray s2 has 12\n\
        rule thief is take key then nothing\n\
        rule w0 is repeatedly take key then take s0 then put key\n\
        rule w1 is repeatedly take key then take s1 then put key\n\
        rule w2 is repeatedly take key then take s2 then put key\n\
        start thief beside w0 beside w1 beside w2\n";

    const NEVER_LEFT: &str = "by its own steps the engine never leaves what it leaves by the rules";

    fn loaded(text: &str) -> Loaded {
        let Understood {
            table,
            program,
            terms,
            notes,
            exact,
        } = understand(&Source::new("", text)).unwrap();
        Loaded {
            source: None,
            program,
            table,
            terms,
            choice_bytes: Vec::new(),
            notes,
            exact,
        }
    }

    fn by_rules(text: &str) -> Explored {
        let (questions, limits) = (Questions::default(), Limits::memory(10_000_000));
        investigate(&loaded(text).table, &questions, limits, &mut |_, _| {})
    }

    /// What the engine's steps of a text come to beside what is foretold, and what is
    /// said of the difference.
    fn watched(text: &str, explored: &Explored) -> (EngineFound, Option<String>) {
        let loaded = loaded(text);
        let job = Job {
            name: "",
            loaded: &loaded,
            questions: Questions::default(),
            limits: Limits::memory(100_000_000),
            began: Instant::now(),
            most_nodes: None,
            json: false,
            quiet: false,
            moves: false,
        };
        let foretold = Foretold::of(explored);
        let mut watch = Watch::new(&job, Some(&foretold));
        let mut streams = Streams {
            input: &mut std::io::empty(),
            out: &mut std::io::sink(),
            err: &mut std::io::sink(),
            style: Style::PLAIN,
            err_style: Style::PLAIN,
            out_is_terminal: false,
            input_is_terminal: false,
        };
        let found = engine_search(&loaded.table, job.limits, &mut |found, _| {
            watch.look(found, &mut Progress::new(), &mut streams)
        });
        let found = found.unwrap();
        watch.look_at_new(&found);
        let said = match watch.at_odds().and_then(|()| foretold.compare(&found)) {
            Err(Failure::Contradiction(words)) => Some(words),
            _ => None,
        };
        (found, said)
    }

    /// What the rules do not lead to ends the search when it is found.
    #[test]
    fn a_difference_ends_the_search() {
        let (found, said) = watched(KEY, &by_rules(KEY));
        assert_eq!((found.cut, said), (None, None));
        let all = found.halls.len();
        assert!(all > 5_000, "{all}");

        // By these rules one of them acts once.
        let other = KEY.replace("rule w2 is repeatedly take", "rule w2 is take");
        let (found, said) = watched(KEY, &by_rules(&other));
        assert_eq!(found.cut, Some(Cut::Fault));
        assert!(found.halls.len() < all / 2, "{}", found.halls.len());
        assert!(said.unwrap().ends_with("to which the rules do not lead"));

        let mut no_ends = by_rules(KEY);
        no_ends.found.ends.clear();
        let (found, said) = watched(KEY, &no_ends);
        assert_eq!(found.cut, Some(Cut::Fault));
        assert!(found.halls.len() < all / 2, "{}", found.halls.len());
        assert_eq!(said.as_deref(), Some(NEVER_LEFT));
    }

    /// The same of rounds.
    #[test]
    fn a_round_of_the_engine_alone_ends_the_search() {
        let clock = "tray tick has 1\nrule clock is repeatedly take tick then put tick\n";
        let text = KEY.replace("start ", &format!("{clock}start clock beside "));
        let mut explored = by_rules(&text);
        let (found, said) = watched(&text, &explored);
        assert_eq!((found.cut, said), (None, None));
        assert!(found.ends.is_empty() && found.rounds.len() > 1);
        explored.rounds.as_mut().unwrap().sorts.remove(0);
        let (found, said) = watched(&text, &explored);
        assert_eq!(found.cut, Some(Cut::Fault));
        assert_eq!(said.as_deref(), Some(NEVER_LEFT));
    }

    /// That the engine does not come to something is known in the end.
    #[test]
    fn what_is_missing_is_found_out() {
        let mut more = by_rules(KEY);
        more.found.situations += 1;
        let (found, said) = watched(KEY, &more);
        assert_eq!(found.cut, None);
        let situations = counted(more.found.situations, "situation");
        let words = format!("by the rules there are {situations} and ");
        assert!(said.unwrap().contains(&words), "{words}");
    }
}
