//! A fault is told when it is found, while the search goes on: whoever ends the
//! program then has seen it.

use super::Job;
use crate::explore::broken::{nearest, Broken, Maker};
use crate::explore::question::Question;
use crate::explore::report::{counted, told_early};
use crate::explore::search::{Questions, SoFar};
use crate::explore::ways_told::Ways;
use crate::style::Style;
use crate::table::Table;
use crate::text::tree::Program;

/// A search of fewer situations is over before anybody has read what it found on
/// its way, and tells it in the end alone.
pub(super) const MANY: u64 = 10_000;

/// The questions that were told to be broken.
pub(super) struct Faults<'a> {
    table: &'a Table,
    program: &'a Program,
    questions: &'a Questions,
    moves: bool,
    /// Their places among all.
    told: Vec<usize>,
}

impl<'a> Faults<'a> {
    pub(super) fn new(job: &'a Job<'a>) -> Faults<'a> {
        Faults {
            table: &job.loaded.table,
            program: &job.loaded.program,
            questions: &job.questions,
            moves: job.moves,
            told: Vec::new(),
        }
    }

    /// The words for what was found broken since this was last asked. A search
    /// that was cut short does not go on, and tells all of it now.
    pub(super) fn found(&mut self, so_far: SoFar<'_>, style: Style) -> Vec<String> {
        let SoFar { model, found, .. } = so_far;
        if found.situations < MANY || found.cut.is_some() {
            return Vec::new();
        }
        let maker = Maker {
            table: self.table,
            program: self.program,
            model,
            store: &found.store,
        };
        let broken = all_broken(self.questions, so_far);
        let new = broken.filter(|(question, _)| !self.told.contains(&question.place));
        let new: Vec<(&Question, Broken<'_>)> = new.collect();
        let ways = Ways {
            program: self.program,
            style,
            moves: self.moves,
        };
        // None where the engine does not go that way, which is told in the end.
        let words = new.iter().filter_map(|(question, broken)| {
            let answer = maker.answer(question, *broken).ok()?;
            let among = counted(found.situations, "situation");
            Some(told_early(&answer, &among, &ways, self.table))
        });
        let words = words.collect();
        self.told
            .extend(new.iter().map(|(question, _)| question.place));
        words
    }
}

/// The questions that are known to be broken, and by what.
fn all_broken<'a>(
    questions: &'a Questions,
    so_far: SoFar<'a>,
) -> impl Iterator<Item = (&'a Question, Broken<'a>)> {
    let SoFar {
        found,
        rounds,
        leads,
        ..
    } = so_far;
    let never = questions.never.iter().zip(&found.never);
    let never = never.map(|(question, at)| (question, at.map(Broken::At)));
    let ends = found.broken_ends.iter().zip(&rounds.broken);
    let ends = ends.map(|(end, round)| nearest(*end, *round));
    let ends = questions.ends.iter().zip(ends);
    let possible = found.impossible.iter().zip(&rounds.impossible);
    let possible = possible.map(|(end, round)| end.iter().chain(round).min().copied());
    let possible = questions.possible.iter().zip(possible);
    let possible = possible.map(|(question, at)| (question, at.map(Broken::At)));
    let leads = leads.iter().map(|led| led.as_ref()?.broken.as_ref());
    let leads = leads.map(|lasso| lasso.map(Broken::By));
    let all = never.chain(ends).chain(possible);
    let all = all.chain(questions.leads.iter().zip(leads));
    all.filter_map(|(question, broken)| Some((question, broken?)))
}

#[cfg(test)]
#[allow(clippy::unwrap_used)]
mod tests {
    use super::Faults;
    use crate::explore::model::Model;
    use crate::explore::question::Binder;
    use crate::explore::search::{search, Cut, Found, Limits, Questions, SoFar};
    use crate::style::Style;
    use crate::text::asking::Asked;
    use crate::text::source::Source;
    use crate::text::{understand, Understood};

    /// A fault is told once, and not as something that the search goes on from
    /// where it was cut short.
    #[test]
    fn a_search_that_was_cut_short_does_not_go_on() {
        let text = "tray a has 99\ntray b\ntray c\nrule r is repeatedly take a then put b\n\
            rule s is repeatedly take b then put c\nstart r beside s\n";
        let Understood { table, program, .. } = understand(&Source::new("", text)).unwrap();
        let model = Model::of(&table);
        let questions = Questions {
            never: vec![Binder::new(&table, &program)
                .read(Asked::Never, "b = 1")
                .unwrap()],
            ..Questions::default()
        };
        let limits = Limits::memory(3_000_000);
        let mut found = search(&model, &questions, limits, &mut |_, _| {});
        assert!(found.situations > 10_000 && found.cut == Some(Cut::Memory));
        let told = |found: &Found, faults: &mut Faults<'_>| {
            let model = &model;
            let so_far = SoFar::of(model, found);
            faults.found(so_far, Style::PLAIN).len()
        };
        let mut faults = Faults {
            table: &table,
            program: &program,
            questions: &questions,
            moves: false,
            told: Vec::new(),
        };
        assert_eq!(told(&found, &mut faults), 0);
        found.cut = None;
        assert_eq!(told(&found, &mut faults), 1);
        assert_eq!(told(&found, &mut faults), 0);
    }
}
