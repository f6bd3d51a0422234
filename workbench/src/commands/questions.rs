//! The questions of a text.

use super::load::Loaded;
use crate::explore::question::Binder;
use crate::explore::search::Questions;
use crate::text::ask_item;
use crate::text::problems::Problem;
use crate::text::source::Source;

/// What is asked, or what is wrong with it.
pub(super) enum Asking {
    /// All questions.
    Asked(Questions),
    /// The text, and its questions that no situation could answer.
    Wrong(Source, Vec<Problem>),
}

/// The questions that a text asks, and what may stay at its ends.
pub(super) fn of_text(binder: &Binder<'_>, loaded: &Loaded) -> Asking {
    let mut questions = Questions {
        may_stay: binder.may_stay(),
        ..Questions::default()
    };
    let mut problems = Vec::new();
    let Some(source) = &loaded.source else {
        return Asking::Asked(questions);
    };
    for ask in &loaded.program.questions {
        match binder.bind(&ask.asking) {
            Ok(question) => questions.add(question),
            Err(mistake) => problems.push(ask_item::problem(source, ask.span, &mistake)),
        }
    }
    if problems.is_empty() {
        Asking::Asked(questions)
    } else {
        Asking::Wrong(source.clone(), problems)
    }
}
