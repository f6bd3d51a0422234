//! What goes wrong in a lesson, told on its text.

use ruonfidd::Refusal;

use crate::lesson::Lesson;
use crate::names::Lost;
use crate::rules::{self, Rule};
use crate::text::choices::{Expected, Line};
use crate::text::problems::Problem;
use crate::text::source::{Source, Span};

/// The head of a refusal that ends a run.
pub(crate) fn ends_here(refusal: Refusal) -> String {
    format!("the run ends here: refused {}", refusal.number)
}

/// A refusal that the lesson does not expect.
pub(crate) fn unexpected(
    line: &Line,
    refusal: Refusal,
    reason: String,
    instead: Option<String>,
) -> Problem {
    let problem = Problem::error(line.span, ends_here(refusal))
        .code("lesson")
        .label(reason);
    let problem = match line.expected {
        Some(expected) => problem.help(format!("'{}' was expected", expected_words(expected))),
        None => problem,
    };
    match instead {
        Some(words) => problem.help(words),
        None => problem,
    }
}

pub(crate) fn expected_words(expected: Expected) -> String {
    match expected {
        Expected::Rule(number) => {
            rules::by_number(number).map_or(String::new(), |rule| rule.word.to_owned())
        }
        Expected::Refused(None) => "refused".to_owned(),
        Expected::Refused(Some(number)) => format!("refused {number}"),
    }
}

/// The problem where the answer is not the expected one.
pub(crate) fn missed(line: &Line, rule: Rule) -> Option<Problem> {
    match line.expected {
        Some(expected) if expected != Expected::Rule(rule.number) => {
            let message = format!(
                "'{}' was expected here, and the answer is '{}'",
                expected_words(expected),
                rule.word
            );
            Some(Problem::error(line.span, message).code("lesson"))
        }
        _ => None,
    }
}

/// Why words lead to no station.
pub(crate) fn lost_problem(
    source: &Source,
    lesson: &Lesson<'_>,
    span: Span,
    lost: &Lost,
) -> Problem {
    let words = source.piece(span);
    let names = &lesson.now().names;
    let standing: Vec<String> = (0..names.len().min(8)).map(|at| names.name(at)).collect();
    let more = if names.len() > 8 { ", ..." } else { "" };
    let standing = if standing.is_empty() {
        "no station stands in the hall".to_owned()
    } else {
        format!("now there are: {}{more}", standing.join(", "))
    };
    let problem = match lost {
        Lost::Unknown => Problem::error(span, format!("no station is called '{words}'")),
        Lost::Gone => Problem::error(span, format!("'{words}' does not stand any more")),
        Lost::Several(count, first) => {
            return Problem::error(span, format!("there are {count} of '{words}'"))
                .code("lesson")
                .label(format!("say which, as '{first}'"));
        }
        Lost::OtherNumber => Problem::error(span, format!("'{words}' does not stand now")),
    };
    problem.code("lesson").help(standing)
}
