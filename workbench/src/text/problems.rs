//! What is wrong with a text, and how it is told: file, line and column, the
//! line itself, carets with a label, then what helps.

use std::fmt::Write as _;

use super::source::{Source, Span};
use crate::style::Style;

/// At most so many problems of a text are told.
pub const MOST_PROBLEMS: usize = 10;

/// How wide a quoted line may be.
const MOST_COLUMNS: usize = 100;

/// Errors refuse, notes do not.
#[derive(Clone, Copy, Debug, PartialEq, Eq)]
pub enum Level {
    /// The text makes no table, or the lesson is not met.
    Error,
    /// Worth saying.
    Note,
}

impl Level {
    /// The word for it.
    #[must_use]
    pub fn word(self) -> &'static str {
        match self {
            Level::Error => "error",
            Level::Note => "note",
        }
    }
}

/// A number that the engine gives.
#[derive(Clone, Copy, Debug, PartialEq, Eq)]
pub struct Answered {
    /// The number of the refusal.
    pub number: u8,
    /// Where it was; none where the engine was not asked, since there were no
    /// bytes to ask about.
    pub place: Option<usize>,
}

/// One thing that is wrong.
#[derive(Clone, Debug, PartialEq, Eq)]
pub struct Problem {
    /// How bad it is.
    pub level: Level,
    /// What found it, for programs: `text`, `engine` or `lesson`.
    pub code: &'static str,
    /// What the carets are under.
    pub span: Span,
    /// What is wrong.
    pub message: String,
    /// What to do about it, beside the carets.
    pub label: String,
    /// Further help, a line each.
    pub help: Vec<String>,
    /// The engine's number, where it has one.
    pub refusal: Option<Answered>,
}

impl Problem {
    /// An error of the text.
    #[must_use]
    pub fn error(span: Span, message: impl Into<String>) -> Problem {
        Problem {
            level: Level::Error,
            code: "text",
            span,
            message: message.into(),
            label: String::new(),
            help: Vec::new(),
            refusal: None,
        }
    }

    /// A note.
    #[must_use]
    pub fn note(span: Span, message: impl Into<String>) -> Problem {
        Problem {
            level: Level::Note,
            ..Problem::error(span, message)
        }
    }

    /// The same with another code.
    #[must_use]
    pub fn code(mut self, code: &'static str) -> Problem {
        self.code = code;
        self
    }

    /// The same with words beside the carets.
    #[must_use]
    pub fn label(mut self, label: impl Into<String>) -> Problem {
        self.label = label.into();
        self
    }

    /// The same with one more line of help.
    #[must_use]
    pub fn help(mut self, help: impl Into<String>) -> Problem {
        self.help.push(help.into());
        self
    }

    /// The engine would give this number, were it asked.
    #[must_use]
    pub fn would_be(mut self, number: u8) -> Problem {
        self.refusal = Some(Answered {
            number,
            place: None,
        });
        self
    }

    /// The engine gave this number.
    #[must_use]
    pub fn answered(mut self, number: u8, place: usize) -> Problem {
        self.code = "engine";
        self.refusal = Some(Answered {
            number,
            place: Some(place),
        });
        self
    }
}

/// The lines that tell a problem, each with its end.
#[must_use]
pub fn told(source: &Source, problem: &Problem, style: Style) -> String {
    let at = source.position(problem.span.start);
    let word = match problem.level {
        Level::Error => style.bad(problem.level.word()),
        Level::Note => style.bold(problem.level.word()),
    };
    let mut lines = format!(
        "{}:{}:{}: {word}: {}\n",
        source.name, at.line, at.column, problem.message
    );
    let line = source.line(problem.span.start);
    let carets = carets(source, problem.span, line, at.column);
    let (shown, column) = excerpt(line, at.column);
    let _ = writeln!(lines, "{:>5} | {shown}", at.line);
    let marks = format!(
        "{}{} {}",
        " ".repeat(column.saturating_sub(1)),
        "^".repeat(carets),
        problem.label
    );
    let _ = writeln!(lines, "      | {}", marks.trim_end());
    for help in &problem.help {
        let _ = writeln!(lines, "      = {help}");
    }
    if let Some(answer) = problem.refusal {
        let _ = writeln!(lines, "      = {}", answer_line(answer));
    }
    lines
}

/// The engine's number in a sentence.
#[must_use]
pub fn answer_line(answer: Answered) -> String {
    let Answered { number, place } = answer;
    match place {
        Some(place) => format!("the engine answered: refused {number} at byte {place}"),
        None => format!("the engine would answer: refused {number}"),
    }
}

/// How many carets: as long as the span is on its first line, and at least one.
fn carets(source: &Source, span: Span, line: &str, column: usize) -> usize {
    let length = source.piece(span).chars().count();
    let room = (line.chars().count() + 1).saturating_sub(column);
    length.min(room).clamp(1, MOST_COLUMNS / 2)
}

/// A line as it is shown, and the column in it: a long one is cut around the
/// column, and a tab or a character that would not show as one is replaced.
fn excerpt(line: &str, column: usize) -> (String, usize) {
    let shown: Vec<char> = line.chars().map(shown_as).collect();
    if shown.len() <= MOST_COLUMNS {
        return (shown.into_iter().collect(), column);
    }
    let first = column
        .saturating_sub(MOST_COLUMNS / 2)
        .min(shown.len() - MOST_COLUMNS);
    let piece = shown.iter().skip(first).take(MOST_COLUMNS).collect();
    (piece, column - first)
}

fn shown_as(character: char) -> char {
    if character == '\t' {
        ' '
    } else if hidden(character) {
        '?'
    } else {
        character
    }
}

/// Characters that a text may not have: they do not show, or turn around how a
/// line is shown.
#[must_use]
pub fn hidden(character: char) -> bool {
    character.is_control()
        || matches!(character,
            '\u{200b}'..='\u{200f}' | '\u{2028}'..='\u{202e}' | '\u{2060}'..='\u{206f}'
            | '\u{061c}' | '\u{feff}' | '\u{fff9}'..='\u{fffb}')
}
