//! Which choices a run makes.

use ruonfidd::Choice;

use crate::commands::load::{self, Choices, Loaded};
use crate::commands::Streams;
use crate::lesson::choices_of;
use crate::rehearsal::position_of;
use crate::text::choices::{Ask, Called, Line};
use crate::text::source::{Source, Span};

/// What is run: lines, and bytes that are no choice behind them.
pub(crate) struct Script {
    pub(crate) source: Source,
    pub(crate) lines: Vec<Line>,
    pub(crate) leftover: Vec<u8>,
}

/// The choices to make: of the second file, else those of the first.
pub(crate) fn script(
    name: &str,
    choices: Option<&str>,
    loaded: &mut Loaded,
    streams: &mut Streams<'_>,
) -> Result<Option<Script>, load::Unloaded> {
    if let Some(file) = choices {
        return Ok(Some(match load::choices(file, &loaded.program, streams)? {
            Choices::Lines(source, lines) => Script {
                source,
                lines,
                leftover: Vec::new(),
            },
            Choices::Bytes(bytes) => of_bytes(file, &bytes),
        }));
    }
    if let (Some(lines), Some(source)) = (loaded.program.choices.take(), &loaded.source) {
        return Ok(Some(Script {
            source: source.clone(),
            lines,
            leftover: Vec::new(),
        }));
    }
    if loaded.choice_bytes.is_empty() {
        return Ok(None);
    }
    Ok(Some(of_bytes(name, &loaded.choice_bytes)))
}

/// Choices given as bytes, as if they were lines of a text that says so.
fn of_bytes(name: &str, bytes: &[u8]) -> Script {
    let (choices, leftover) = choices_of(bytes);
    let mut text = String::new();
    let mut lines = Vec::new();
    for choice in choices {
        let position = Called::Position(position_of(choice));
        let (words, ask) = match choice {
            Choice::Inside { position: at, node } => {
                (format!("step {at} node {node}"), Ask::Step(position, node))
            }
            _ => (format!("act {}", position_of(choice)), Ask::Act(position)),
        };
        let span = Span::new(text.len(), text.len() + words.len());
        lines.push(Line {
            ask,
            expected: None,
            span,
            called: span,
        });
        text.push_str(&words);
        text.push('\n');
    }
    let rest: Vec<String> = leftover.iter().take(8).map(u8::to_string).collect();
    text.push_str(&rest.join(" "));
    Script {
        source: Source::new(format!("{name} (choices)"), text),
        lines,
        leftover: leftover.to_vec(),
    }
}
