//! The list of edges: a name and bytes to a line, and what is printed of each.
//!
//! A line is a name, a colon, and bytes in decimal; `3x1,0` stands for
//! `1 0 1 0 1 0`. Where `/` cuts the bytes in three they are a table, a stored
//! hall and choices; a fourth part is the tally that the calls begin with, four
//! bytes a counter, the highest first. A line without a colon is a heading.
//!
//! Of a line its name is printed, then its printed run; of a line with a stored
//! hall, then what the calls answer:
//!
//! | Line | What it tells |
//! |---|---|
//! | `H number place` | checking the hall |
//! | `O number place` | opening a hall in its place |
//! | `M number place rule tray by` | the first choice alone, and what was short |
//! | `R number place done` | all choices |
//! | `C commits failed retries` | the tally after them |
//! | `B` and bytes | the hall after them, without the zeros at its end |
//! | `S number place kind position node` | what is suggested for that hall |

use crate::calls::{self, Answer, StepAnswer};
use crate::choice::Choice;
use crate::print::printed_run;
use crate::run::Tally;
use crate::shortage::Shortage;
use crate::table::Refusal;

/// A list longer than this is not read whole.
pub const LONGEST_LIST: usize = 65_536;

/// A line with more bytes than this is not read whole.
pub const MOST_BYTES: usize = 16_400;

/// A line of the list.
#[derive(Clone, Debug, PartialEq, Eq)]
pub enum Line {
    /// A line that is printed as it stands.
    Heading(String),
    /// The input of a printed run.
    Input {
        /// What it tries.
        name: String,
        /// Its bytes.
        input: Vec<u8>,
    },
    /// A call on a stored hall.
    Stored {
        /// What it tries.
        name: String,
        /// The table's bytes.
        table: Vec<u8>,
        /// The hall's.
        hall: Vec<u8>,
        /// The choices'.
        choices: Vec<u8>,
        /// The first tally.
        first: Tally,
    },
}

/// The lines of a list.
///
/// # Panics
///
/// On a line that is not of the form above, or a list that is too long.
pub fn lines(list: &str) -> Vec<Line> {
    assert!(list.len() <= LONGEST_LIST && list.is_ascii());
    assert!(list.is_empty() || list.ends_with('\n'));
    list.lines().map(line).collect()
}

fn line(text: &str) -> Line {
    let Some((name, rest)) = text.split_once(':') else {
        return Line::Heading(text.to_string());
    };
    let name = name.to_string();
    let parts: Vec<Vec<u8>> = rest.split('/').map(bytes).collect();
    let all: usize = parts.iter().map(Vec::len).sum();
    assert!(all <= MOST_BYTES, "{name}: {all} bytes");
    let first = match &parts[..] {
        [input] => {
            let input = input.clone();
            return Line::Input { name, input };
        }
        [_, _, _] => Tally::FRESH,
        [_, _, _, first] => tally(first),
        _ => panic!("{name}: {} parts", parts.len()),
    };
    Line::Stored {
        name,
        table: parts[0].clone(),
        hall: parts[1].clone(),
        choices: parts[2].clone(),
        first,
    }
}

/// The tally of twelve bytes.
fn tally(bytes: &[u8]) -> Tally {
    let counter = |at: usize| {
        let four = bytes[at..at + 4].try_into().expect("four bytes");
        u32::from_be_bytes(four)
    };
    assert_eq!(bytes.len(), 12);
    Tally {
        commits: counter(0),
        failed: counter(4),
        retries: counter(8),
    }
}

fn bytes(words: &str) -> Vec<u8> {
    words.split_whitespace().flat_map(word).collect()
}

/// A byte, or some bytes so many times.
fn word(word: &str) -> Vec<u8> {
    let (times, bytes) = word.split_once('x').unwrap_or(("1", word));
    let bytes: Vec<u8> = bytes
        .split(',')
        .map(|byte| byte.parse().expect("a byte in decimal"))
        .collect();
    bytes.repeat(times.parse().expect("a number of times"))
}

/// What is printed of a line.
pub fn printed(line: &Line) -> String {
    match line {
        Line::Heading(text) => format!("{text}\n"),
        Line::Input { name, input } => {
            let run = printed_run(input);
            format!("{name}\n{}", String::from_utf8_lossy(&run))
        }
        Line::Stored {
            name,
            table,
            hall,
            choices,
            first,
        } => format!("{name}\n{}", printed_calls(table, hall, choices, *first)),
    }
}

/// The answers of the calls on a stored hall, each on the hall as it was stored;
/// only what is suggested last is suggested for the hall that the run left.
fn printed_calls(table: &[u8], hall: &[u8], choices: &[u8], first: Tally) -> String {
    let check = calls::check_hall(table, hall);
    let opening = match calls::open(table, &mut hall.to_vec()) {
        Ok(_) => Answer::ACCEPTED,
        Err(Refusal { number, place }) => Answer { number, place },
    };
    let mut after = hall.to_vec();
    let mut tally = first;
    let run = calls::run(table, &mut after, &mut tally, choices);
    let mut lines = vec![
        format!("H {} {}", check.number, check.place),
        format!("O {} {}", opening.number, opening.place),
        step_line(table, hall, choices, first),
        format!("R {} {} {}", run.number, run.place, run.done),
        format!("C {} {} {}", tally.commits, tally.failed, tally.retries),
    ];
    let zeros = after.iter().rev().take_while(|byte| **byte == 0).count();
    let used: Vec<String> = after[..after.len() - zeros]
        .iter()
        .map(|byte| format!(" {byte}"))
        .collect();
    lines.push(format!("B{}", used.concat()));
    lines.push(suggestion_line(table, &after));
    lines.join("\n") + "\n"
}

/// The line on a suggestion: `S number place kind position node`. Number and
/// place are 0 where the call is not refused. The other three are 0 where it
/// is, or where the hall is still; kind 1 has no node, so that is 0 as well.
fn suggestion_line(table: &[u8], hall: &[u8]) -> String {
    let suggested = calls::suggest(table, hall);
    let Answer { number, place } = match suggested {
        Ok(_) => Answer::ACCEPTED,
        Err(Refusal { number, place }) => Answer { number, place },
    };
    let [kind, position, node] = match suggested {
        Ok(Some(Choice::Act { position })) => [1, position, 0],
        Ok(Some(Choice::Inside { position, node })) => [2, position, node],
        Ok(None) | Err(_) => [0, 0, 0],
    };
    format!("S {number} {place} {kind} {position} {node}")
}

/// The line on the first choice alone: `M number place rule tray by`. The rule is
/// 0 where it is refused. Tray and by are what was short, and 0 both where nothing
/// was; what is short is never short by 0. A missing byte of the choice counts as 0.
fn step_line(table: &[u8], hall: &[u8], choices: &[u8], first: Tally) -> String {
    let byte = |at: usize| choices.get(at).copied().unwrap_or(0);
    let choice = match byte(0) {
        1 => vec![1, byte(1)],
        2 => vec![2, byte(1), byte(2)],
        kind => vec![kind],
    };
    let mut tally = first;
    let step = calls::step(table, &mut hall.to_vec(), &mut tally, &choice);
    let (number, place, rule, short) = match step {
        StepAnswer::Moved { rule, short } => (0, choice.len(), rule, short),
        StepAnswer::Refused(Refusal { number, place }) => (number, place, 0, None),
    };
    let Shortage { tray, by } = short.unwrap_or(Shortage { tray: 0, by: 0 });
    format!("M {number} {place} {rule} {tray} {by}")
}
