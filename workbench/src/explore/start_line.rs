//! Stations in the words of a text, as they can stand behind `start`.

use crate::stations::Action;
use crate::text::tree::{PartId, PartKind, Program};
use crate::ways::action_words;

/// `start 2 of desk beside (take call then nothing)`: stations, and of each how
/// many. Only what an accepted table was made of is written, so nothing but
/// `1 of` can be nested deeper than its terms.
#[must_use]
pub fn start_line(program: &Program, stations: &[(PartId, usize)]) -> String {
    let words: Vec<String> = stations
        .iter()
        .map(|(part, number)| match number {
            1 => bracketed_take(program, *part),
            _ => format!("{number} of {}", bracketed_take(program, *part)),
        })
        .collect();
    if words.is_empty() {
        "start nothing".to_owned()
    } else {
        format!("start {}", words.join(" beside "))
    }
}

fn process(program: &Program, part: PartId) -> String {
    let tray = |tray| program.tray_name(tray);
    match program.part(part).kind {
        PartKind::Named(index) => name(program, index),
        PartKind::Put(to) => format!("put {}", tray(to)),
        PartKind::Take(from, then) => {
            let then = bracketed_pair(program, then);
            format!("take {} then {then}", tray(from))
        }
        PartKind::Repeatedly(from, then) => {
            let then = bracketed_pair(program, then);
            format!("repeatedly take {} then {then}", tray(from))
        }
        PartKind::Beside(left, right) => {
            let left = match program.part(left).kind {
                PartKind::Beside(..) => bracketed_pair(program, left),
                _ => bracketed_take(program, left),
            };
            format!("{left} beside {}", process(program, right))
        }
        PartKind::Copies(count, of) => format!("{count} of {}", bracketed_pair(program, of)),
        PartKind::Block(body) => format!("block ({})", ways(program, body)),
        _ => "nothing".to_owned(),
    }
}

/// With brackets where it is several things side by side.
fn bracketed_pair(program: &Program, part: PartId) -> String {
    let words = process(program, part);
    match program.part(part).kind {
        PartKind::Beside(..) => format!("({words})"),
        _ => words,
    }
}

/// With brackets where it ends in what follows a `then`, so that `beside` may
/// stand behind it.
fn bracketed_take(program: &Program, part: PartId) -> String {
    let words = process(program, part);
    let mut last = part;
    while let PartKind::Copies(_, of) = program.part(last).kind {
        last = of;
    }
    match program.part(last).kind {
        PartKind::Take(..) | PartKind::Repeatedly(..) => format!("({words})"),
        _ => words,
    }
}

fn ways(program: &Program, part: PartId) -> String {
    match program.part(part).kind {
        PartKind::Named(index) => name(program, index),
        PartKind::NoteTake(tray, rest) => step(program, Action::Take(tray), rest),
        PartKind::NotePut(tray, rest) => step(program, Action::Put(tray), rest),
        PartKind::OrElse(left, right) => {
            let first = bracketed_ways(program, left);
            format!("{first} or else {}", ways(program, right))
        }
        PartKind::Retry => "retry".to_owned(),
        _ => "end".to_owned(),
    }
}

fn step(program: &Program, action: Action, rest: PartId) -> String {
    let rest = bracketed_ways(program, rest);
    format!("{}, {rest}", action_words(program, &[action]))
}

/// With brackets where it is several ways.
fn bracketed_ways(program: &Program, part: PartId) -> String {
    let words = ways(program, part);
    match program.part(part).kind {
        PartKind::OrElse(..) => format!("({words})"),
        _ => words,
    }
}

fn name(program: &Program, definition: usize) -> String {
    program
        .definitions
        .get(definition)
        .map_or(String::new(), |definition| definition.name.clone())
}
