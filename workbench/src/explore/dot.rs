//! A picture of a small hall: its situations and the steps between them.

use std::fmt::Write as _;

use crate::text::tree::Program;

use super::investigate::Explored;
use super::labels::Labels;
use super::steps::{Deed, Step, Stepper, Tried};
use super::store::Index;

/// More situations make no picture.
pub const MOST_DRAWN: usize = 400;

/// The picture in the language of Graphviz; none where there is too much to
/// draw.
#[must_use]
pub fn picture(program: &Program, explored: &Explored, labels: &Labels) -> Option<String> {
    let store = &explored.found.store;
    if store.len() > MOST_DRAWN {
        return None;
    }
    let mut text = String::from("digraph hall {\n  node [shape=box, fontsize=10];\n");
    let mut stepper = Stepper::new(&explored.model);
    for index in store.indexes() {
        let end = explored.found.ends.contains(&index);
        let frame = if end { ", peripheries=2" } else { "" };
        let words = situation_words(program, explored, labels, index);
        let _ = writeln!(text, "  s{index} [label=\"{words}\"{frame}];");
        stepper.each(&store.get(index), |step, tried| {
            if let Tried::To(next) = tried {
                if let Some(to) = store.find(next) {
                    let words = escaped(&step_words(explored, labels, step));
                    let _ = writeln!(text, "  s{index} -> s{to} [label=\"{words}\", fontsize=9];");
                }
            }
        });
    }
    text.push_str("}\n");
    Some(text)
}

fn situation_words(
    program: &Program,
    explored: &Explored,
    labels: &Labels,
    index: Index,
) -> String {
    let model = &explored.model;
    let situation = explored.found.store.get(index);
    let (counts, stations) = model.split(&situation);
    let trays = model.trays().iter().zip(counts);
    let trays: Vec<String> = trays
        .filter(|(_, count)| **count > 0)
        .map(|(tray, count)| format!("{} {count}", program.tray_name(*tray)))
        .collect();
    let mut lines = vec![escaped(&trays.join(", "))];
    let mut rest = stations;
    while let Some(code) = rest.first() {
        let equal = rest.iter().take_while(|other| *other == code).count();
        let times = match equal {
            1 => String::new(),
            _ => format!(" x{equal}"),
        };
        lines.push(format!("{}{times}", escaped(&labels.told(*code))));
        rest = rest.get(equal..).unwrap_or(&[]);
    }
    lines.join("\\n")
}

fn step_words(explored: &Explored, labels: &Labels, step: Step) -> String {
    let name = labels.told(step.code);
    match step.deed {
        Deed::Put => name,
        Deed::Take | Deed::Repeat => format!("{name} takes"),
        Deed::Commit(way) => {
            let ways = explored.model.ways(step.code);
            match (ways.len(), ways.get(way)) {
                (2.., Some(way)) => format!("{name} commits by way {}", way.number),
                _ => format!("{name} commits"),
            }
        }
        Deed::Note(_) => format!("{name} opens"),
        Deed::Drop => format!("{name} fails"),
    }
}

fn escaped(words: &str) -> String {
    words.replace('\\', "\\\\").replace('"', "\\\"")
}
