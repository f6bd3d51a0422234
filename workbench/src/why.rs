//! Why an attempt will commit, fail or give up.
//!
//! The ways of its block are gone through from the first: it takes the first
//! one for which the trays had enough when it opened. This is what is proved of
//! every hall that a run led to; here it explains, and decides nothing.

use crate::rehearsal::Moment;
use crate::stations::{puts, Station};
use crate::table::{Counts, Table, Term};
use crate::text::tree::Program;
use crate::ways::{
    action_words, count_of, shortage_words, shortages, tray_counts, trays_counted, within, Way,
};

/// As many stations stand in a hall.
const MOST_STATIONS: usize = 64;

/// What a station will come to, a line each.
#[must_use]
pub fn why(table: &Table, program: &Program, now: &Moment, position: usize) -> Vec<String> {
    let name = now.names.name_and_origin(position);
    let (block, opened, counts) = match now.stations.get(position) {
        None => return vec![format!("no station stands at position {position}")],
        Some(Station::Putting(tray)) => return vec![about_to_put(program, now, &name, *tray)],
        Some(Station::Attempt(attempt)) => (attempt.block, true, &attempt.remembers),
        Some(Station::Waiting(term)) => match table.term(*term) {
            Term::Take { tray, .. } | Term::Repeatedly { tray, .. } => {
                return vec![about_to_take(program, now, &name, tray)]
            }
            _ => (*term, false, &now.counts),
        },
    };
    let ways = crate::ways::ways_of_block(table, block);
    let when = if opened { "at opening" } else { "now" };
    let mut lines = vec![if opened {
        format!("{name}: the ways of its block, tried from the top")
    } else {
        format!("{name}: the ways of its block, if it opened now")
    }];
    let chosen = ways.iter().position(|way| way.readable(counts));
    for (number, way) in ways.iter().enumerate() {
        lines.push(format!("  {}  {}", number + 1, way_words(program, way)));
        lines.push(format!(
            "       {}",
            verdict(program, way, number, chosen, counts, when)
        ));
    }
    let chosen = chosen.and_then(|chosen| ways.get(chosen));
    lines.push(format!("  {}", outcome(program, chosen, now, opened)));
    lines
}

/// A way's steps; where it ends in `retry`, that too.
fn way_words(program: &Program, way: &Way) -> String {
    let steps = action_words(program, &way.actions);
    match (steps.as_str(), way.ends) {
        ("", true) => "(no steps)".to_owned(),
        ("", false) => "retry".to_owned(),
        (_, true) => steps,
        (_, false) => format!("{steps}, retry"),
    }
}

fn about_to_put(program: &Program, now: &Moment, name: &str, tray: u8) -> String {
    let tray_name = program.tray_name(tray);
    match count_of(&now.counts, tray) {
        u8::MAX => format!("{name}: {tray_name} has 255, the most there can be; it must wait"),
        count => format!("{name}: {tray_name} has {count}; nothing holds it up"),
    }
}

fn about_to_take(program: &Program, now: &Moment, name: &str, tray: u8) -> String {
    let tray_name = program.tray_name(tray);
    match count_of(&now.counts, tray) {
        0 => format!("{name}: {tray_name} is empty; it must wait for a token there"),
        count => format!("{name}: {tray_name} has {count}; it can take one"),
    }
}

/// What becomes of one way.
fn verdict(
    program: &Program,
    way: &Way,
    number: usize,
    chosen: Option<usize>,
    counts: &Counts,
    when: &str,
) -> String {
    let needs = way.needs();
    let trays = trays_counted(&needs);
    let needed = if trays.is_empty() {
        "nothing".to_owned()
    } else {
        tray_counts(program, &trays, &needs)
    };
    let what = match chosen {
        Some(chosen) if chosen < number => format!("comes after way {}", chosen + 1),
        Some(chosen) if chosen == number => format!("all there {when}   <- this one"),
        _ if !way.ends && within(&needs, counts) => "gives up by itself".to_owned(),
        _ => format!(
            "{} {when}",
            shortage_words(program, &shortages(&needs, counts))
        ),
    };
    format!("needs {needed}: {what}")
}

fn outcome(program: &Program, chosen: Option<&Way>, now: &Moment, opened: bool) -> String {
    let Some(way) = chosen else {
        return if opened {
            "No way could be gone at opening: the attempt will give up and the block wait again."
        } else {
            "No way can be gone now: an attempt would give up."
        }
        .to_owned();
    };
    let short = shortages(&way.needs(), &now.counts);
    let full = now.stations.len() + puts(&way.actions).len() > MOST_STATIONS + 1;
    let too_many =
        "All of it is there, but what it puts has no room among 64 stations until some go.";
    match (opened, short.is_empty(), full) {
        (false, _, false) => "It could commit by that way at once.".to_owned(),
        (true, true, false) => {
            "All of it is there now too: the commit will succeed, unless that changes first."
                .to_owned()
        }
        (false, _, true) | (true, true, true) => too_many.to_owned(),
        (true, false, _) => format!(
            "But now {}: the commit will fail, unless that changes first.",
            shortage_words(program, &short)
        ),
    }
}
