//! Who is left at an end, and what each of them waits for.

use crate::rehearsal::Moment;
use crate::stations::Station;
use crate::table::{Table, Term};
use crate::text::tree::Program;
use crate::ways::{count_of, shortage_words, shortages, ways_of_block};

/// Behind the words that nobody is there, where somebody is.
pub const BUT_STAYING: &str = " but who may stay";

/// So many names of stations that are left alike are told.
const FEW: usize = 6;

/// How a station is left.
#[derive(Clone, Debug, PartialEq, Eq)]
pub struct Left {
    /// Its name.
    pub name: String,
    /// Why it does nothing more.
    pub state: State,
    /// The same in words, behind the name.
    pub words: String,
    /// Whether its rule says that it may be left.
    pub may_stay: bool,
}

/// Why a station does nothing more.
#[derive(Clone, Copy, Debug, PartialEq, Eq)]
pub enum State {
    /// A take at an empty tray.
    Waits,
    /// A repeated take at an empty tray: it may well be done.
    Ready,
    /// A block that no way of can be gone: it begins and gives up, again and
    /// again.
    TriesForEver,
    /// A limit of the engine forbids what it could do.
    Barred,
}

impl State {
    /// The word for programs.
    #[must_use]
    pub fn word(self) -> &'static str {
        match self {
            State::Waits => "waits",
            State::Ready => "ready",
            State::TriesForEver => "tries for ever",
            State::Barred => "barred",
        }
    }
}

/// The stations that are left, in their order.
#[must_use]
pub fn left(table: &Table, program: &Program, now: &Moment) -> Vec<Left> {
    (0..)
        .zip(&now.stations)
        .map(|(position, station)| {
            let (state, words) = state_of(table, program, now, station);
            Left {
                name: now.names.name_and_origin(position),
                state,
                words,
                may_stay: may_stay(program, now, position),
            }
        })
        .collect()
}

/// Whether a station is called after a rule that may stay, or comes from one.
fn may_stay(program: &Program, now: &Moment, position: usize) -> bool {
    let rules = program.definitions.iter().filter(|it| it.may_stay);
    let called = now.names.rule_behind(position);
    let mut names = rules.map(|rule| rule.name.as_str());
    names.any(|name| called == Some(name))
}

/// The same, a line for all that are left alike; those that may stay are not told.
#[must_use]
pub fn told(left: &[Left]) -> Vec<String> {
    let mut lines: Vec<(&str, Vec<&str>)> = Vec::new();
    for one in left.iter().filter(|one| !one.may_stay) {
        match lines.iter_mut().find(|(words, _)| *words == one.words) {
            Some((_, names)) => names.push(&one.name),
            None => lines.push((&one.words, vec![&one.name])),
        }
    }
    lines
        .into_iter()
        .map(|(words, names)| match names.as_slice() {
            [name] => format!("{name} {words}"),
            names => format!("{}: each {words}", some_of(names)),
        })
        .collect()
}

/// Who goes on in a round that is never left, and who does not.
#[derive(Clone, Debug, PartialEq, Eq)]
pub struct InRound {
    /// Those that act in it again and again, those whom they open left out.
    pub go_on: Vec<String>,
    /// Those that never act again, those that may stay left out.
    pub never_again: Vec<String>,
    /// Whether some that may stay never act again.
    pub some_stay: bool,
}

impl InRound {
    /// The stations of a hall in the round, told apart by whether they act there.
    #[must_use]
    pub fn of(program: &Program, now: &Moment, acts: impl Fn(&Station) -> bool) -> InRound {
        let mut who = InRound {
            go_on: Vec::new(),
            never_again: Vec::new(),
            some_stay: false,
        };
        for (position, station) in (0..).zip(&now.stations) {
            if !acts(station) {
                if may_stay(program, now, position) {
                    who.some_stay = true;
                } else {
                    who.never_again.push(now.names.name_and_origin(position));
                }
                continue;
            }
            let name = now.names.person(position);
            if !who.go_on.contains(&name) {
                who.go_on.push(name);
            }
        }
        who
    }

    /// In words.
    #[must_use]
    pub fn told(&self) -> String {
        let go_on = folded(&self.go_on);
        let verb = if self.go_on.len() == 1 { "goes" } else { "go" };
        if self.never_again.is_empty() {
            let but = if self.some_stay { BUT_STAYING } else { "" };
            return format!("{go_on} {verb} on, and nobody else is there{but}");
        }
        format!(
            "{go_on} {verb} on; {} can never act again",
            folded(&self.never_again)
        )
    }
}

/// Names in a row, those numbered one after the other as `desk 1 .. desk 5`; of
/// many the first few and how many more.
fn folded(names: &[String]) -> String {
    let mut rows: Vec<(&str, &str)> = Vec::new();
    let mut ranges: Vec<usize> = Vec::new();
    for name in names {
        match (rows.last_mut(), ranges.last_mut()) {
            (Some((_, last)), Some(length)) if follows(last, name) => {
                *last = name;
                *length += 1;
            }
            _ => {
                rows.push((name, name));
                ranges.push(1);
            }
        }
    }
    let told: Vec<String> = rows
        .iter()
        .zip(ranges)
        .map(|((first, last), length)| match length {
            1 => (*first).to_owned(),
            2 => format!("{first}, {last}"),
            _ => format!("{first} .. {last}"),
        })
        .collect();
    some_of(&told.iter().map(String::as_str).collect::<Vec<_>>())
}

/// Whether a name differs from the one before by a number that is one more.
fn follows(before: &str, name: &str) -> bool {
    let parts = |name: &str| {
        let stem = name.trim_end_matches(|letter: char| letter.is_ascii_digit());
        let number = name.get(stem.len()..)?.parse::<u32>().ok()?;
        Some((stem.to_owned(), number))
    };
    match (parts(before), parts(name)) {
        (Some((stem, number)), Some((other, next))) => stem == other && number + 1 == next,
        _ => false,
    }
}

/// Names in a row; of many the first few and how many more.
fn some_of(names: &[&str]) -> String {
    match names.get(..FEW) {
        Some(few) if names.len() > FEW + 2 => {
            format!("{} and {} more", few.join(", "), names.len() - FEW)
        }
        _ => names.join(", "),
    }
}

fn state_of(table: &Table, program: &Program, now: &Moment, station: &Station) -> (State, String) {
    let term = match station {
        Station::Putting(tray) => {
            let name = program.tray_name(*tray);
            let words = format!("cannot put: {name} has 255, the most there can be (20)");
            return (State::Barred, words);
        }
        Station::Waiting(term) => *term,
        // At an end an attempt is open only where it is finished and stuck.
        Station::Attempt(_) => {
            let words = "is stuck: its attempt is finished, and what it puts has no room among 64 \
                stations (19)";
            return (State::Barred, words.to_owned());
        }
    };
    match table.term(term) {
        Term::Take { tray, .. } if count_of(&now.counts, tray) == 0 => (
            State::Waits,
            format!("waits for {}", program.tray_name(tray)),
        ),
        Term::Repeatedly { tray, .. } if count_of(&now.counts, tray) == 0 => (
            State::Ready,
            format!("is ready for the next {}", program.tray_name(tray)),
        ),
        Term::Take { tray, .. } | Term::Repeatedly { tray, .. } => (
            State::Barred,
            format!(
                "could take {}, but what follows has no room among 64 stations (19)",
                program.tray_name(tray)
            ),
        ),
        _ => block(table, program, now, term),
    }
}

fn block(table: &Table, program: &Program, now: &Moment, term: u8) -> (State, String) {
    let ways = ways_of_block(table, term);
    if ways.iter().any(|way| way.readable(&now.counts)) {
        let words = "could commit, but what it puts has no room among 64 stations (19)";
        return (State::Barred, words.to_owned());
    }
    let several = ways.len() > 1;
    let reasons: Vec<String> = (1..)
        .zip(&ways)
        .map(|(number, way)| {
            let short = shortages(&way.needs(), &now.counts);
            match (short.is_empty(), several) {
                (true, true) => format!("way {number} gives up by itself"),
                (true, false) => "its way gives up by itself".to_owned(),
                (false, true) => format!("in way {number} {}", shortage_words(program, &short)),
                (false, false) => shortage_words(program, &short),
            }
        })
        .collect();
    (
        State::TriesForEver,
        format!("tries for ever: {}", reasons.join("; ")),
    )
}
