//! Names for codes: what the stations of a code are called in the text.
//!
//! A code stands for all stations that do the same, whoever they are. So it may
//! have several names, and a name alone may not say enough: a station that keeps
//! its rule's name while it goes on is told apart by what it does next.

use std::collections::BTreeSet;

use crate::board::doing;
use crate::stations::{puts, Station};
use crate::table::{Table, Term};
use crate::text::tree::{PartId, PartKind, Program};
use crate::ways::ways_of_block;

use super::model::{opened_terms, Kind, Model};

/// So many names of one code are told.
const MOST_TOLD: usize = 3;

/// The names of all codes.
#[derive(Clone, Debug, PartialEq, Eq)]
pub struct Labels {
    of_code: Vec<BTreeSet<String>>,
    callers: Vec<BTreeSet<Caller>>,
}

/// The rule that a station is called after, and whether it keeps the name from an
/// earlier take.
pub type Caller = (Option<String>, bool);

/// A station of the text: the part that it waits at, and what it is called.
#[derive(Clone, Debug, PartialEq, Eq, PartialOrd, Ord)]
struct Called {
    part: PartId,
    term: u8,
    /// A rule's name, or what it did when it came.
    label: String,
    /// Whether the label is a rule's name.
    by_rule: bool,
    /// Whether the name is from an earlier take of the same station.
    kept: bool,
    from: Option<Origin>,
}

/// Who laid a nameless station down.
#[derive(Clone, Debug, PartialEq, Eq, PartialOrd, Ord)]
struct Origin {
    label: String,
    by_rule: bool,
}

impl Labels {
    /// The names of a model's codes.
    #[must_use]
    pub fn of(table: &Table, program: &Program, model: &Model) -> Labels {
        let mut walk = Walk {
            table,
            program,
            model,
            of_code: vec![BTreeSet::new(); model.kinds().len()],
            callers: vec![BTreeSet::new(); model.kinds().len()],
            seen: BTreeSet::new(),
            to_see: Vec::new(),
        };
        walk.open(program.start, table.start(), None);
        while let Some(called) = walk.to_see.pop() {
            if walk.seen.insert(called.clone()) {
                walk.name(&called);
                walk.go_on(&called);
            }
        }
        Labels {
            of_code: walk.of_code,
            callers: walk.callers,
        }
    }

    /// All that the stations of a code are called after.
    pub fn callers(&self, code: u8) -> impl Iterator<Item = &Caller> {
        self.callers.get(usize::from(code)).into_iter().flatten()
    }

    /// What the stations of a code are called.
    #[must_use]
    pub fn told(&self, code: u8) -> String {
        let Some(names) = self.of_code.get(usize::from(code)) else {
            return String::new();
        };
        let told: Vec<&str> = names.iter().take(MOST_TOLD).map(String::as_str).collect();
        let more = if names.len() > MOST_TOLD { " / .." } else { "" };
        format!("{}{more}", told.join(" / "))
    }
}

struct Walk<'a> {
    table: &'a Table,
    program: &'a Program,
    model: &'a Model,
    of_code: Vec<BTreeSet<String>>,
    callers: Vec<BTreeSet<Caller>>,
    seen: BTreeSet<Called>,
    to_see: Vec<Called>,
}

impl Walk<'_> {
    /// The stations that a part of the text opens, with the terms that the
    /// table has for them: both have them in the same order.
    fn open(&mut self, part: PartId, process: u8, actor: Option<&Called>) {
        let parts = opened_parts(self.program, part);
        let terms = opened_terms(self.table, process);
        let single = parts.len() == 1;
        for ((part, rule), term) in parts.into_iter().zip(terms) {
            let rule = rule.and_then(|rule| self.program.definitions.get(rule));
            let mut called = Called {
                part,
                term,
                label: rule.map_or_else(|| self.doing(term), |it| it.name.clone()),
                by_rule: rule.is_some(),
                kept: false,
                from: None,
            };
            if let (None, Some(actor)) = (rule, actor) {
                if single && !self.repeats(actor) {
                    called = Called {
                        part,
                        term,
                        kept: true,
                        ..actor.clone()
                    };
                } else {
                    called.from = Some(origin(actor));
                }
            }
            self.to_see.push(called);
        }
    }

    fn repeats(&self, called: &Called) -> bool {
        matches!(self.table.term(called.term), Term::Repeatedly { .. })
    }

    fn doing(&self, term: u8) -> String {
        let station = match self.table.term(term) {
            Term::Put { tray } => Station::Putting(tray),
            _ => Station::Waiting(term),
        };
        doing(self.table, self.program, &station)
    }

    fn name(&mut self, called: &Called) {
        let mut words = whole_name(called.from.as_ref(), &called.label);
        if called.kept {
            let doing = self.doing(called.term);
            words = format!("{words} (at '{doing}')");
        }
        let rule = called.by_rule.then(|| called.label.clone());
        self.give(called.term, words, (rule, called.kept));
    }

    fn give(&mut self, term: u8, words: String, caller: Caller) {
        let station = match self.table.term(term) {
            Term::Put { tray } => Station::Putting(tray),
            _ => Station::Waiting(term),
        };
        self.give_station(&station, words, caller);
    }

    fn give_station(&mut self, station: &Station, words: String, caller: Caller) {
        let Some(code) = self.model.code(station) else {
            return;
        };
        if let Some(callers) = self.callers.get_mut(usize::from(code)) {
            callers.insert(caller);
        }
        if let Some(Kind::Block { noted, .. }) = self.model.kind(code) {
            for noted in noted {
                if let Some(names) = self.of_code.get_mut(usize::from(*noted)) {
                    names.insert(words.clone());
                }
            }
        }
        if let Some(names) = self.of_code.get_mut(usize::from(code)) {
            names.insert(words);
        }
    }

    /// What stands there after it has acted.
    fn go_on(&mut self, called: &Called) {
        match (
            self.program.resolved(called.part).0,
            self.table.term(called.term),
        ) {
            (PartKind::Take(_, part), Term::Take { then, .. })
            | (PartKind::Repeatedly(_, part), Term::Repeatedly { then, .. }) => {
                self.open(part, then, Some(called));
            }
            (PartKind::Block(_), Term::Block { .. }) => {
                let from = origin(called);
                for way in ways_of_block(self.table, called.term) {
                    for tray in puts(&way.actions) {
                        let doing = format!("put {}", self.program.tray_name(tray));
                        let name = whole_name(Some(&from), &doing);
                        self.give_station(&Station::Putting(tray), name, (None, false));
                    }
                }
            }
            _ => {}
        }
    }
}

/// From whom the nameless stations behind this one come.
fn origin(actor: &Called) -> Origin {
    actor.from.clone().unwrap_or_else(|| Origin {
        label: actor.label.clone(),
        by_rule: actor.by_rule,
    })
}

/// The same as the names of a hall under way say it.
fn whole_name(from: Option<&Origin>, label: &str) -> String {
    match from {
        None => label.to_owned(),
        Some(from) if from.by_rule => format!("{}'s {label}", from.label),
        Some(from) => format!("{label} (from {})", from.label),
    }
}

/// The stations that a part opens, left to right, each with the innermost rule
/// around it. The table was accepted: there are at most 64.
pub(super) fn opened_parts(program: &Program, part: PartId) -> Vec<(PartId, Option<usize>)> {
    let mut opened = Vec::new();
    let mut to_open = vec![(part, None)];
    while let Some((part, rule)) = to_open.pop() {
        match program.part(part).kind {
            PartKind::Named(index) => {
                let body = program.definitions.get(index).map(|it| it.body);
                to_open.extend(body.map(|body| (body, Some(index))));
            }
            PartKind::Beside(left, right) => {
                to_open.push((right, rule));
                to_open.push((left, rule));
            }
            PartKind::Copies(count, of) => to_open.extend((0..count).map(|_| (of, rule))),
            PartKind::Put(_)
            | PartKind::Take(..)
            | PartKind::Repeatedly(..)
            | PartKind::Block(_) => {
                opened.push((part, rule));
            }
            _ => {}
        }
    }
    opened
}
