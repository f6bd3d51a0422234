//! A run told by steps: one line says who did what and what the trays became.
//!
//! A step is a put, a take, or a whole attempt at a block. What an attempt does
//! inside changes nothing that others see, and it is told where it ends. That is
//! only done where it says the truth: where an attempt that had opened at the
//! moment of its end would have ended the same. Any other one is told twice, when
//! it opens and when it ends; so is one in whose middle something was shown.
//!
//! | Module | What it holds |
//! |---|---|
//! | here | from choices to steps |
//! | [`missing`] | what was missing, and who has it |
//! | [`fold`] | what repeats, made one |
//! | [`layout`] | lines of a width |
//! | [`lanes`] | a picture: a line a station, a mark a step |

pub mod fold;
pub mod lanes;
pub mod layout;
pub mod missing;

use ruonfidd::{Moved, Shortage};

use crate::names::Identity;
use crate::rehearsal::{Happened, Moment};
use crate::stations::{Attempt, Station};
use crate::table::{Counts, Table};
use crate::text::tree::Program;
use crate::ways::{count_of, tray_counts, trays_taken, ways_of_block, Way};
use missing::Missing;

/// What a station did.
#[derive(Clone, Copy, Debug, PartialEq, Eq)]
pub enum What {
    /// It put a token down.
    Puts,
    /// It took a token.
    Takes,
    /// Its block was committed by the way of this number, of so many.
    Commits {
        /// From 1 on.
        way: usize,
        /// How many ways the block has.
        of: usize,
    },
    /// No way of its block could be gone.
    GivesUp,
    /// The commit found too little.
    Fails,
    /// It opened an attempt that is told apart from its end.
    Opens,
    /// It was refused, by this number.
    Refused(u8),
}

impl What {
    /// The words behind the name: those for a put or a take are the change of
    /// the tray.
    #[must_use]
    pub fn words(self) -> String {
        match self {
            What::Puts | What::Takes | What::Refused(_) => String::new(),
            What::Commits { of: 1, .. } => " commits".to_owned(),
            What::Commits { way, .. } => format!(", way {way}"),
            What::GivesUp => " gives up".to_owned(),
            What::Fails => " fails".to_owned(),
            What::Opens => " opens".to_owned(),
        }
    }
}

/// How the count of a tray changed.
#[derive(Clone, Copy, Debug, PartialEq, Eq)]
pub struct Change {
    /// The tray.
    pub tray: u8,
    /// What it had before.
    pub from: u8,
    /// What it has now.
    pub to: u8,
}

/// One step.
#[derive(Clone, Debug, PartialEq, Eq)]
pub struct Step {
    /// The station; none where none stands at the position.
    pub station: Option<Identity>,
    /// Its name, and from whom it comes.
    pub who: String,
    /// Its name without the number of what is laid down again and again.
    pub each_time: String,
    /// What it is called of those that one station lays down.
    pub label: String,
    /// Who laid it down, or itself.
    pub person: String,
    /// What it did.
    pub what: What,
    /// The trays whose counts changed.
    pub changes: Vec<Change>,
    /// Why it went so, where there is something to say.
    pub remark: String,
    /// Where an attempt ends that was told to open: the entry that told it.
    pub opened: Option<usize>,
    /// Whether the remark is about the moment when it opened.
    pub by_then: bool,
    /// The index of the choice with which it ended.
    pub choice: usize,
    /// The stations that came: who they are, and their names each time.
    pub came: Vec<(Identity, String)>,
    /// The stations that went.
    pub went: Vec<Identity>,
}

/// One thing of a run that is told.
#[derive(Clone, Debug, PartialEq, Eq)]
pub enum Entry {
    /// A step.
    Step(Box<Step>),
    /// Lines that are set apart: a board, or a why.
    Apart(Vec<String>),
    /// An opening that is told with its end.
    Untold,
}

/// An attempt that is open.
#[derive(Clone, Debug)]
struct Open {
    station: Identity,
    /// The entry of its opening.
    entry: usize,
    /// Whether something was shown since.
    shown: bool,
}

/// Makes steps of choices, one after the other.
#[derive(Clone, Debug)]
pub struct Steps<'a> {
    table: &'a Table,
    program: &'a Program,
    entries: Vec<Entry>,
    open: Vec<Open>,
    missing: Missing,
    choices: usize,
    /// The put just before, into a tray that was empty: the tray, and who put.
    put_before: Option<(u8, String)>,
}

impl<'a> Steps<'a> {
    /// Of a hall of this table.
    #[must_use]
    pub fn new(table: &'a Table, program: &'a Program) -> Steps<'a> {
        Steps {
            table,
            program,
            entries: Vec::new(),
            open: Vec::new(),
            missing: Missing::default(),
            choices: 0,
            put_before: None,
        }
    }

    /// A choice that moved.
    pub fn moved(&mut self, happened: &Happened) {
        match happened.rule.number {
            Moved::ATST => self.opens(happened),
            _ if happened.rule.ends_step() => self.ends(happened),
            _ => {}
        }
        self.choices += 1;
    }

    /// A choice that was refused: by whom it was asked, and why it is refused.
    pub fn refused(&mut self, who: String, number: u8, reason: &str) {
        self.show();
        self.entries.push(Entry::Step(Box::new(Step {
            station: None,
            each_time: who.clone(),
            label: who.clone(),
            person: who.clone(),
            who,
            what: What::Refused(number),
            changes: Vec::new(),
            remark: reason.to_owned(),
            opened: None,
            by_then: false,
            choice: self.choices,
            came: Vec::new(),
            went: Vec::new(),
        })));
    }

    /// Lines that show the hall as it stands now.
    pub fn apart(&mut self, lines: Vec<String>) {
        self.show();
        self.entries.push(Entry::Apart(lines));
    }

    /// The hall is seen as it stands: an attempt that is open is seen to be.
    pub fn show(&mut self) {
        for open in &mut self.open {
            open.shown = true;
        }
    }

    /// All that is told so far. An attempt that is still open is told to open.
    #[must_use]
    pub fn entries(&self) -> &[Entry] {
        &self.entries
    }

    /// How many choices moved so far.
    #[must_use]
    pub fn choices(&self) -> usize {
        self.choices
    }

    fn opens(&mut self, happened: &Happened) {
        let Some(station) = happened.before.names.identity(happened.position()) else {
            return;
        };
        let remark = match happened.after.stations.get(happened.position()) {
            Some(Station::Attempt(attempt)) => self.remembers(attempt),
            _ => String::new(),
        };
        self.open.push(Open {
            station,
            entry: self.entries.len(),
            shown: false,
        });
        let step = self.step(happened, What::Opens, remark);
        self.entries.push(Entry::Step(Box::new(step)));
    }

    fn remembers(&self, attempt: &Attempt) -> String {
        let trays = trays_taken(self.table, attempt.block);
        if trays.is_empty() {
            return String::new();
        }
        let counts = tray_counts(self.program, &trays, &attempt.remembers);
        format!("remembers {counts}")
    }

    fn ends(&mut self, happened: &Happened) {
        let position = happened.position();
        let station = happened.before.names.identity(position);
        let before = &happened.before;
        let (what, mut remark, whole) = match before.stations.get(position) {
            Some(Station::Attempt(attempt)) => self.attempt(happened, attempt),
            Some(Station::Putting(_)) => (What::Puts, String::new(), true),
            _ => (What::Takes, String::new(), true),
        };
        let opened = self.close(station.as_ref(), whole);
        if remark.is_empty() {
            remark = self.handover(happened, what);
        }
        let mut step = self.step(happened, what, remark);
        step.opened = opened;
        step.by_then = !whole && what != What::Fails;
        self.put_before = put_into_empty(happened);
        self.missing.moved(happened, &step);
        self.entries.push(Entry::Step(Box::new(step)));
    }

    /// Takes an attempt from those that are open. Where it is told whole, its
    /// opening is not told; else the entry that tells it.
    fn close(&mut self, station: Option<&Identity>, whole: bool) -> Option<usize> {
        let at = self
            .open
            .iter()
            .position(|it| Some(&it.station) == station)?;
        let open = self.open.remove(at);
        // Nothing stands between the opening and the end, or nothing that makes
        // a difference.
        if whole && !open.shown {
            if let Some(entry) = self.entries.get_mut(open.entry) {
                *entry = Entry::Untold;
            }
            return None;
        }
        Some(open.entry)
    }

    /// The end of an attempt: what it did, why, and whether one that had opened
    /// just now would have done the same.
    fn attempt(&self, happened: &Happened, attempt: &Attempt) -> (What, String, bool) {
        let before = &happened.before;
        let ways = ways_of_block(self.table, attempt.block);
        let readable = |counts: &Counts| ways.iter().position(|way| way.readable(counts));
        let (then, now) = (readable(&attempt.remembers), readable(&before.counts));
        let whole = then == now && happened.rule.number != Moved::ATFAIL;
        // What was missing is told by the counts that it went by.
        let counts = if whole {
            &before.counts
        } else {
            &attempt.remembers
        };
        match (happened.rule.number, then) {
            (Moved::ATOK, Some(way)) => {
                let passed = ways.get(..way).unwrap_or(&[]);
                let what = What::Commits {
                    way: way + 1,
                    of: ways.len(),
                };
                (what, self.passed(passed, counts, before, whole), whole)
            }
            (Moved::ATFAIL, _) => {
                let short = happened.shortage.map(|it| self.short(it, before));
                (What::Fails, short.unwrap_or_default(), false)
            }
            _ => (
                What::GivesUp,
                self.passed(&ways, counts, before, whole),
                whole,
            ),
        }
    }

    /// Why none of these ways was gone.
    fn passed(&self, ways: &[Way], counts: &Counts, now: &Moment, whole: bool) -> String {
        let now = Some(now).filter(|_| whole);
        self.missing
            .of_ways(self.program, self.table, ways, counts, now)
    }

    fn short(&self, short: Shortage, now: &Moment) -> String {
        let Shortage { tray, by } = short;
        let there = count_of(&now.counts, tray);
        self.missing
            .words(self.program, self.table, (tray, by.get(), there), Some(now))
    }

    fn step(&self, happened: &Happened, what: What, remark: String) -> Step {
        let position = happened.position();
        let (before, after) = (&happened.before.names, &happened.after.names);
        let came = (0..after.len())
            .filter_map(|at| Some((after.identity(at)?, after.name_each_time(at))))
            .filter(|(identity, _)| before.position_of(identity).is_none())
            .collect();
        let went = (0..before.len())
            .filter_map(|at| before.identity(at))
            .filter(|identity| after.position_of(identity).is_none())
            .collect();
        Step {
            station: before.identity(position),
            who: before.name_and_origin(position),
            each_time: before.name_each_time(position),
            label: before.label(position),
            person: before.person(position),
            what,
            changes: changes(&happened.before.counts, &happened.after.counts),
            remark,
            opened: None,
            by_then: false,
            choice: self.choices,
            came,
            went,
        }
    }

    /// A put into an empty tray and at once the take of that token.
    fn handover(&mut self, happened: &Happened, what: What) -> String {
        let Some((tray, giver)) = self.put_before.take() else {
            return String::new();
        };
        let taken = changes(&happened.before.counts, &happened.after.counts);
        let that_one = |change: &Change| change.tray == tray && change.from == 1 && change.to == 0;
        let single = matches!(taken.as_slice(), [change] if that_one(change));
        if single && what != What::Puts {
            format!("straight from {giver}")
        } else {
            String::new()
        }
    }
}

/// The put of a choice into a tray that was empty: the tray, and who put.
fn put_into_empty(happened: &Happened) -> Option<(u8, String)> {
    let position = happened.position();
    let Some(Station::Putting(tray)) = happened.before.stations.get(position) else {
        return None;
    };
    let empty = count_of(&happened.before.counts, *tray) == 0;
    empty.then(|| (*tray, happened.before.names.spoken(position)))
}

/// The trays whose counts changed.
#[must_use]
pub fn changes(before: &Counts, after: &Counts) -> Vec<Change> {
    (0..)
        .zip(before.iter().zip(after))
        .filter(|(_, (from, to))| from != to)
        .map(|(tray, (from, to))| Change {
            tray,
            from: *from,
            to: *to,
        })
        .collect()
}
