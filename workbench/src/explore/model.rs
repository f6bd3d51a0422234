//! A table's stations as codes of one byte, and what each of them can do.
//!
//! A situation is written as the counts of the trays in use, then the codes of
//! its stations, sorted: equal stations are not told apart, and neither are
//! equal terms. A block that has opened an attempt is, with notes, a station of
//! its own code: the block and the number of the way that was its first
//! readable one. Without notes it is the block.

use crate::stations::{Action, Station};
use crate::table::{Counts, Table, Term, TRAYS};
use crate::ways::ways_of_block;

/// The most stations that a hall can have; one more is refused 19.
pub const MOST_STATIONS: usize = 64;

/// A code is a byte.
const MOST_CODES: usize = 256;

/// What the station of a code can do.
#[derive(Clone, Debug, PartialEq, Eq)]
pub enum Kind {
    /// About to put a token.
    Put {
        /// The slot of its tray.
        slot: usize,
    },
    /// A take, perhaps a repeated one.
    Take {
        /// Its term.
        term: u8,
        /// The slot of its tray.
        slot: usize,
        /// The codes of what stands there afterwards, sorted; a repeated take
        /// is among them itself.
        opens: Vec<u8>,
        /// Whether it is a repeated take.
        stays: bool,
    },
    /// A block that has not begun.
    Block {
        /// Its term.
        term: u8,
        /// Its ways, the first one first.
        ways: Vec<Way>,
        /// The codes for this block with a note; one less than there are ways,
        /// or none. A note of the first way is never needed.
        noted: Vec<u8>,
    },
    /// A block with an attempt whose first readable way is known.
    Noted {
        /// The code of the block.
        block: u8,
        /// Which of the block's ways.
        way: usize,
    },
}

/// One way through a block that finishes in `end`.
#[derive(Clone, Debug, PartialEq, Eq)]
pub struct Way {
    /// Its takes and puts in order.
    pub actions: Vec<Action>,
    /// Which of the block's ways it is, counted from 1 with those that end in
    /// `retry`.
    pub number: usize,
    /// The slots that it takes from, and how many tokens.
    pub needs: Vec<(usize, u8)>,
    /// The codes of the stations that stand there after the commit, sorted.
    pub puts: Vec<u8>,
}

/// A table as the exploration sees it.
#[derive(Clone, Debug, PartialEq, Eq)]
pub struct Model {
    /// The trays in use: a slot is an index into them.
    trays: Vec<u8>,
    kinds: Vec<Kind>,
    /// The code of a waiting term.
    of_term: Vec<Option<u8>>,
    /// The code of a put into a tray.
    of_put: [Option<u8>; TRAYS],
    /// The first code of a block with a note; all codes above it are such.
    first_noted: usize,
    opening: Vec<u8>,
}

impl Model {
    /// The model of a table without notes. There are at most 200 terms and 16
    /// trays, so the codes suffice.
    #[must_use]
    pub fn of(table: &Table) -> Model {
        let mut model = Draft::of(table).into_model();
        model.opening = model.opening_of(table);
        model
    }

    /// The same with notes; none where the codes do not suffice.
    #[must_use]
    pub fn with_notes(table: &Table) -> Option<Model> {
        let mut model = Model::of(table);
        for block in 0..model.kinds.len() {
            let Some(Kind::Block { ways, .. }) = model.kinds.get(block) else {
                continue;
            };
            let ways = ways.len();
            let first = model.kinds.len();
            let added = ways.saturating_sub(1);
            if first + added > MOST_CODES {
                return None;
            }
            let block = byte(block);
            model
                .kinds
                .extend((1..ways).map(|way| Kind::Noted { block, way }));
            if let Some(Kind::Block { noted, .. }) = model.kinds.get_mut(usize::from(block)) {
                noted.extend((first..first + added).map(byte));
            }
        }
        Some(model)
    }

    /// The trays in use; a slot is an index into them.
    #[must_use]
    pub fn trays(&self) -> &[u8] {
        &self.trays
    }

    /// What the codes can do; a code is an index into it.
    #[must_use]
    pub fn kinds(&self) -> &[Kind] {
        &self.kinds
    }

    /// What a code can do.
    #[must_use]
    pub fn kind(&self, code: u8) -> Option<&Kind> {
        self.kinds.get(usize::from(code))
    }

    /// The first situation.
    #[must_use]
    pub fn opening(&self) -> &[u8] {
        &self.opening
    }

    /// The counts and the station codes of a situation.
    #[must_use]
    pub fn split<'a>(&self, situation: &'a [u8]) -> (&'a [u8], &'a [u8]) {
        situation.split_at(self.trays.len().min(situation.len()))
    }

    /// Whether no station of the situation has a note. The codes of those that
    /// have are the highest.
    #[must_use]
    pub fn without_notes(&self, situation: &[u8]) -> bool {
        let (_, stations) = self.split(situation);
        stations
            .last()
            .map_or(true, |code| usize::from(*code) < self.first_noted)
    }

    /// The same situation with every attempt read as a block not begun.
    #[must_use]
    pub fn read_without_notes(&self, situation: &[u8]) -> Vec<u8> {
        let (counts, stations) = self.split(situation);
        let mut codes: Vec<u8> = stations
            .iter()
            .map(|code| self.without_note(*code))
            .collect();
        codes.sort_unstable();
        counts.iter().copied().chain(codes).collect()
    }

    /// The code of the block, of one with a note; any other code itself.
    #[must_use]
    pub fn without_note(&self, code: u8) -> u8 {
        match self.kind(code) {
            Some(Kind::Noted { block, .. }) => *block,
            _ => code,
        }
    }

    /// The first code of a block with a note; all from there on are such.
    #[must_use]
    pub fn first_noted(&self) -> usize {
        self.first_noted
    }

    /// Whether some block has two ways or more.
    #[must_use]
    pub fn has_alternatives(&self) -> bool {
        self.kinds
            .iter()
            .any(|kind| matches!(kind, Kind::Block { ways, .. } if ways.len() > 1))
    }

    /// The ways of the block of a code, also where it is one with a note.
    #[must_use]
    pub fn ways(&self, code: u8) -> &[Way] {
        match self.kind(code) {
            Some(Kind::Block { ways, .. }) => ways,
            Some(Kind::Noted { block, .. }) => match self.kind(*block) {
                Some(Kind::Block { ways, .. }) => ways,
                _ => &[],
            },
            _ => &[],
        }
    }

    /// The code of a station, an attempt read as a block not begun.
    #[must_use]
    pub fn code(&self, station: &Station) -> Option<u8> {
        match station {
            Station::Putting(tray) => self.of_put.get(usize::from(*tray)).copied().flatten(),
            Station::Waiting(term) => self.of_term.get(usize::from(*term)).copied().flatten(),
            Station::Attempt(attempt) => self
                .of_term
                .get(usize::from(attempt.block))
                .copied()
                .flatten(),
        }
    }

    /// The situation of a hall; none where a station is not one of the table's.
    #[must_use]
    pub fn situation(&self, counts: &Counts, stations: &[Station]) -> Option<Vec<u8>> {
        let codes: Option<Vec<u8>> = stations.iter().map(|station| self.code(station)).collect();
        Some(self.sorted(counts, codes?))
    }

    /// The codes of the stations that a process opens, in its order.
    #[must_use]
    pub fn opened(&self, table: &Table, process: u8) -> Vec<u8> {
        opened_terms(table, process)
            .into_iter()
            .filter_map(|term| match table.term(term) {
                Term::Put { tray } => self.code(&Station::Putting(tray)),
                _ => self.code(&Station::Waiting(term)),
            })
            .collect()
    }

    fn opening_of(&self, table: &Table) -> Vec<u8> {
        self.sorted(&table.counts(), self.opened(table, table.start()))
    }

    /// Counts and codes as they stand in a situation.
    #[must_use]
    pub fn sorted(&self, counts: &Counts, mut codes: Vec<u8>) -> Vec<u8> {
        codes.sort_unstable();
        self.trays
            .iter()
            .map(|tray| counts.get(usize::from(*tray)).copied().unwrap_or(0))
            .chain(codes)
            .collect()
    }
}

/// Indexes of codes and trays are bytes: [`Model::of`] and
/// [`Model::with_notes`] make no more of them.
fn byte(number: usize) -> u8 {
    u8::try_from(number).unwrap_or(u8::MAX)
}

/// The put, take, repeated take and block terms that a process opens, left to
/// right.
#[must_use]
pub fn opened_terms(table: &Table, process: u8) -> Vec<u8> {
    let mut opened = Vec::new();
    let mut to_open = vec![process];
    while let Some(number) = to_open.pop() {
        match table.term(number) {
            Term::Beside { left, right } => {
                to_open.push(right);
                to_open.push(left);
            }
            Term::Put { .. } | Term::Take { .. } | Term::Repeatedly { .. } | Term::Block { .. } => {
                opened.push(number);
            }
            _ => {}
        }
    }
    opened
}

/// The ways of a block that finish in `end`, the first one first, each with its
/// number among all ways.
fn finished_ways(table: &Table, block: u8) -> Vec<(usize, Vec<Action>)> {
    (1..)
        .zip(ways_of_block(table, block))
        .filter(|(_, way)| way.ends)
        .map(|(number, way)| (number, way.actions))
        .collect()
}

/// A model whose codes are being given out.
struct Draft<'a> {
    table: &'a Table,
    trays: Vec<u8>,
    /// For each term the first one that is equal to it.
    equal: Vec<u8>,
    of_term: Vec<Option<u8>>,
    of_put: [Option<u8>; TRAYS],
    /// What the codes stand for, in their order.
    coded: Vec<Station>,
}

impl<'a> Draft<'a> {
    /// The codes of all stations that the table's start can ever open.
    fn of(table: &'a Table) -> Draft<'a> {
        let mut draft = Draft {
            table,
            trays: table.trays_in_use(),
            equal: equal_terms(table),
            of_term: vec![None; table.terms().len()],
            of_put: [None; TRAYS],
            coded: Vec::new(),
        };
        draft.give_codes(table.start());
        let mut next = 0;
        while let Some(station) = draft.coded.get(next).cloned() {
            draft.give_codes_after(&station);
            next += 1;
        }
        draft.let_equal_terms_share();
        draft
    }

    fn give_codes(&mut self, process: u8) {
        for term in opened_terms(self.table, process) {
            match self.table.term(term) {
                Term::Put { tray } => self.give_put_code(tray),
                _ => self.give_term_code(term),
            }
        }
    }

    fn give_codes_after(&mut self, station: &Station) {
        let Station::Waiting(term) = *station else {
            return;
        };
        match self.table.term(term) {
            Term::Take { then, .. } | Term::Repeatedly { then, .. } => self.give_codes(then),
            Term::Block { .. } => {
                for (_, actions) in finished_ways(self.table, term) {
                    for tray in crate::stations::puts(&actions) {
                        self.give_put_code(tray);
                    }
                }
            }
            _ => {}
        }
    }

    fn give_put_code(&mut self, tray: u8) {
        let code = byte(self.coded.len());
        if let Some(slot @ None) = self.of_put.get_mut(usize::from(tray)) {
            *slot = Some(code);
            self.coded.push(Station::Putting(tray));
        }
    }

    fn give_term_code(&mut self, term: u8) {
        let first = self.first_equal(term);
        let code = byte(self.coded.len());
        if let Some(slot @ None) = self.of_term.get_mut(usize::from(first)) {
            *slot = Some(code);
            self.coded.push(Station::Waiting(first));
        }
    }

    fn first_equal(&self, term: u8) -> u8 {
        self.equal.get(usize::from(term)).copied().unwrap_or(term)
    }

    /// A term gets the code of the first one that is equal to it.
    fn let_equal_terms_share(&mut self) {
        let shared: Vec<Option<u8>> = self
            .equal
            .iter()
            .map(|first| self.of_term.get(usize::from(*first)).copied().flatten())
            .collect();
        self.of_term = shared;
    }

    fn into_model(self) -> Model {
        let mut model = Model {
            first_noted: self.coded.len(),
            opening: Vec::new(),
            kinds: Vec::new(),
            trays: self.trays,
            of_term: self.of_term,
            of_put: self.of_put,
        };
        model.kinds = self
            .coded
            .iter()
            .map(|station| model.kind_of(self.table, station))
            .collect();
        model
    }
}

impl Model {
    fn kind_of(&self, table: &Table, station: &Station) -> Kind {
        let term = match *station {
            Station::Putting(tray) => {
                return Kind::Put {
                    slot: self.slot(tray),
                }
            }
            Station::Waiting(term) => term,
            Station::Attempt(ref attempt) => attempt.block,
        };
        match table.term(term) {
            Term::Repeatedly { tray, then } => {
                let mut opens = self.opened(table, then);
                opens.extend(self.code(station));
                self.take(term, tray, opens, true)
            }
            Term::Take { tray, then } => self.take(term, tray, self.opened(table, then), false),
            Term::Block { .. } => Kind::Block {
                term,
                ways: self.ways_of(table, term),
                noted: Vec::new(),
            },
            // Not a station: no code is given to it.
            _ => self.take(term, 0, Vec::new(), false),
        }
    }

    fn take(&self, term: u8, tray: u8, mut opens: Vec<u8>, stays: bool) -> Kind {
        opens.sort_unstable();
        Kind::Take {
            term,
            slot: self.slot(tray),
            opens,
            stays,
        }
    }

    fn ways_of(&self, table: &Table, block: u8) -> Vec<Way> {
        finished_ways(table, block)
            .into_iter()
            .map(|(number, actions)| self.way(number, actions))
            .collect()
    }

    fn way(&self, number: usize, actions: Vec<Action>) -> Way {
        let takes = crate::stations::takes(&actions);
        let needs = (0_u8..)
            .zip(takes)
            .filter(|(_, need)| *need > 0)
            .map(|(tray, need)| (self.slot(tray), need))
            .collect();
        let mut puts: Vec<u8> = crate::stations::puts(&actions)
            .into_iter()
            .filter_map(|tray| self.code(&Station::Putting(tray)))
            .collect();
        puts.sort_unstable();
        Way {
            actions,
            number,
            needs,
            puts,
        }
    }

    /// The slot of a tray that the table names.
    fn slot(&self, tray: u8) -> usize {
        self.trays
            .iter()
            .position(|used| *used == tray)
            .unwrap_or(0)
    }
}

/// For each term the first one that says the same once references are followed.
fn equal_terms(table: &Table) -> Vec<u8> {
    let mut equal: Vec<u8> = Vec::new();
    let mut seen: Vec<Term> = Vec::new();
    for term in table.terms() {
        let known = |number: u8| equal.get(usize::from(number)).copied().unwrap_or(number);
        let plain = term.with_references(known);
        let first = seen.iter().position(|other| *other == plain);
        equal.push(byte(first.unwrap_or(seen.len())));
        seen.push(plain);
    }
    equal
}
