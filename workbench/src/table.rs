//! A rule table that the engine accepted, read into terms.
//!
//! Nothing here judges a table: [`Table::read`] asks the engine first and takes
//! the bytes apart only where it accepts them.

use ruonfidd::{check_table, Refusal};

/// Trays are 0 to 15.
pub const TRAYS: usize = 16;

/// One count for each tray, tray 0 first.
pub type Counts = [u8; TRAYS];

/// One term. References are the numbers of earlier terms.
#[derive(Clone, Copy, Debug, PartialEq, Eq, Hash)]
pub enum Term {
    /// Kind 1: no station.
    Nothing,
    /// Kind 2: a station about to put one token.
    Put {
        /// The tray that gains it.
        tray: u8,
    },
    /// Kind 3: a station that waits for a token and goes on.
    Take {
        /// The tray that loses it.
        tray: u8,
        /// The process that opens then.
        then: u8,
    },
    /// Kind 4: the same, and the station stays for the next token.
    Repeatedly {
        /// The tray that loses a token each time.
        tray: u8,
        /// The process that opens each time.
        then: u8,
    },
    /// Kind 5: two processes side by side.
    Beside {
        /// The one whose stations come first.
        left: u8,
        /// The other one.
        right: u8,
    },
    /// Kind 6: a block, all at once or not at all.
    Block {
        /// Its expression.
        body: u8,
    },
    /// Kind 7: this way is finished.
    End,
    /// Kind 8: this way gives up.
    Retry,
    /// Kind 9: inside a block, one more token is needed.
    NoteTake {
        /// The tray it is taken from at the commit.
        tray: u8,
        /// What follows.
        rest: u8,
    },
    /// Kind 10: inside a block, one more token is laid down after the commit.
    NotePut {
        /// The tray that it is meant for.
        tray: u8,
        /// What follows.
        rest: u8,
    },
    /// Kind 11: the second where the first gives up.
    OrElse {
        /// The expression that is tried first.
        left: u8,
        /// The one for when that gives up.
        right: u8,
    },
}

impl Term {
    /// The kind and the body, as they stand in a table.
    #[must_use]
    pub fn record(self) -> Vec<u8> {
        match self {
            Term::Nothing => vec![1],
            Term::Put { tray } => vec![2, tray],
            Term::Take { tray, then } => vec![3, tray, then],
            Term::Repeatedly { tray, then } => vec![4, tray, then],
            Term::Beside { left, right } => vec![5, left, right],
            Term::Block { body } => vec![6, body],
            Term::End => vec![7],
            Term::Retry => vec![8],
            Term::NoteTake { tray, rest } => vec![9, tray, rest],
            Term::NotePut { tray, rest } => vec![10, tray, rest],
            Term::OrElse { left, right } => vec![11, left, right],
        }
    }

    /// The term of a record of kind 1 to 11, none for other bytes.
    fn of_record(record: &[u8]) -> Option<Term> {
        Some(match *record {
            [1] => Term::Nothing,
            [2, tray] => Term::Put { tray },
            [3, tray, then] => Term::Take { tray, then },
            [4, tray, then] => Term::Repeatedly { tray, then },
            [5, left, right] => Term::Beside { left, right },
            [6, body] => Term::Block { body },
            [7] => Term::End,
            [8] => Term::Retry,
            [9, tray, rest] => Term::NoteTake { tray, rest },
            [10, tray, rest] => Term::NotePut { tray, rest },
            [11, left, right] => Term::OrElse { left, right },
            _ => return None,
        })
    }

    /// Whether it is a process; the others are expressions.
    #[must_use]
    pub fn is_process(self) -> bool {
        matches!(
            self,
            Term::Nothing
                | Term::Put { .. }
                | Term::Take { .. }
                | Term::Repeatedly { .. }
                | Term::Beside { .. }
                | Term::Block { .. }
        )
    }

    /// The tray that it names.
    #[must_use]
    pub fn tray(self) -> Option<u8> {
        match self {
            Term::Put { tray }
            | Term::Take { tray, .. }
            | Term::Repeatedly { tray, .. }
            | Term::NoteTake { tray, .. }
            | Term::NotePut { tray, .. } => Some(tray),
            _ => None,
        }
    }

    /// The terms that it refers to, the left one first.
    #[must_use]
    pub fn references(self) -> Vec<u8> {
        match self {
            Term::Nothing | Term::Put { .. } | Term::End | Term::Retry => vec![],
            Term::Take { then, .. } | Term::Repeatedly { then, .. } => vec![then],
            Term::NoteTake { rest, .. } | Term::NotePut { rest, .. } => vec![rest],
            Term::Block { body } => vec![body],
            Term::Beside { left, right } | Term::OrElse { left, right } => vec![left, right],
        }
    }

    /// The same term with its references changed.
    #[must_use]
    pub fn with_references(self, change: impl Fn(u8) -> u8) -> Term {
        match self {
            Term::Nothing | Term::Put { .. } | Term::End | Term::Retry => self,
            Term::Take { tray, then } => Term::Take {
                tray,
                then: change(then),
            },
            Term::Repeatedly { tray, then } => Term::Repeatedly {
                tray,
                then: change(then),
            },
            Term::NoteTake { tray, rest } => Term::NoteTake {
                tray,
                rest: change(rest),
            },
            Term::NotePut { tray, rest } => Term::NotePut {
                tray,
                rest: change(rest),
            },
            Term::Block { body } => Term::Block { body: change(body) },
            Term::Beside { left, right } => Term::Beside {
                left: change(left),
                right: change(right),
            },
            Term::OrElse { left, right } => Term::OrElse {
                left: change(left),
                right: change(right),
            },
        }
    }
}

/// One record of a table, in the order in which they stand.
#[derive(Clone, Copy, Debug, PartialEq, Eq)]
pub enum Record {
    /// Kinds 1 to 11.
    Term(Term),
    /// Kind 12: what a tray has at the opening.
    Tokens {
        /// The tray.
        tray: u8,
        /// How many, 1 to 255.
        count: u8,
    },
    /// Kind 13: the process that the hall opens with.
    Start(u8),
}

/// Why there is no [`Table`].
#[derive(Clone, Copy, Debug, PartialEq, Eq)]
pub enum Unread {
    /// The engine refused the bytes.
    Refused(Refusal),
    /// The engine accepted them and they can't be taken apart here: a fault of
    /// this program.
    Contradiction,
}

/// A table that the engine accepted.
#[derive(Clone, Debug, PartialEq, Eq)]
pub struct Table {
    bytes: Vec<u8>,
    records: Vec<Record>,
    terms: Vec<Term>,
    start: u8,
}

impl Table {
    /// Asks the engine about the bytes and takes them apart.
    ///
    /// # Errors
    ///
    /// The engine's refusal, 1 to 9.
    pub fn read(bytes: &[u8]) -> Result<Table, Unread> {
        check_table(bytes).map_err(Unread::Refused)?;
        Table::taken_apart(bytes).ok_or(Unread::Contradiction)
    }

    fn taken_apart(bytes: &[u8]) -> Option<Table> {
        let mut records = Vec::new();
        let mut terms: Vec<Term> = Vec::new();
        for (_, record) in whole_records(bytes) {
            records.push(match *record {
                [12, tray, count] => Record::Tokens { tray, count },
                [13, start] => Record::Start(start),
                _ => Record::Term(Term::of_record(record)?),
            });
            if let Some(Record::Term(term)) = records.last() {
                let earlier = |number: &u8| usize::from(*number) < terms.len();
                if !term.references().iter().all(earlier) {
                    return None;
                }
                terms.push(*term);
            }
        }
        let Some(Record::Start(start)) = records.last().copied() else {
            return None;
        };
        terms.get(usize::from(start))?;
        Some(Table {
            bytes: bytes.to_vec(),
            records,
            terms,
            start,
        })
    }

    /// The very bytes, as the engine wants them.
    #[must_use]
    pub fn bytes(&self) -> &[u8] {
        &self.bytes
    }

    /// All records in order, the start record last.
    #[must_use]
    pub fn records(&self) -> &[Record] {
        &self.records
    }

    /// The terms; a reference is an index into them.
    #[must_use]
    pub fn terms(&self) -> &[Term] {
        &self.terms
    }

    /// The term of this number; [`Term::Nothing`] for a number that the table
    /// does not have, which no reference of an accepted table is.
    #[must_use]
    pub fn term(&self, number: u8) -> Term {
        self.terms
            .get(usize::from(number))
            .copied()
            .unwrap_or(Term::Nothing)
    }

    /// The process that the hall opens with.
    #[must_use]
    pub fn start(&self) -> u8 {
        self.start
    }

    /// The counts at the opening: what the tokens records name, 0 elsewhere.
    #[must_use]
    pub fn counts(&self) -> Counts {
        let mut counts = [0; TRAYS];
        for record in &self.records {
            if let Record::Tokens { tray, count } = *record {
                if let Some(slot) = counts.get_mut(usize::from(tray)) {
                    *slot = count;
                }
            }
        }
        counts
    }

    /// The trays that some record names.
    #[must_use]
    pub fn trays_in_use(&self) -> Vec<u8> {
        let mut used: Vec<u8> = self
            .records
            .iter()
            .filter_map(|record| match *record {
                Record::Term(term) => term.tray(),
                Record::Tokens { tray, .. } => Some(tray),
                Record::Start(_) => None,
            })
            .collect();
        used.sort_unstable();
        used.dedup();
        used
    }
}

/// How many bytes follow the kind of a record, none for an unknown kind.
#[must_use]
pub fn body_length(kind: u8) -> Option<usize> {
    match kind {
        1 | 7 | 8 => Some(0),
        2 | 6 | 13 => Some(1),
        3 | 4 | 5 | 9 | 10 | 11 | 12 => Some(2),
        _ => None,
    }
}

/// The records that can be stepped over, each with its offset: up to the end of
/// the bytes, an unknown kind or a record that is cut short.
#[must_use]
pub fn whole_records(bytes: &[u8]) -> Vec<(usize, &[u8])> {
    let mut records = Vec::new();
    let mut offset = 0;
    while let Some(&kind) = bytes.get(offset) {
        let Some(body) = body_length(kind) else { break };
        let end = offset + 1 + body;
        let Some(record) = bytes.get(offset..end) else {
            break;
        };
        records.push((offset, record));
        offset = end;
    }
    records
}

/// The bytes up to the end of the first start record, gone to from record to
/// record, and those behind it. Where there is none, all of them are the table: as the
/// printed run reads its input.
#[must_use]
pub fn split_choices(bytes: &[u8]) -> (&[u8], &[u8]) {
    let start = whole_records(bytes)
        .into_iter()
        .find(|(_, record)| record.first() == Some(&13));
    match start {
        Some((offset, record)) => bytes.split_at(offset + record.len()),
        None => (bytes, &[]),
    }
}

/// The terms of a table's bytes, refused ones too, up to and with the record at
/// a place. None where a record can't be read.
#[must_use]
pub fn terms_before(bytes: &[u8], place: usize) -> Option<Vec<Term>> {
    whole_records(bytes)
        .into_iter()
        .take_while(|(offset, _)| *offset <= place)
        .filter(|(_, record)| record.first().is_some_and(|kind| *kind <= 11))
        .map(|(_, record)| Term::of_record(record))
        .collect()
}
