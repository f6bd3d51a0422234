//! The hall as plain data, and its stored form of 11,344 bytes (document 01,
//! "The stored hall").

use crate::shortage::Shortage;
use crate::table::{branches, byte_of, length, Counts, Table, Term};
use crate::table::{MOST_BRANCHES, MOST_LENGTH, TRAYS};

/// The length of a stored hall.
pub const HALL_BYTES: usize = 11_344;
/// A hall has at most this many stations.
pub const MOST_STATIONS: usize = 64;
/// A leaf's log has room for this many entries.
pub const LOG_ROOM: usize = 16;
/// The term byte of a retry without a record.
pub const BARE_RETRY: u8 = 255;

const WAITING: u8 = 20;
const ATTEMPT: u8 = 21;
const FORK: u8 = 22;
const LEAF: u8 = 23;
const PUTTING: u8 = 24;

/// One entry of a log, and one action of a path.
#[derive(Clone, Copy, Debug, PartialEq, Eq, PartialOrd, Ord)]
pub enum Action {
    /// A read of this tray.
    Read(u8),
    /// A write to this tray.
    Write(u8),
}

/// What an attempt has noted down, oldest entry first.
#[derive(Clone, Debug, PartialEq, Eq)]
pub struct Log {
    /// Its entries, oldest first.
    pub entries: Vec<Action>,
}

impl Log {
    /// The empty log.
    pub const EMPTY: Log = Log {
        entries: Vec::new(),
    };

    /// This log with one more entry.
    #[must_use]
    pub fn with(&self, action: Action) -> Log {
        let mut entries = self.entries.clone();
        entries.push(action);
        Log { entries }
    }

    /// How often the log reads this tray.
    pub fn reads_of(&self, tray: usize) -> usize {
        let mut reads = 0;
        for action in &self.entries {
            if let Action::Read(read) = action {
                if usize::from(*read) == tray {
                    reads += 1;
                }
            }
        }
        reads
    }

    /// The trays written, in log order.
    pub fn writes(&self) -> Vec<u8> {
        let mut trays = Vec::new();
        for action in &self.entries {
            if let Action::Write(tray) = action {
                trays.push(*tray);
            }
        }
        trays
    }

    /// The one test of the reads against counts: nothing when for each tray the
    /// reads are at most the count, else the lowest tray for which they are not,
    /// and by how many they are more (document 02, Q-3).
    pub fn shortage(&self, counts: &Counts) -> Option<Shortage> {
        (0..TRAYS).find_map(|tray| {
            let lacking = self.reads_of(tray).checked_sub(usize::from(counts[tray]))?;
            (lacking > 0).then(|| Shortage {
                tray: byte_of(tray),
                by: byte_of(lacking),
            })
        })
    }
}

/// What a leaf has still to do.
#[derive(Clone, Copy, Debug, PartialEq, Eq)]
pub enum Rest {
    /// An expression of the table.
    Term(usize),
    /// A retry that needs no record, stored as 255.
    BareRetry,
}

/// A node without sides.
#[derive(Clone, Debug, PartialEq, Eq)]
pub struct Leaf {
    /// What it has still to do.
    pub rest: Rest,
    /// What it has done.
    pub log: Log,
}

/// A node of an attempt.
#[derive(Clone, Debug, PartialEq, Eq)]
pub enum Node {
    /// Its left and its right side.
    Fork(Box<Node>, Box<Node>),
    /// An expression with its log.
    Leaf(Leaf),
}

impl Node {
    /// How many nodes this tree has.
    pub fn size(&self) -> usize {
        match self {
            Node::Fork(left, right) => 1 + left.size() + right.size(),
            Node::Leaf(_) => 1,
        }
    }

    /// The node with this preorder number, counted from 0.
    pub fn at(&self, number: usize) -> Option<&Node> {
        if number == 0 {
            return Some(self);
        }
        match self {
            Node::Leaf(_) => None,
            Node::Fork(left, right) => {
                let in_left = left.size();
                if number <= in_left {
                    left.at(number - 1)
                } else {
                    right.at(number - 1 - in_left)
                }
            }
        }
    }

    /// This tree with the node of this preorder number replaced.
    #[must_use]
    pub fn replaced(&self, number: usize, by: &Node) -> Node {
        if number == 0 {
            return by.clone();
        }
        match self {
            Node::Leaf(_) => self.clone(),
            Node::Fork(left, right) => {
                let in_left = left.size();
                if number <= in_left {
                    Node::Fork(Box::new(left.replaced(number - 1, by)), right.clone())
                } else {
                    let new_right = right.replaced(number - 1 - in_left, by);
                    Node::Fork(left.clone(), Box::new(new_right))
                }
            }
        }
    }
}

/// One process of the parallel composition.
#[derive(Clone, Debug, PartialEq, Eq)]
pub enum Station {
    /// A take, a repeated take or a block, none of it begun.
    Waiting {
        /// Its term.
        term: usize,
    },
    /// A put that is still to be done.
    Putting {
        /// Its tray.
        tray: u8,
    },
    /// A block (term of kind 6) under way.
    Attempt {
        /// The block.
        term: usize,
        /// The counts when it began.
        snapshot: Counts,
        /// Its nodes.
        tree: Node,
    },
}

/// A hall: its counts and its stations in order.
#[derive(Clone, Debug, PartialEq, Eq)]
pub struct Hall {
    /// One count for each tray.
    pub counts: Counts,
    /// The stations, the one at position 0 first.
    pub stations: Vec<Station>,
}

/// The hall with which a table opens.
pub fn opening(table: &Table) -> Hall {
    Hall {
        counts: table.tokens,
        stations: stations_of(table, table.start),
    }
}

/// The stations that a process term opens into, left side first.
pub fn stations_of(table: &Table, term: usize) -> Vec<Station> {
    match table.terms[term] {
        Term::Nil => vec![],
        Term::Put { tray } => vec![Station::Putting { tray }],
        Term::SideBySide { left, right } => {
            let mut stations = stations_of(table, left);
            stations.extend(stations_of(table, right));
            stations
        }
        _ => vec![Station::Waiting { term }],
    }
}

/// The stored form of a hall.
///
/// # Panics
///
/// On a hall over the limits, which does not fit into the bytes.
pub fn encode(hall: &Hall) -> Vec<u8> {
    let mut bytes = hall.counts.to_vec();
    for station in &hall.stations {
        encode_station(station, &mut bytes);
    }
    assert!(bytes.len() <= HALL_BYTES, "a hall over the limits");
    bytes.resize(HALL_BYTES, 0);
    bytes
}

fn encode_station(station: &Station, bytes: &mut Vec<u8>) {
    match station {
        Station::Waiting { term } => bytes.extend([WAITING, byte_of(*term)]),
        Station::Putting { tray } => bytes.extend([PUTTING, *tray]),
        Station::Attempt {
            term,
            snapshot,
            tree,
        } => {
            bytes.extend([ATTEMPT, byte_of(*term)]);
            bytes.extend(snapshot);
            encode_node(tree, bytes);
        }
    }
}

fn encode_node(node: &Node, bytes: &mut Vec<u8>) {
    match node {
        Node::Fork(left, right) => {
            bytes.push(FORK);
            encode_node(left, bytes);
            encode_node(right, bytes);
        }
        Node::Leaf(leaf) => {
            bytes.push(LEAF);
            bytes.push(match leaf.rest {
                Rest::Term(term) => byte_of(term),
                Rest::BareRetry => BARE_RETRY,
            });
            encode_log(&leaf.log, bytes);
        }
    }
}

fn encode_log(log: &Log, bytes: &mut Vec<u8>) {
    assert!(log.entries.len() <= LOG_ROOM, "a log over the limits");
    bytes.push(byte_of(log.entries.len()));
    for index in 0..LOG_ROOM {
        bytes.push(match log.entries.get(index) {
            None => 0,
            Some(Action::Read(tray)) => *tray,
            Some(Action::Write(tray)) => 16 + *tray,
        });
    }
}

/// The hall stored in these bytes, or nothing when they are not well formed
/// for this table (refusal 11; the length is refusal 10).
pub fn decode(table: &Table, bytes: &[u8]) -> Option<Hall> {
    if bytes.len() != HALL_BYTES {
        return None;
    }
    let mut input = Input { bytes, at: 0 };
    let counts = input.counts()?;
    let mut stations = Vec::new();
    while input.has_station() {
        if stations.len() == MOST_STATIONS {
            return None;
        }
        stations.push(decode_station(table, &mut input)?);
    }
    if !input.rest_is_zero() {
        return None;
    }
    Some(Hall { counts, stations })
}

/// The stored bytes and how far they have been read.
struct Input<'a> {
    bytes: &'a [u8],
    at: usize,
}

impl Input<'_> {
    fn byte(&mut self) -> Option<u8> {
        let byte = *self.bytes.get(self.at)?;
        self.at += 1;
        Some(byte)
    }

    fn counts(&mut self) -> Option<Counts> {
        let mut counts = [0; TRAYS];
        for count in &mut counts {
            *count = self.byte()?;
        }
        Some(counts)
    }

    /// A byte that is not zero begins a station.
    fn has_station(&self) -> bool {
        self.at < self.bytes.len() && self.bytes[self.at] != 0
    }

    fn rest_is_zero(&self) -> bool {
        self.bytes[self.at..].iter().all(|byte| *byte == 0)
    }
}

fn decode_station(table: &Table, input: &mut Input<'_>) -> Option<Station> {
    match input.byte()? {
        WAITING => {
            let term = usize::from(input.byte()?);
            match table.terms.get(term)? {
                Term::Take { .. } | Term::RepeatedTake { .. } | Term::Atom { .. } => {
                    Some(Station::Waiting { term })
                }
                _ => None,
            }
        }
        PUTTING => {
            let tray = input.byte()?;
            if usize::from(tray) < TRAYS {
                Some(Station::Putting { tray })
            } else {
                None
            }
        }
        ATTEMPT => {
            let term = usize::from(input.byte()?);
            let Term::Atom { .. } = table.terms.get(term)? else {
                return None;
            };
            let snapshot = input.counts()?;
            let tree = decode_tree(table, input)?;
            Some(Station::Attempt {
                term,
                snapshot,
                tree,
            })
        }
        _ => None,
    }
}

/// A node as it stands in the bytes, without its sides.
enum FlatNode {
    Fork,
    Leaf(Leaf),
}

/// The nodes of one attempt. They are first read in a row, so that bytes full
/// of forks cost no stack; only a tree of at most 8 branches is then built.
fn decode_tree(table: &Table, input: &mut Input<'_>) -> Option<Node> {
    let mut row = Vec::new();
    let mut missing = 1;
    while missing > 0 {
        match input.byte()? {
            FORK => {
                row.push(FlatNode::Fork);
                missing += 1;
            }
            LEAF => {
                row.push(FlatNode::Leaf(decode_leaf(table, input)?));
                missing -= 1;
            }
            _ => return None,
        }
    }
    if branches_in_all(table, &row) > MOST_BRANCHES {
        return None;
    }
    Some(build_tree(&mut row.into_iter()))
}

fn branches_in_all(table: &Table, row: &[FlatNode]) -> usize {
    let mut sum = 0;
    for node in row {
        if let FlatNode::Leaf(leaf) = node {
            sum += rest_branches(table, leaf.rest);
        }
    }
    sum
}

/// The tree of a row in preorder that is known to make exactly one tree.
fn build_tree(row: &mut std::vec::IntoIter<FlatNode>) -> Node {
    match row.next().expect("a row that makes one tree") {
        FlatNode::Leaf(leaf) => Node::Leaf(leaf),
        FlatNode::Fork => {
            let left = build_tree(row);
            let right = build_tree(row);
            Node::Fork(Box::new(left), Box::new(right))
        }
    }
}

fn decode_leaf(table: &Table, input: &mut Input<'_>) -> Option<Leaf> {
    let rest = decode_rest(table, input.byte()?)?;
    let log = decode_log(input)?;
    if log.entries.len() + rest_length(table, rest) > MOST_LENGTH {
        return None;
    }
    Some(Leaf { rest, log })
}

fn decode_rest(table: &Table, byte: u8) -> Option<Rest> {
    if byte == BARE_RETRY {
        return Some(Rest::BareRetry);
    }
    let term = usize::from(byte);
    if table.terms.get(term)?.is_expression() {
        Some(Rest::Term(term))
    } else {
        None
    }
}

fn decode_log(input: &mut Input<'_>) -> Option<Log> {
    let log_length = usize::from(input.byte()?);
    if log_length > LOG_ROOM {
        return None;
    }
    let mut entries = Vec::new();
    for index in 0..LOG_ROOM {
        let byte = input.byte()?;
        if index >= log_length {
            if byte != 0 {
                return None;
            }
        } else if byte < 16 {
            entries.push(Action::Read(byte));
        } else if byte < 32 {
            entries.push(Action::Write(byte - 16));
        } else {
            return None;
        }
    }
    Some(Log { entries })
}

/// Branches of what a leaf has still to do.
pub fn rest_branches(table: &Table, rest: Rest) -> usize {
    match rest {
        Rest::Term(term) => branches(&table.terms, term),
        Rest::BareRetry => 1,
    }
}

/// Length of what a leaf has still to do.
pub fn rest_length(table: &Table, rest: Rest) -> usize {
    match rest {
        Rest::Term(term) => length(&table.terms, term),
        Rest::BareRetry => 0,
    }
}
