//! Tables and stored halls written out by hand.

use reference::build::Builder;
use ruonfidd::HALL_BYTES;

/// The scope's example: a block that reads tray 0 and writes tray 1.
pub(crate) const EXAMPLE: [u8; 14] = [7, 10, 1, 0, 9, 0, 1, 6, 2, 12, 0, 1, 13, 3];

pub(crate) const WAITING: u8 = 20;
pub(crate) const ATTEMPT: u8 = 21;
pub(crate) const FORK: u8 = 22;
pub(crate) const LEAF: u8 = 23;
pub(crate) const PUTTING: u8 = 24;

/// The term byte of a retry without a record.
pub(crate) const BARE_RETRY: u8 = 255;

/// Parts put one behind the other.
pub(crate) fn joined(parts: &[&[u8]]) -> Vec<u8> {
    parts.concat()
}

/// A stored hall without tokens: these bytes behind the counts, then zeros.
pub(crate) fn hall(stations: &[u8]) -> Vec<u8> {
    let mut bytes = vec![0; 16];
    bytes.extend(stations);
    assert!(bytes.len() <= HALL_BYTES);
    bytes.resize(HALL_BYTES, 0);
    bytes
}

/// The bytes of an attempt with an empty snapshot.
pub(crate) fn attempt(block: u8, nodes: &[u8]) -> Vec<u8> {
    joined(&[&[ATTEMPT, block], &[0; 16], nodes])
}

/// The bytes of a leaf; the log is filled up with zeros.
pub(crate) fn leaf(term: u8, log_length: u8, log: &[u8]) -> Vec<u8> {
    let mut bytes = vec![LEAF, term, log_length];
    bytes.extend(log);
    assert!(bytes.len() <= 19);
    bytes.resize(19, 0);
    bytes
}

/// The nodes of a tree that leans to the left: all forks, then these leaves.
pub(crate) fn leaning_left(leaves: &[Vec<u8>]) -> Vec<u8> {
    let mut nodes = vec![FORK; leaves.len() - 1];
    nodes.extend(leaves.concat());
    nodes
}

/// The nodes of a tree that leans to the right: a fork before each leaf but the
/// last.
pub(crate) fn leaning_right(leaves: &[Vec<u8>]) -> Vec<u8> {
    let (last, front) = leaves.split_last().expect("at least one leaf");
    let mut nodes = Vec::new();
    for leaf in front {
        nodes.push(FORK);
        nodes.extend(leaf);
    }
    nodes.extend(last);
    nodes
}

/// A table with one term of each kind, and their numbers.
pub(crate) mod each_kind {
    use super::Builder;

    pub(crate) const END: u8 = 0;
    pub(crate) const RETRY: u8 = 1;
    /// Length 1.
    pub(crate) const RD: u8 = 2;
    /// Length 2.
    pub(crate) const WT: u8 = 3;
    /// Two branches, length 1.
    pub(crate) const OR_ELSE: u8 = 4;
    pub(crate) const NIL: u8 = 5;
    pub(crate) const PUT: u8 = 6;
    pub(crate) const TAKE: u8 = 7;
    pub(crate) const REPEATED_TAKE: u8 = 8;
    pub(crate) const SIDE_BY_SIDE: u8 = 9;
    pub(crate) const BLOCK: u8 = 10;
    /// How many terms there are.
    pub(crate) const TERMS: u8 = 11;

    pub(crate) const EXPRESSIONS: [u8; 5] = [END, RETRY, RD, WT, OR_ELSE];
    pub(crate) const PROCESSES: [u8; 6] = [NIL, PUT, TAKE, REPEATED_TAKE, SIDE_BY_SIDE, BLOCK];

    /// The records without a start.
    pub(crate) fn records() -> Builder {
        let mut table = Builder::new();
        assert_eq!(table.end(), END);
        assert_eq!(table.retry(), RETRY);
        assert_eq!(table.rd(2, END), RD);
        assert_eq!(table.wt(3, RD), WT);
        assert_eq!(table.or_else(RD, RETRY), OR_ELSE);
        assert_eq!(table.nil(), NIL);
        assert_eq!(table.put(15), PUT);
        assert_eq!(table.take(0, NIL), TAKE);
        assert_eq!(table.repeated_take(1, PUT), REPEATED_TAKE);
        assert_eq!(table.side_by_side(TAKE, REPEATED_TAKE), SIDE_BY_SIDE);
        assert_eq!(table.atom(OR_ELSE), BLOCK);
        assert_eq!(table.terms(), TERMS);
        table
    }

    /// The table, its start a nil.
    pub(crate) fn table() -> Vec<u8> {
        records().start(NIL)
    }
}
