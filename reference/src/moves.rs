//! What one choice does to a hall (document 01, "Choices and moves", refusals
//! 14 to 20), and what was short where a commit or a read fails (document 02,
//!

use crate::choice::Choice;
use crate::hall::{stations_of, Action, Hall, Leaf, Log, Node, Rest, Station, MOST_STATIONS};
use crate::shortage::Shortage;
use crate::table::{byte_of, Counts, Table, Term, TRAYS};

/// A put is done.
pub const OUT: u8 = 1;
/// A take is done.
pub const IN: u8 = 2;
/// A repeated take is done once.
pub const REP: u8 = 3;
/// An attempt begins.
pub const ATST: u8 = 4;
/// An attempt ends in retry.
pub const ATRE: u8 = 5;
/// An attempt ends because its commit finds too little.
pub const ATFAIL: u8 = 6;
/// An attempt is committed.
pub const ATOK: u8 = 7;
/// A read is logged.
pub const ARDOK: u8 = 8;
/// A read fails and becomes a retry.
pub const ARDF: u8 = 9;
/// A write is logged.
pub const AWR: u8 = 10;
/// An alternative becomes a fork.
pub const AOI: u8 = 11;
/// A fork keeps its right side.
pub const AOF: u8 = 12;
/// A fork keeps its left side.
pub const AOE: u8 = 13;

/// The answer to one choice.
#[derive(Clone, Debug, PartialEq, Eq)]
pub enum Outcome {
    /// One rule was done.
    Moved {
        /// Its number, 1 to 13.
        rule: u8,
        /// What was short: something under rules 6 and 9, nothing under any other.
        short: Option<Shortage>,
        /// The hall after it.
        hall: Hall,
    },
    /// The number of the refusal, 14 to 20.
    Refused(u8),
}

/// A rule that finds nothing short.
fn moved(rule: u8, hall: Hall) -> Outcome {
    Outcome::Moved {
        rule,
        short: None,
        hall,
    }
}

/// One choice on a hall. The hall given is left as it is.
pub fn make_move(table: &Table, hall: &Hall, choice: Choice) -> Outcome {
    match choice {
        Choice::Act { position } => act(table, hall, usize::from(position)),
        Choice::Inside { position, node } => {
            inside(table, hall, usize::from(position), usize::from(node))
        }
    }
}

/// Kind 1.
fn act(table: &Table, hall: &Hall, position: usize) -> Outcome {
    let Some(station) = hall.stations.get(position) else {
        return Outcome::Refused(14);
    };
    match station {
        Station::Putting { tray } => put(hall, position, usize::from(*tray)),
        Station::Waiting { term } => match table.terms[*term] {
            Term::Take { tray, then } => {
                let opened = stations_of(table, then);
                take(hall, position, usize::from(tray), IN, opened)
            }
            Term::RepeatedTake { tray, then } => {
                let mut opened = stations_of(table, then);
                opened.push(station.clone());
                take(hall, position, usize::from(tray), REP, opened)
            }
            Term::Atom { body } => begin(hall, position, *term, body),
            _ => unreachable!("only takes and blocks wait"),
        },
        Station::Attempt { term, tree, .. } => finish(table, hall, position, *term, tree),
    }
}

/// OUT.
fn put(hall: &Hall, position: usize, tray: usize) -> Outcome {
    if hall.counts[tray] == 255 {
        return Outcome::Refused(20);
    }
    let mut next = with_stations(hall, position, vec![]);
    next.counts[tray] += 1;
    moved(OUT, next)
}

/// IN and REP.
fn take(hall: &Hall, position: usize, tray: usize, rule: u8, opened: Vec<Station>) -> Outcome {
    if hall.counts[tray] == 0 {
        return Outcome::Refused(18);
    }
    let mut next = with_stations(hall, position, opened);
    if next.stations.len() > MOST_STATIONS {
        return Outcome::Refused(19);
    }
    next.counts[tray] -= 1;
    moved(rule, next)
}

/// ATST.
fn begin(hall: &Hall, position: usize, term: usize, body: usize) -> Outcome {
    let attempt = Station::Attempt {
        term,
        snapshot: hall.counts,
        tree: Node::Leaf(Leaf {
            rest: Rest::Term(body),
            log: Log::EMPTY,
        }),
    };
    moved(ATST, with_stations(hall, position, vec![attempt]))
}

/// ATRE, ATFAIL and ATOK, or refusal 15.
fn finish(table: &Table, hall: &Hall, position: usize, term: usize, tree: &Node) -> Outcome {
    match verdict(table, tree) {
        Verdict::Unsettled => Outcome::Refused(15),
        Verdict::Retry => moved(
            ATRE,
            with_stations(hall, position, vec![Station::Waiting { term }]),
        ),
        Verdict::End(log) => match log.shortage(&hall.counts) {
            None => commit(hall, position, &log),
            short => Outcome::Moved {
                rule: ATFAIL,
                short,
                hall: with_stations(hall, position, vec![Station::Waiting { term }]),
            },
        },
    }
}

/// ATOK: the reads are known to be within the counts.
fn commit(hall: &Hall, position: usize, log: &Log) -> Outcome {
    let mut putting = Vec::new();
    for tray in log.writes() {
        putting.push(Station::Putting { tray });
    }
    let mut next = with_stations(hall, position, putting);
    if next.stations.len() > MOST_STATIONS {
        return Outcome::Refused(19);
    }
    for tray in 0..TRAYS {
        next.counts[tray] -= byte_of(log.reads_of(tray));
    }
    moved(ATOK, next)
}

/// Kind 2.
fn inside(table: &Table, hall: &Hall, position: usize, node: usize) -> Outcome {
    let Some(station) = hall.stations.get(position) else {
        return Outcome::Refused(14);
    };
    let Station::Attempt {
        term,
        snapshot,
        tree,
    } = station
    else {
        return Outcome::Refused(15);
    };
    let Some(here) = tree.at(node) else {
        return Outcome::Refused(16);
    };
    let Some(made) = move_of_node(table, snapshot, here) else {
        return Outcome::Refused(17);
    };
    let attempt = Station::Attempt {
        term: *term,
        snapshot: *snapshot,
        tree: tree.replaced(node, &made.by),
    };
    Outcome::Moved {
        rule: made.rule,
        short: made.short,
        hall: with_stations(hall, position, vec![attempt]),
    }
}

/// A move at a node, by one of rules 8 to 13.
struct NodeMove {
    /// The number of the rule.
    rule: u8,
    /// What was short, where a read failed.
    short: Option<Shortage>,
    /// What takes the node's place.
    by: Node,
}

/// A move at a node by a rule that finds nothing short.
fn node_moved(rule: u8, by: Node) -> NodeMove {
    NodeMove {
        rule,
        short: None,
        by,
    }
}

/// Rules 8 to 13, or nothing when no rule applies at the node.
fn move_of_node(table: &Table, snapshot: &Counts, node: &Node) -> Option<NodeMove> {
    match node {
        Node::Leaf(leaf) => move_of_leaf(table, snapshot, leaf),
        Node::Fork(left, right) => match verdict(table, left) {
            Verdict::Retry => Some(node_moved(AOF, (**right).clone())),
            Verdict::End(_) => Some(node_moved(AOE, (**left).clone())),
            Verdict::Unsettled => None,
        },
    }
}

fn move_of_leaf(table: &Table, snapshot: &Counts, leaf: &Leaf) -> Option<NodeMove> {
    let Rest::Term(term) = leaf.rest else {
        return None;
    };
    match table.terms[term] {
        Term::Rd { tray, rest } => {
            let log = leaf.log.with(Action::Read(tray));
            Some(match log.shortage(snapshot) {
                None => node_moved(ARDOK, leaf_node(Rest::Term(rest), log)),
                short => NodeMove {
                    rule: ARDF,
                    short,
                    by: leaf_node(Rest::BareRetry, leaf.log.clone()),
                },
            })
        }
        Term::Wt { tray, rest } => {
            let log = leaf.log.with(Action::Write(tray));
            Some(node_moved(AWR, leaf_node(Rest::Term(rest), log)))
        }
        Term::OrElse { left, right } => {
            let left = leaf_node(Rest::Term(left), leaf.log.clone());
            let right = leaf_node(Rest::Term(right), leaf.log.clone());
            let fork = Node::Fork(Box::new(left), Box::new(right));
            Some(node_moved(AOI, fork))
        }
        _ => None,
    }
}

fn leaf_node(rest: Rest, log: Log) -> Node {
    Node::Leaf(Leaf { rest, log })
}

/// How a tree has come out so far.
enum Verdict {
    /// A single end leaf, with its log.
    End(Log),
    /// A single retry leaf, with or without a record.
    Retry,
    /// Anything else.
    Unsettled,
}

fn verdict(table: &Table, tree: &Node) -> Verdict {
    let Node::Leaf(leaf) = tree else {
        return Verdict::Unsettled;
    };
    match leaf.rest {
        Rest::BareRetry => Verdict::Retry,
        Rest::Term(term) => match table.terms[term] {
            Term::Retry => Verdict::Retry,
            Term::End => Verdict::End(leaf.log.clone()),
            _ => Verdict::Unsettled,
        },
    }
}

/// The hall with the station at the position replaced by these.
fn with_stations(hall: &Hall, position: usize, by: Vec<Station>) -> Hall {
    let mut stations = hall.stations[..position].to_vec();
    stations.extend(by);
    stations.extend_from_slice(&hall.stations[position + 1..]);
    Hall {
        counts: hall.counts,
        stations,
    }
}

/// Every accepted choice of a hall, in the order of positions, kind 1 before
/// kind 2, nodes in preorder. No other choice can be accepted: it would name
/// no station (14) or no node (15, 16).
pub fn accepted_choices(table: &Table, hall: &Hall) -> Vec<Choice> {
    let mut accepted = Vec::new();
    for choice in nameable_choices(hall) {
        if let Outcome::Moved { .. } = make_move(table, hall, choice) {
            accepted.push(choice);
        }
    }
    accepted
}

/// Every choice that names a station, and for kind 2 a node of an attempt.
fn nameable_choices(hall: &Hall) -> Vec<Choice> {
    let mut choices = Vec::new();
    for (index, station) in hall.stations.iter().enumerate() {
        let position = byte_of(index);
        choices.push(Choice::Act { position });
        if let Station::Attempt { tree, .. } = station {
            for node in 0..tree.size() {
                choices.push(Choice::Inside {
                    position,
                    node: byte_of(node),
                });
            }
        }
    }
    choices
}
