//! The stations of a hall, read from its stored bytes.
//!
//! The hall is one that the engine made or checked; what the bytes mean is
//! shown here, what they do next is the engine's to say.

use ruonfidd::Hall;

use crate::table::{Counts, TRAYS};

/// One station, in the order of the hall.
#[derive(Clone, Debug, PartialEq, Eq)]
pub enum Station {
    /// A take, a repeated take or a block that has not begun: its term.
    Waiting(u8),
    /// About to put one token into this tray.
    Putting(u8),
    /// In the middle of its block.
    Attempt(Attempt),
}

/// An open attempt.
#[derive(Clone, Debug, PartialEq, Eq)]
pub struct Attempt {
    /// The term of its block.
    pub block: u8,
    /// The counts when it opened.
    pub remembers: Counts,
    /// Its tree in preorder: each fork before its two sides. Never empty.
    pub nodes: Vec<Node>,
}

/// One node of an attempt.
#[derive(Clone, Debug, PartialEq, Eq)]
pub enum Node {
    /// Two sides that go on by themselves. The left one is the next node.
    Fork {
        /// The node at which the right side begins.
        right: usize,
    },
    /// A way under way.
    Leaf(Leaf),
}

/// A way under way.
#[derive(Clone, Debug, PartialEq, Eq)]
pub struct Leaf {
    /// The expression that is left to do; none where a take found too little
    /// and the way gave up.
    pub rest: Option<u8>,
    /// What it has noted.
    pub log: Vec<Action>,
}

/// One noted action.
#[derive(Clone, Copy, Debug, PartialEq, Eq, Hash)]
pub enum Action {
    /// One token of this tray is taken at the commit.
    Take(u8),
    /// One token is put into this tray after the commit.
    Put(u8),
}

impl Action {
    fn of_byte(byte: u8) -> Action {
        match byte.checked_sub(16) {
            None => Action::Take(byte),
            Some(tray) => Action::Put(tray),
        }
    }
}

/// How many tokens of each tray these actions take.
#[must_use]
pub fn takes(actions: &[Action]) -> Counts {
    let mut counts: Counts = [0; TRAYS];
    for action in actions {
        if let Action::Take(tray) = *action {
            if let Some(count) = counts.get_mut(usize::from(tray)) {
                *count = count.saturating_add(1);
            }
        }
    }
    counts
}

/// The trays into which these actions put, in order.
#[must_use]
pub fn puts(actions: &[Action]) -> Vec<u8> {
    actions
        .iter()
        .filter_map(|action| match *action {
            Action::Put(tray) => Some(tray),
            Action::Take(_) => None,
        })
        .collect()
}

impl Attempt {
    /// The only leaf, where the attempt is down to one.
    #[must_use]
    pub fn single_leaf(&self) -> Option<&Leaf> {
        match self.nodes.as_slice() {
            [Node::Leaf(leaf)] => Some(leaf),
            _ => None,
        }
    }
}

/// The counts of a hall.
#[must_use]
pub fn counts(hall: &Hall) -> Counts {
    let mut counts = [0; TRAYS];
    for (slot, count) in counts.iter_mut().zip(hall.counts()) {
        *slot = *count;
    }
    counts
}

/// The stations of a hall; none where the bytes are of another form, which
/// those of a [`Hall`] are not.
#[must_use]
pub fn stations(hall: &Hall) -> Option<Vec<Station>> {
    let mut bytes = hall.as_bytes().get(TRAYS..)?;
    let mut stations = Vec::new();
    loop {
        match *bytes {
            [20, term, ..] => {
                stations.push(Station::Waiting(term));
                bytes = bytes.get(2..)?;
            }
            [24, tray, ..] => {
                stations.push(Station::Putting(tray));
                bytes = bytes.get(2..)?;
            }
            [21, ..] => stations.push(Station::Attempt(attempt(&mut bytes)?)),
            _ => return Some(stations),
        }
    }
}

fn attempt(bytes: &mut &[u8]) -> Option<Attempt> {
    let block = *bytes.get(1)?;
    let mut remembers = [0; TRAYS];
    remembers.copy_from_slice(bytes.get(2..2 + TRAYS)?);
    *bytes = bytes.get(2 + TRAYS..)?;
    Some(Attempt {
        block,
        remembers,
        nodes: nodes(bytes)?,
    })
}

/// One tree in preorder. A fork waits for its right side until its left side is
/// complete.
fn nodes(bytes: &mut &[u8]) -> Option<Vec<Node>> {
    let mut nodes = Vec::new();
    let mut without_right = Vec::new();
    loop {
        if let [22, ..] = **bytes {
            without_right.push(nodes.len());
            nodes.push(Node::Fork { right: 0 });
            *bytes = bytes.get(1..)?;
            continue;
        }
        nodes.push(Node::Leaf(leaf(bytes)?));
        let next = nodes.len();
        match without_right.pop() {
            None => return Some(nodes),
            Some(fork) => *nodes.get_mut(fork)? = Node::Fork { right: next },
        }
    }
}

fn leaf(bytes: &mut &[u8]) -> Option<Leaf> {
    let [23, rest, length, ..] = **bytes else {
        return None;
    };
    let noted = bytes.get(3..3 + usize::from(length))?;
    let log = noted.iter().map(|byte| Action::of_byte(*byte)).collect();
    *bytes = bytes.get(19..)?;
    Some(Leaf {
        rest: (rest != 255).then_some(rest),
        log,
    })
}

#[cfg(test)]
#[allow(clippy::unwrap_used, clippy::indexing_slicing)]
mod tests {
    use super::{stations, Action, Attempt, Leaf, Node, Station};
    use crate::table::TRAYS;
    use ruonfidd::Hall;

    /// (retry or else (end or else retry)), opened and split twice: the left
    /// side of the first fork is a leaf, its right side a fork.
    #[test]
    fn nodes_in_preorder() {
        let table = [7, 8, 11, 0, 1, 11, 1, 2, 6, 3, 13, 4];
        let (mut hall, mut tally) = Hall::open(&table).unwrap();
        assert_eq!(stations(&hall), Some(vec![Station::Waiting(4)]));
        hall.run(&table, &[1, 0, 2, 0, 0, 2, 0, 2], &mut tally)
            .unwrap();
        let leaf = |rest| {
            Node::Leaf(Leaf {
                rest: Some(rest),
                log: vec![],
            })
        };
        let expected = Attempt {
            block: 4,
            remembers: [0; TRAYS],
            nodes: vec![
                Node::Fork { right: 2 },
                leaf(1),
                Node::Fork { right: 4 },
                leaf(0),
                leaf(1),
            ],
        };
        assert_eq!(stations(&hall), Some(vec![Station::Attempt(expected)]));
    }

    /// A fork on the left side: ((end or else retry) or else end).
    #[test]
    fn a_fork_to_the_left() {
        let table = [7, 8, 11, 0, 1, 11, 2, 0, 6, 3, 13, 4];
        let (mut hall, mut tally) = Hall::open(&table).unwrap();
        hall.run(&table, &[1, 0, 2, 0, 0, 2, 0, 1], &mut tally)
            .unwrap();
        let all = stations(&hall).unwrap();
        let Station::Attempt(attempt) = &all[0] else {
            unreachable!("an attempt");
        };
        assert_eq!(attempt.nodes[0], Node::Fork { right: 4 });
        assert_eq!(attempt.nodes[1], Node::Fork { right: 3 });
    }

    #[test]
    fn notes() {
        let table = [7, 10, 1, 0, 9, 0, 1, 6, 2, 12, 0, 1, 13, 3];
        let (mut hall, mut tally) = Hall::open(&table).unwrap();
        hall.run(&table, &[1, 0, 2, 0, 0, 2, 0, 0], &mut tally)
            .unwrap();
        let all = stations(&hall).unwrap();
        let Station::Attempt(attempt) = &all[0] else {
            unreachable!("an attempt");
        };
        let leaf = attempt.single_leaf().unwrap();
        assert_eq!(leaf.log, [Action::Take(0), Action::Put(1)]);
        assert_eq!(leaf.rest, Some(0));
        assert_eq!(super::takes(&leaf.log)[..2], [1, 0]);
        assert_eq!(super::puts(&leaf.log), [1]);
    }
}
