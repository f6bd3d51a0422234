//! The process and state that a hall stands for (document 01, "Choices and
//! moves"). Terms are unfolded into trees.

use crate::calculus::{Act, Expression, Multiset, Ongoing, Process};
use crate::hall::{Action, Hall, Leaf, Node, Rest, Station};
use crate::table::{byte_of, Counts, Table, Term};

/// How many nodes each term has when unfolded, stopping at the top of u64.
/// Takes can make a term of 200 records unfold into more than any memory.
pub fn unfolded_sizes(table: &Table) -> Vec<u64> {
    let mut sizes: Vec<u64> = Vec::new();
    for term in &table.terms {
        let inner = match *term {
            Term::Nil | Term::Put { .. } | Term::End | Term::Retry => 0,
            Term::Take { then, .. } | Term::RepeatedTake { then, .. } => sizes[then],
            Term::Atom { body } => sizes[body],
            Term::Rd { rest, .. } | Term::Wt { rest, .. } => sizes[rest],
            Term::SideBySide { left, right } | Term::OrElse { left, right } => {
                sizes[left].saturating_add(sizes[right])
            }
        };
        sizes.push(inner.saturating_add(1));
    }
    sizes
}

/// The state of a hall's counts, each tray as a name.
pub fn state_of(counts: &Counts) -> Multiset {
    let mut state = Multiset::empty();
    for (tray, count) in counts.iter().enumerate() {
        state = state.plus_times(byte_of(tray), u32::from(*count));
    }
    state
}

/// The processes of the stations, in order.
pub fn station_processes(table: &Table, hall: &Hall) -> Vec<Process> {
    let mut processes = Vec::new();
    for station in &hall.stations {
        processes.push(station_process(table, station));
    }
    processes
}

/// The process of one station of a hall that is well formed for the table.
///
/// # Panics
///
/// On an attempt of a term that is no block.
pub fn station_process(table: &Table, station: &Station) -> Process {
    match station {
        Station::Waiting { term } => process_of(table, *term),
        Station::Putting { tray } => Process::Output(*tray),
        Station::Attempt {
            term,
            snapshot,
            tree,
        } => {
            let Term::Atom { body } = table.terms[*term] else {
                panic!("an attempt is of a block");
            };
            Process::Block {
                ongoing: ongoing_of(table, &state_of(snapshot), tree),
                code: expression_of(table, body),
            }
        }
    }
}

/// The process that a term of kind 1 to 6 unfolds into.
///
/// # Panics
///
/// On an expression.
pub fn process_of(table: &Table, term: usize) -> Process {
    match table.terms[term] {
        Term::Nil => Process::Nil,
        Term::Put { tray } => Process::Output(tray),
        Term::Take { tray, then } => Process::Input(tray, Box::new(process_of(table, then))),
        Term::RepeatedTake { tray, then } => {
            Process::Replicated(tray, Box::new(process_of(table, then)))
        }
        Term::SideBySide { left, right } => Process::Parallel(
            Box::new(process_of(table, left)),
            Box::new(process_of(table, right)),
        ),
        Term::Atom { body } => Process::Atom(expression_of(table, body)),
        _ => panic!("an expression is no process"),
    }
}

/// The expression that a term of kind 7 to 11 unfolds into.
///
/// # Panics
///
/// On a process.
pub fn expression_of(table: &Table, term: usize) -> Expression {
    let inner = |term| Box::new(expression_of(table, term));
    match table.terms[term] {
        Term::End => Expression::End,
        Term::Retry => Expression::Retry,
        Term::Rd { tray, rest } => Expression::Prefix(Act::Rd(tray), inner(rest)),
        Term::Wt { tray, rest } => Expression::Prefix(Act::Wt(tray), inner(rest)),
        Term::OrElse { left, right } => Expression::OrElse(inner(left), inner(right)),
        _ => panic!("a process is no expression"),
    }
}

fn ongoing_of(table: &Table, state: &Multiset, node: &Node) -> Ongoing {
    match node {
        Node::Fork(left, right) => Ongoing::OrElse(
            Box::new(ongoing_of(table, state, left)),
            Box::new(ongoing_of(table, state, right)),
        ),
        Node::Leaf(leaf) => leaf_of(table, state, leaf),
    }
}

fn leaf_of(table: &Table, state: &Multiset, leaf: &Leaf) -> Ongoing {
    let expression = match leaf.rest {
        Rest::Term(term) => expression_of(table, term),
        Rest::BareRetry => Expression::Retry,
    };
    let mut log = Vec::new();
    for action in &leaf.log.entries {
        log.push(match action {
            Action::Read(tray) => Act::Rd(*tray),
            Action::Write(tray) => Act::Wt(*tray),
        });
    }
    Ongoing::Of {
        expression,
        state: state.clone(),
        log,
    }
}
