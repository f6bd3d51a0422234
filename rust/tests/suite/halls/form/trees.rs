//! The nodes of an attempt: exactly one tree, with at most 8 branches in all.

use reference::build::Builder;
use reference::table::byte_of;

use super::{nodes_are, stations_are};
use crate::common::answers::{hall_gives, ACCEPTED};
use crate::common::by_hand::{attempt, each_kind, hall, joined, leaf, leaning_left, leaning_right};
use crate::common::by_hand::{BARE_RETRY, FORK, PUTTING, WAITING};

fn end() -> Vec<u8> {
    leaf(each_kind::END, 0, &[])
}

#[test]
fn an_attempt_without_a_node() {
    nodes_are(&[], false);
    // The next station does not stand for one.
    let alone = attempt(each_kind::BLOCK, &[]);
    stations_are(&joined(&[&alone, &[PUTTING, 1]]), false);
}

#[test]
fn a_fork_without_a_side() {
    nodes_are(&[FORK], false);
    nodes_are(&joined(&[&[FORK], &end()]), false);
    nodes_are(&joined(&[&[FORK], &end(), &[FORK], &end()]), false);
    nodes_are(&joined(&[&[FORK, FORK], &end(), &end()]), false);
}

#[test]
fn whole_trees() {
    nodes_are(&end(), true);
    nodes_are(&joined(&[&[FORK], &end(), &end()]), true);
    nodes_are(&joined(&[&[FORK, FORK], &end(), &end(), &end()]), true);
    nodes_are(&joined(&[&[FORK], &end(), &[FORK], &end(), &end()]), true);
}

#[test]
fn a_leaf_too_many() {
    nodes_are(&joined(&[&end(), &end()]), false);
    nodes_are(&joined(&[&[FORK], &end(), &end(), &end()]), false);
}

/// Another station may follow a whole tree, but not a part of one.
#[test]
fn a_station_behind_a_tree_and_inside_one() {
    for station in [[PUTTING, 3], [WAITING, each_kind::TAKE]] {
        let whole = attempt(each_kind::BLOCK, &joined(&[&[FORK], &end(), &end()]));
        stations_are(&joined(&[&whole, &station]), true);
        let part = attempt(each_kind::BLOCK, &joined(&[&[FORK], &end()]));
        stations_are(&joined(&[&part, &station]), false);
        stations_are(&joined(&[&part, &station, &end()]), false);
    }
}

/// Every row of up to 11 forks and leaves: well formed are those that make
/// exactly one tree of at most 8 leaves.
#[test]
fn every_row_of_forks_and_leaves() {
    let mut trees = 0;
    for nodes in 1..=11 {
        for row in 0..1_usize << nodes {
            let mut bytes = Vec::new();
            // How many nodes are still missing; a tree is whole at 0.
            let mut missing = 1_usize;
            let mut one_tree = true;
            for node in 0..nodes {
                one_tree &= missing > 0;
                if row >> node & 1 == 1 {
                    bytes.push(FORK);
                    missing += 1;
                } else {
                    bytes.extend(end());
                    missing = missing.saturating_sub(1);
                }
            }
            one_tree &= missing == 0;
            trees += usize::from(one_tree);
            nodes_are(&bytes, one_tree);
        }
    }
    // Shapes of 1 to 6 leaves.
    assert_eq!(trees, 1 + 1 + 2 + 5 + 14 + 42);
}

/// The nodes of every tree with so many of these leaves.
fn all_trees(leaves: usize) -> Vec<Vec<u8>> {
    if leaves == 1 {
        return vec![end()];
    }
    let mut trees = Vec::new();
    for in_left in 1..leaves {
        for left in all_trees(in_left) {
            for right in all_trees(leaves - in_left) {
                trees.push(joined(&[&[FORK], &left, &right]));
            }
        }
    }
    trees
}

#[test]
fn every_shape_of_tree() {
    for (leaves, shapes) in [(7, 132), (8, 429), (9, 1430)] {
        let trees = all_trees(leaves);
        assert_eq!(trees.len(), shapes);
        for nodes in trees {
            nodes_are(&nodes, leaves <= 8);
        }
    }
}

/// The byte where a node begins: a leaf begins with 23, and 22 asks for two.
#[test]
fn every_byte_as_kind_of_node() {
    for kind in 0..=255 {
        let mut nodes = end();
        nodes[0] = kind;
        nodes_are(&nodes, kind == 23);
        let mut nodes = joined(&[&[FORK], &end(), &end()]);
        nodes[0] = kind;
        nodes_are(&nodes, kind == 22);
    }
}

/// Leaves with one branch each and with two, in trees that lean to either side.
#[test]
fn branches_8_and_9_by_leaves() {
    let terms = [
        (each_kind::END, 1),
        (each_kind::RETRY, 1),
        (BARE_RETRY, 1),
        (each_kind::RD, 1),
        (each_kind::WT, 1),
        (each_kind::OR_ELSE, 2),
    ];
    for (term, branches) in terms {
        for leaves in 1..=10 {
            let all = vec![leaf(term, 0, &[]); leaves];
            let well_formed = leaves * branches <= 8;
            nodes_are(&leaning_left(&all), well_formed);
            nodes_are(&leaning_right(&all), well_formed);
            // One fork more, and a side is missing.
            nodes_are(&joined(&[&[FORK], &leaning_left(&all)]), false);
            nodes_are(&joined(&[&[FORK], &leaning_right(&all)]), false);
        }
    }
}

/// A table in which term `n` has `n + 1` branches, 1 to 8, then a block.
fn branches() -> (Vec<u8>, u8) {
    let mut table = Builder::new();
    let end = table.end();
    for number in 1..8 {
        assert_eq!(table.or_else(number - 1, end), number);
    }
    let block = table.atom(end);
    (table.start(block), block)
}

/// Any two terms as the leaves of a fork: their branches add up.
#[test]
fn branches_of_two_leaves() {
    let (table, block) = branches();
    for left in 1..=8_u8 {
        let alone = leaf(left - 1, 0, &[]);
        hall_gives(&table, &hall(&attempt(block, &alone)), ACCEPTED);
        for right in 1..=8_u8 {
            let leaves = [alone.clone(), leaf(right - 1, 0, &[])];
            let nodes = leaning_left(&leaves);
            let answer = if left + right <= 8 { ACCEPTED } else { (11, 0) };
            hall_gives(&table, &hall(&attempt(block, &nodes)), answer);
        }
    }
}

/// A leaf with many branches among leaves with one, at each place.
#[test]
fn branches_of_several_leaves() {
    let (table, block) = branches();
    for leaves in 2..=8 {
        for at in 0..leaves {
            for large in 2..=8 {
                let mut all = vec![leaf(0, 0, &[]); leaves];
                all[at] = leaf(byte_of(large - 1), 0, &[]);
                let answer = if leaves - 1 + large <= 8 {
                    ACCEPTED
                } else {
                    (11, 0)
                };
                for nodes in [leaning_left(&all), leaning_right(&all)] {
                    hall_gives(&table, &hall(&attempt(block, &nodes)), answer);
                }
            }
        }
    }
}

/// The limit is for each attempt, not for the hall.
#[test]
fn branches_of_several_attempts() {
    let eight = attempt(each_kind::BLOCK, &leaning_left(&vec![end(); 8]));
    let nine = attempt(each_kind::BLOCK, &leaning_left(&vec![end(); 9]));
    stations_are(&eight.repeat(3), true);
    stations_are(&joined(&[&eight, &nine]), false);
    stations_are(&joined(&[&nine, &eight]), false);
    stations_are(&joined(&[&eight, &nine, &eight]), false);
}
