//! Halls with several accepted choices, and some with one that is hard to find:
//! which of them is the first.

use reference::choice::Choice;

use super::{act, inside, sequence, step_accepts};
use crate::common::by_hand::{attempt, each_kind, joined, leaf, leaning_left, leaning_right};
use crate::common::by_hand::{BARE_RETRY, PUTTING, WAITING};
use crate::common::calls::Sequence;
use crate::common::choices::step_bytes;
use crate::common::wrong_suggestions::WRONG;

const LAST: &str = "the last accepted choice";
const HIGHEST_NODE: &str = "the highest node";
const NODE_FIRST: &str = "the node before the position";
const ACT_FIRST: &str = "kind 1 before kind 2";
const INSIDE_FIRST: &str = "kind 2 before kind 1";
const PASSED_OVER: &str = "the first position that can move is passed over";
const STILL_AT_0: &str = "still where position 0 cannot move";
const NODE_0_ALONE: &str = "no node but 0";

/// A take from tray 0: where that is empty, it cannot move.
const IDLE: [u8; 2] = [WAITING, each_kind::TAKE];

/// An attempt with these nodes.
fn attempt_at(nodes: &[u8]) -> Vec<u8> {
    attempt(each_kind::BLOCK, nodes)
}

/// A leaf with this term left to do and nothing logged.
fn fresh_leaf(term: u8) -> Vec<u8> {
    leaf(term, 0, &[])
}

/// A fork of two such leaves.
fn fork_of(left: u8, right: u8) -> Vec<u8> {
    leaning_left(&[fresh_leaf(left), fresh_leaf(right)])
}

/// Every choice of bytes that a step of the engine accepts: position by position,
/// the act and then node by node.
fn accepted_by_steps(sequence: &Sequence) -> Vec<[u8; 3]> {
    let mut hall = sequence.hall.clone();
    let mut found = Vec::new();
    for position in 0..=255 {
        let acts = std::iter::once([1, position, 0]);
        for choice in acts.chain((0..=255).map(|node| [2, position, node])) {
            if step_accepts(&sequence.table, &mut hall, choice) {
                found.push(choice);
                hall.clone_from(&sequence.hall);
            }
        }
    }
    found
}

/// These choices and no others are accepted on such a hall, and the first of them
/// is suggested. The wrong ways to suggest with these names would be noticed.
#[track_caller]
fn suggests_the_first(counts: &[u8], stations: &[u8], all: &[Choice], wrong: &[&str]) {
    let mut sequence = sequence(counts, stations);
    let listed: Vec<[u8; 3]> = all.iter().map(|choice| step_bytes(*choice, 0)).collect();
    assert_eq!(accepted_by_steps(&sequence), listed, "{sequence}");
    assert_eq!(sequence.suggest(), Some(all[0]), "{sequence}");
    for name in wrong {
        let way = WRONG.iter().find(|way| way.name == *name);
        let way = way.unwrap_or_else(|| panic!("nothing is called '{name}'"));
        let other = (way.suggests)(&listed);
        assert_ne!(other, Some(listed[0]), "not noticed: {name}");
    }
}

#[test]
fn several_stations_that_can_move() {
    let stations = [PUTTING, 1, PUTTING, 2, WAITING, each_kind::BLOCK];
    let all = [act(0), act(1), act(2)];
    suggests_the_first(&[], &stations, &all, &[LAST, PASSED_OVER]);
    // Also two that do the same.
    let stations = [PUTTING, 1, PUTTING, 1];
    suggests_the_first(&[], &stations, &[act(0), act(1)], &[LAST, PASSED_OVER]);
}

#[test]
fn a_first_station_that_cannot_move() {
    let stations = joined(&[&IDLE, &[PUTTING, 1, PUTTING, 2]]);
    let all = [act(1), act(2)];
    suggests_the_first(&[], &stations, &all, &[STILL_AT_0, LAST, PASSED_OVER]);
    // Nor can the second: its tray is full.
    let stations = joined(&[&IDLE, &[PUTTING, 3, PUTTING, 1, PUTTING, 2]]);
    let all = [act(2), act(3)];
    suggests_the_first(&[0, 0, 0, 255], &stations, &all, &[STILL_AT_0, LAST]);
    // With a token the first can.
    let all = [act(0), act(2), act(3)];
    suggests_the_first(&[1, 0, 0, 255], &stations, &all, &[LAST, PASSED_OVER]);
}

#[test]
fn two_nodes_that_can_move() {
    use each_kind::{END, RD, RETRY, WT};
    // Two leaves. The fork above them waits.
    let stations = attempt_at(&fork_of(RD, WT));
    let all = [inside(0, 1), inside(0, 2)];
    let wrong = [LAST, HIGHEST_NODE, NODE_0_ALONE, PASSED_OVER];
    suggests_the_first(&[], &stations, &all, &wrong);
    // The fork, whose left side has ended or given up, and its right side.
    let all = [inside(0, 0), inside(0, 2)];
    for left in [END, RETRY, BARE_RETRY] {
        let stations = attempt_at(&fork_of(left, WT));
        suggests_the_first(&[], &stations, &all, &[LAST, HIGHEST_NODE]);
    }
    // Deep on the left before shallow on the right.
    let leaves = [WT, END, RD].map(fresh_leaf);
    let stations = attempt_at(&leaning_left(&leaves));
    let all = [inside(0, 2), inside(0, 4)];
    suggests_the_first(&[], &stations, &all, &wrong);
    // A fork below the right side of one that waits.
    let leaves = [WT, END, RD].map(fresh_leaf);
    let stations = attempt_at(&leaning_right(&leaves));
    let all = [inside(0, 1), inside(0, 2), inside(0, 4)];
    suggests_the_first(&[], &stations, &all, &wrong);
}

/// Eight leaves that can move below seven forks that cannot: no first node is
/// higher.
#[test]
fn the_highest_first_node() {
    let leaves = vec![fresh_leaf(each_kind::WT); 8];
    let stations = attempt_at(&leaning_left(&leaves));
    let all: Vec<Choice> = (7..15).map(|node| inside(0, node)).collect();
    suggests_the_first(&[], &stations, &all, &[LAST, HIGHEST_NODE, NODE_0_ALONE]);
}

#[test]
fn the_position_before_the_node() {
    use each_kind::{END, RD, WT};
    let stations = joined(&[&attempt_at(&fork_of(RD, END)), &attempt_at(&fresh_leaf(WT))]);
    let all = [inside(0, 1), inside(1, 0)];
    let wrong = [NODE_FIRST, NODE_0_ALONE, LAST, PASSED_OVER];
    suggests_the_first(&[], &stations, &all, &wrong);
    // The same with an act behind.
    let stations = joined(&[&attempt_at(&fork_of(RD, END)), &[PUTTING, 1]]);
    let all = [inside(0, 1), act(1)];
    suggests_the_first(&[], &stations, &all, &[NODE_FIRST, ACT_FIRST, LAST]);
}

#[test]
fn an_act_behind_a_move_inside() {
    use each_kind::{BLOCK, END, WT};
    let all = [inside(0, 0), act(1)];
    let unfinished = attempt_at(&fresh_leaf(WT));
    // A put, a block that waits, an attempt at its end.
    let ended = attempt_at(&fresh_leaf(END));
    for behind in [&[PUTTING, 1][..], &[WAITING, BLOCK], &ended] {
        let stations = joined(&[&unfinished, behind]);
        suggests_the_first(&[], &stations, &all, &[ACT_FIRST, LAST, PASSED_OVER]);
    }
}

#[test]
fn a_move_inside_behind_an_act() {
    use each_kind::{BLOCK, END, WT};
    let all = [act(0), inside(1, 0)];
    let unfinished = attempt_at(&fresh_leaf(WT));
    let ended = attempt_at(&fresh_leaf(END));
    let given_up = attempt_at(&fresh_leaf(BARE_RETRY));
    for before in [&[PUTTING, 1][..], &[WAITING, BLOCK], &ended, &given_up] {
        let stations = joined(&[before, &unfinished]);
        suggests_the_first(&[], &stations, &all, &[INSIDE_FIRST, LAST, PASSED_OVER]);
    }
}

/// Behind 63 stations that cannot move; and one further to the front.
#[test]
fn the_last_of_64() {
    let idle = IDLE.repeat(63);
    let stations = joined(&[&idle, &[PUTTING, 1]]);
    suggests_the_first(&[], &stations, &[act(63)], &[STILL_AT_0, PASSED_OVER]);
    let eight = leaning_left(&vec![fresh_leaf(each_kind::WT); 8]);
    let stations = joined(&[&idle, &attempt_at(&eight)]);
    let all: Vec<Choice> = (7..15).map(|node| inside(63, node)).collect();
    suggests_the_first(&[], &stations, &all, &[STILL_AT_0, LAST, HIGHEST_NODE]);
    let stations = joined(&[&idle[2..], &[PUTTING, 1, PUTTING, 2]]);
    let all = [act(62), act(63)];
    suggests_the_first(&[], &stations, &all, &[STILL_AT_0, LAST, PASSED_OVER]);
    // The first of 64 that can all move.
    let stations = [PUTTING, 1].repeat(64);
    let all: Vec<Choice> = (0..64).map(act).collect();
    suggests_the_first(&[], &stations, &all, &[LAST, PASSED_OVER]);
}

/// Behind a station that cannot move: the first node, the last one, and a station
/// behind. Each of three wrong ways suggests something else again.
#[test]
fn three_wrong_ways_in_one_hall() {
    use each_kind::{RD, WT};
    let stations = joined(&[
        &IDLE,
        &attempt_at(&fork_of(RD, WT)),
        &[PUTTING, 1, PUTTING, 2],
    ]);
    let all = [inside(1, 1), inside(1, 2), act(2), act(3)];
    let wrong = [LAST, HIGHEST_NODE, PASSED_OVER];
    suggests_the_first(&[], &stations, &all, &wrong);
    let listed = all.map(|choice| step_bytes(choice, 0));
    let given = wrong.map(|name| {
        let way = WRONG.iter().find(|way| way.name == name);
        way.and_then(|way| (way.suggests)(&listed))
    });
    let expected = [act(3), inside(1, 2), act(2)];
    assert_eq!(given, expected.map(|choice| Some(step_bytes(choice, 0))));
}

/// A commit without room is passed over; with one station fewer it is the first.
#[test]
fn a_commit_without_room_is_passed_over() {
    let commit = attempt_at(&leaf(each_kind::END, 2, &[16, 17]));
    let stations = joined(&[&commit, &IDLE.repeat(62), &[PUTTING, 1]]);
    suggests_the_first(&[], &stations, &[act(63)], &[STILL_AT_0]);
    let stations = joined(&[&commit, &IDLE.repeat(61), &[PUTTING, 1]]);
    suggests_the_first(&[], &stations, &[act(0), act(62)], &[LAST, PASSED_OVER]);
}

/// The examples of the document on the byte forms: these bytes stand there.
#[test]
fn the_examples_of_the_byte_forms() {
    const FORMAT: &str = include_str!("../../../../../docs/FORMAT.md");
    let stands_there = |bytes: &[u8]| {
        let words: Vec<String> = bytes.iter().map(u8::to_string).collect();
        assert!(
            FORMAT.contains(&format!("`{}`", words.join(" "))),
            "{bytes:?}"
        );
    };
    let puts = [2, 0, 2, 1, 5, 0, 1, 13, 2];
    stands_there(&puts);
    let mut sequence = Sequence::open(&puts);
    assert_eq!(accepted_by_steps(&sequence), [[1, 0, 0], [1, 1, 0]]);
    assert_eq!(sequence.suggest(), Some(act(0)));
    let three = [
        1, 3, 0, 0, 7, 10, 1, 2, 11, 3, 3, 6, 4, 2, 1, 5, 5, 6, 5, 1, 7, 13, 8,
    ];
    stands_there(&three);
    let mut sequence = Sequence::open(&three);
    assert_eq!(accepted_by_steps(&sequence), [[1, 1, 0], [1, 2, 0]]);
    assert_eq!(sequence.suggest(), Some(act(1)));
    let choices = [1, 1, 2, 1, 0];
    stands_there(&choices);
    assert_eq!(sequence.run(&choices), (0, 5, 2));
    let all = [[2, 1, 1], [2, 1, 2], [1, 2, 0]];
    assert_eq!(accepted_by_steps(&sequence), all);
    for choice in all {
        stands_there(&choice);
    }
    assert_eq!(sequence.suggest(), Some(inside(1, 1)));
}
