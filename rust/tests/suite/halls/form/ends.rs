//! Halls that use their last byte, or would need one more.

use ruonfidd::HALL_BYTES;

use super::{nodes_are, stations_are};
use crate::common::answers::{hall_gives, ACCEPTED};
use crate::common::by_hand::{attempt, each_kind, hall, joined, leaf, leaning_left, leaning_right};
use crate::common::by_hand::{ATTEMPT, FORK, PUTTING, WAITING};

/// An attempt of 8 leaves with full logs: 177 bytes, of which 64 fill a hall.
fn full_attempt(to_the_left: bool) -> Vec<u8> {
    let leaves = vec![leaf(each_kind::END, 16, &[31; 16]); 8];
    let nodes = if to_the_left {
        leaning_left(&leaves)
    } else {
        leaning_right(&leaves)
    };
    attempt(each_kind::BLOCK, &nodes)
}

/// 64 full attempts: the last leaf ends at the last byte.
fn full_hall() -> Vec<u8> {
    let both = joined(&[&full_attempt(true), &full_attempt(false)]);
    let stations = both.repeat(32);
    assert_eq!(stations.len(), HALL_BYTES - 16);
    hall(&stations)
}

#[test]
fn the_fullest_hall() {
    let table = each_kind::table();
    let mut full = full_hall();
    hall_gives(&table, &full, ACCEPTED);
    full[..16].fill(255);
    hall_gives(&table, &full, ACCEPTED);
}

/// A byte changed in the last leaf and in the first attempt.
#[test]
fn the_fullest_hall_with_one_byte_changed() {
    let table = each_kind::table();
    let full = full_hall();
    for (at, value, answer) in [
        (HALL_BYTES - 1, 32, (11, 0)),
        (HALL_BYTES - 1, 0, ACCEPTED),
        (HALL_BYTES - 17, 17, (11, 0)),
        (HALL_BYTES - 17, 15, (11, 0)),
        (HALL_BYTES - 19, 22, (11, 0)),
        (16 + 18, 23, (11, 0)),
    ] {
        let mut hall = full.clone();
        hall[at] = value;
        hall_gives(&table, &hall, answer);
    }
}

/// A full hall whose last attempt has a fork or a leaf more: the bytes end
/// inside the tree.
#[test]
fn a_tree_that_goes_past_the_last_byte() {
    let table = each_kind::table();
    let front = joined(&[&[0; 16], &full_attempt(true).repeat(63)]);
    let left = HALL_BYTES - front.len();
    let end = leaf(each_kind::END, 0, &[]);
    // Any number of forks first, then as many leaves as fit, the last one cut.
    for forks in 8..=left - 18 {
        let mut nodes = vec![FORK; forks];
        while nodes.len() < left {
            nodes.extend(&end);
        }
        let mut bytes = joined(&[&front, &attempt(each_kind::BLOCK, &nodes)]);
        bytes.truncate(HALL_BYTES);
        hall_gives(&table, &bytes, (11, 0));
    }
}

/// A leaf that is cut by the end of the bytes, at each of its bytes.
#[test]
fn a_leaf_cut_at_the_last_byte() {
    let table = each_kind::table();
    let end = leaf(each_kind::END, 0, &[]);
    for forks in 600..640 {
        let mut bytes = joined(&[&[0; 16], &attempt(each_kind::BLOCK, &vec![FORK; forks])]);
        while bytes.len() < HALL_BYTES {
            bytes.extend(&end);
        }
        bytes.truncate(HALL_BYTES);
        hall_gives(&table, &bytes, (11, 0));
    }
}

/// The first byte of a station as the last byte, and the first bytes of an
/// attempt as the last ones.
#[test]
fn a_station_cut_at_the_last_byte() {
    let table = each_kind::table();
    for kind in [WAITING, ATTEMPT, FORK, PUTTING] {
        let mut cut = hall(&[]);
        cut[HALL_BYTES - 1] = kind;
        hall_gives(&table, &cut, (11, 0));
    }
    // Stations without end, the last one cut: they are too many anyway.
    let mut many = [PUTTING, 1].repeat(HALL_BYTES / 2);
    many.truncate(HALL_BYTES - 16);
    for length in 1..=20 {
        let at = many.len() - length;
        let head = attempt(each_kind::BLOCK, &leaf(each_kind::END, 0, &[]));
        let mut bytes = many.clone();
        bytes[at..].copy_from_slice(&head[..length]);
        stations_are(&bytes, false);
    }
}

/// Leaves as far as they fit, behind as many forks as make one tree of them.
#[test]
fn as_many_leaves_as_fit() {
    let room = HALL_BYTES - 16 - 18;
    let leaves = (room + 1) / 20;
    assert_eq!(leaves, 565);
    let all = vec![leaf(each_kind::END, 0, &[]); leaves];
    nodes_are(&leaning_left(&all), false);
    nodes_are(&leaning_right(&all), false);
}
