//! Counts, stations and the zeros behind them.

use ruonfidd::HALL_BYTES;

use super::{nodes_are, stations_are};
use crate::common::answers::{hall_gives, ACCEPTED};
use crate::common::by_hand::{attempt, each_kind, hall, joined, leaf};
use crate::common::by_hand::{ATTEMPT, FORK, LEAF, PUTTING, WAITING};

#[test]
fn no_station() {
    stations_are(&[], true);
    // Zeros are a hall of any table.
    hall_gives(&[1, 13, 0], &vec![0; HALL_BYTES], ACCEPTED);
}

#[test]
fn any_counts() {
    let table = each_kind::table();
    for tray in 0..16 {
        for count in 0..=255 {
            let mut hall = hall(&[PUTTING, 0]);
            hall[tray] = count;
            hall_gives(&table, &hall, ACCEPTED);
        }
    }
    let mut full = hall(&[]);
    full[..16].fill(255);
    hall_gives(&table, &full, ACCEPTED);
}

/// Takes, repeated takes and blocks wait; nothing else does.
#[test]
fn every_term_at_a_waiting_station() {
    let waiting = [each_kind::TAKE, each_kind::REPEATED_TAKE, each_kind::BLOCK];
    for term in 0..=255 {
        stations_are(&[WAITING, term], waiting.contains(&term));
    }
}

#[test]
fn every_tray_at_a_putting_station() {
    for tray in 0..=255 {
        stations_are(&[PUTTING, tray], tray <= 15);
    }
}

#[test]
fn every_term_at_an_attempt() {
    for term in 0..=255 {
        let stations = attempt(term, &leaf(each_kind::END, 0, &[]));
        stations_are(&stations, term == each_kind::BLOCK);
    }
}

#[test]
fn any_snapshot() {
    let table = each_kind::table();
    let stations = attempt(each_kind::BLOCK, &leaf(each_kind::END, 0, &[]));
    for tray in 0..16 {
        for count in [0, 1, 127, 128, 254, 255] {
            let mut hall = hall(&stations);
            hall[18 + tray] = count;
            hall_gives(&table, &hall, ACCEPTED);
        }
    }
    let mut full = hall(&stations);
    full[18..34].fill(255);
    hall_gives(&table, &full, ACCEPTED);
}

/// The first byte of a station; with the same body 20 waits and 24 puts.
#[test]
fn every_byte_as_kind_of_station() {
    for kind in 0..=255 {
        let known = kind == WAITING || kind == PUTTING;
        stations_are(&[kind, 7], known);
        stations_are(&[WAITING, 7, kind, 7], known);
    }
}

/// Nodes stand in attempts alone.
#[test]
fn nodes_are_no_stations() {
    let end = leaf(each_kind::END, 0, &[]);
    stations_are(&[FORK], false);
    stations_are(&end, false);
    stations_are(&joined(&[&[FORK], &end, &end]), false);
    stations_are(&joined(&[&[PUTTING, 1], &end]), false);
    // A leaf behind a whole tree begins no station.
    nodes_are(&joined(&[&end, &end]), false);
    nodes_are(&joined(&[&end, &[FORK], &end, &end]), false);
}

#[test]
fn stations_of_every_kind_behind_each_other() {
    let end = leaf(each_kind::END, 0, &[]);
    let stations = [
        vec![WAITING, each_kind::TAKE],
        vec![PUTTING, 0],
        attempt(each_kind::BLOCK, &end),
        attempt(each_kind::BLOCK, &joined(&[&[FORK], &end, &end])),
    ];
    for first in &stations {
        for second in &stations {
            stations_are(&joined(&[first, second]), true);
            for third in &stations {
                stations_are(&joined(&[first, second, third]), true);
            }
        }
    }
}

/// 64 stations of each kind, and one more.
#[test]
fn stations_64_and_65() {
    let end = leaf(each_kind::END, 0, &[]);
    for station in [
        vec![WAITING, each_kind::BLOCK],
        vec![PUTTING, 0],
        vec![PUTTING, 15],
        attempt(each_kind::BLOCK, &end),
        attempt(each_kind::BLOCK, &joined(&[&[FORK], &end, &end])),
    ] {
        for many in [1, 63, 64] {
            stations_are(&station.repeat(many), true);
        }
        for many in [65, 66, 128] {
            stations_are(&station.repeat(many), false);
        }
        // The 65th of another kind.
        let full = station.repeat(64);
        stations_are(&joined(&[&full, &[PUTTING, 0]]), false);
        stations_are(&joined(&[&full, &[WAITING, each_kind::TAKE]]), false);
        stations_are(&joined(&[&full, &attempt(each_kind::BLOCK, &end)]), false);
    }
}

/// After the last station there are zeros alone.
#[test]
fn a_byte_behind_the_last_station() {
    let table = each_kind::table();
    for at in [18, 19, 20, 5_000, HALL_BYTES - 2, HALL_BYTES - 1] {
        for byte in [1, 13, 19, 25, 255] {
            let mut late = hall(&[PUTTING, 3]);
            late[at] = byte;
            hall_gives(&table, &late, (11, 0));
        }
    }
}

#[test]
fn a_station_behind_a_gap() {
    stations_are(&[0, PUTTING, 3], false);
    stations_are(&[PUTTING, 3, 0, PUTTING, 3], false);
    stations_are(&[PUTTING, 3, 0, 0, WAITING, each_kind::TAKE], false);
    stations_are(&[PUTTING, 0, PUTTING, 0], true);
}

/// The same bytes are a hall of one table and not of another.
#[test]
fn well_formed_for_this_table() {
    let end = leaf(each_kind::END, 0, &[]);
    let waiting = hall(&[WAITING, each_kind::BLOCK]);
    let running = hall(&attempt(each_kind::BLOCK, &end));
    let putting = hall(&[PUTTING, 15]);
    let other = [1, 13, 0];
    for hall in [&waiting, &running, &putting] {
        hall_gives(&each_kind::table(), hall, ACCEPTED);
    }
    hall_gives(&other, &waiting, (11, 0));
    hall_gives(&other, &running, (11, 0));
    hall_gives(&other, &putting, ACCEPTED);
}

/// A table of 200 terms: numbers up to 199 are terms, all above are none.
#[test]
fn the_highest_term_numbers() {
    let mut table = vec![7; 199];
    table.extend([6, 198, 13, 199]);
    for term in 190..=255 {
        let waits = if term == 199 { ACCEPTED } else { (11, 0) };
        hall_gives(&table, &hall(&[WAITING, term]), waits);
        let running = attempt(term, &leaf(198, 0, &[]));
        hall_gives(&table, &hall(&running), waits);
        let remains = if term < 199 || term == 255 {
            ACCEPTED
        } else {
            (11, 0)
        };
        let running = attempt(199, &leaf(term, 0, &[]));
        hall_gives(&table, &hall(&running), remains);
    }
}

#[test]
fn an_attempt_inside_an_attempt() {
    let end = leaf(each_kind::END, 0, &[]);
    let inner = attempt(each_kind::BLOCK, &end);
    nodes_are(&inner, false);
    nodes_are(&joined(&[&[FORK], &inner, &end]), false);
    nodes_are(&joined(&[&[FORK], &end, &inner]), false);
    assert_eq!((inner[0], end[0]), (ATTEMPT, LEAF));
}
