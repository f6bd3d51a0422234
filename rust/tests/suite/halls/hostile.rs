//! Halls written to mislead a scan: forks without end, one value throughout,
//! pieces of halls in any order.

use reference::generator::Random;
use ruonfidd::HALL_BYTES;

use crate::common::answers::{hall_answer, hall_gives, ACCEPTED};
use crate::common::by_chance::any_table;
use crate::common::by_hand::{attempt, each_kind, hall, joined, leaf};
use crate::common::by_hand::{ATTEMPT, BARE_RETRY, FORK, LEAF, PUTTING, WAITING};

#[test]
fn forks_to_the_last_byte() {
    let table = each_kind::table();
    hall_gives(&table, &hall(&vec![FORK; HALL_BYTES - 16]), (11, 0));
    let forks = vec![FORK; HALL_BYTES - 34];
    hall_gives(&table, &hall(&attempt(each_kind::BLOCK, &forks)), (11, 0));
    let end = leaf(each_kind::END, 0, &[]);
    for leaves in 1..=10 {
        let nodes = joined(&[&forks[19 * leaves..], &end.repeat(leaves)]);
        let stations = attempt(each_kind::BLOCK, &nodes);
        assert_eq!(stations.len(), HALL_BYTES - 16);
        hall_gives(&table, &hall(&stations), (11, 0));
    }
}

#[test]
fn one_value_throughout() {
    let table = each_kind::table();
    for byte in 0..=255 {
        let answer = if byte == 0 { ACCEPTED } else { (11, 0) };
        hall_gives(&table, &vec![byte; HALL_BYTES], answer);
        hall_gives(&table, &hall(&vec![byte; HALL_BYTES - 16]), answer);
        let nodes = vec![byte; HALL_BYTES - 34];
        let stations = attempt(each_kind::BLOCK, &nodes);
        hall_gives(&table, &hall(&stations), (11, 0));
    }
}

/// Each kind's byte as the term, the tray or the log of another piece.
#[test]
fn kinds_where_other_bytes_belong() {
    let table = each_kind::table();
    for kind in [WAITING, ATTEMPT, FORK, LEAF, PUTTING] {
        for station in [
            vec![WAITING, kind],
            vec![PUTTING, kind],
            attempt(kind, &leaf(each_kind::END, 0, &[])),
            attempt(each_kind::BLOCK, &leaf(kind, 0, &[])),
            attempt(each_kind::BLOCK, &leaf(each_kind::END, kind, &[])),
        ] {
            hall_gives(&table, &hall(&station), (11, 0));
        }
        // In counts, in snapshots and in logs they are only numbers.
        let mut running = hall(&attempt(
            each_kind::BLOCK,
            &leaf(each_kind::END, 16, &[kind; 16]),
        ));
        running[..16].fill(kind);
        running[18..34].fill(kind);
        hall_gives(&table, &running, ACCEPTED);
    }
}

/// Pieces of halls in any order, cut where the bytes end.
#[test]
fn pieces_in_any_order() {
    let table = each_kind::table();
    let pieces = [
        vec![WAITING, each_kind::TAKE],
        vec![PUTTING, 15],
        attempt(each_kind::BLOCK, &[]),
        vec![FORK],
        leaf(each_kind::END, 2, &[1, 17]),
        leaf(each_kind::OR_ELSE, 0, &[]),
        leaf(BARE_RETRY, 16, &[0; 16]),
        vec![0],
        vec![WAITING],
    ];
    let mut random = Random::new(6);
    let mut well_formed = 0;
    for round in 0..20_000 {
        let length = if round % 10 == 0 {
            HALL_BYTES - 16
        } else {
            random.between(1, 120)
        };
        let mut stations = Vec::new();
        while stations.len() < length {
            stations.extend(&pieces[random.below(pieces.len())]);
        }
        stations.truncate(HALL_BYTES - 16);
        let (number, _) = hall_answer(&table, &hall(&stations));
        well_formed += usize::from(number == 0);
    }
    assert!(well_formed > 100, "{well_formed}");
}

/// Random bytes, of any value or of the kinds of stations and nodes alone.
#[test]
fn random_bytes() {
    let mut random = Random::new(5);
    for _ in 0..300 {
        let table = any_table(&mut random);
        let mut hall = random.bytes(HALL_BYTES);
        hall_answer(&table, &hall);
        for byte in &mut hall[16..] {
            *byte = 20 + *byte % 5;
        }
        hall_answer(&table, &hall);
    }
}
