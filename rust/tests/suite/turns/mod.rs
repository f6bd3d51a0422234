//! An opening turn by turn: what each turn lays down and how many terms it
//! leaves, on every input; and the stations, in the order of the hall.

mod by_chance;
mod by_hand; // kinds of processes, shapes, numbers of turns
mod iterators;
mod refused; // 1 to 9
mod threads;

use ruonfidd::{opening_stations, Station};

use crate::common::answers::opened;
use crate::common::turns::{all_turns, OneTurn};

/// Where the stations of a hall begin.
const STATIONS: usize = 16;

/// All turns of an accepted table's opening. What they lay down are the stations
/// of the iterator and those of the opened hall, byte by byte, with zeros behind
/// them.
#[track_caller]
fn turns_to_the_hall(table: &[u8]) -> Vec<OneTurn> {
    let turns = all_turns(table);
    let laid: Vec<[u8; 2]> = turns.iter().filter_map(|turn| turn.laid).collect();
    let stations = opening_stations(table).expect("an accepted table");
    assert!(
        stations.map(Station::to_bytes).eq(laid.iter().copied()),
        "{table:?}"
    );
    let hall = opened(table);
    let (standing, behind) = hall[STATIONS..].split_at(2 * laid.len());
    assert_eq!(standing, laid.concat(), "{table:?}");
    assert!(behind.iter().all(|byte| *byte == 0), "{table:?}");
    turns
}
