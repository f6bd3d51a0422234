//! Opening a hall, one turn of it, and checking a stored one; the table is read
//! by each call.

use std::hint::black_box;

use reference::build::Builder;
use reference::calls;
use reference::hall::{encode, Action, Hall, Leaf, Log, Node, Rest, Station};
use reference::turns::Turn;
use ruonfidd::HALL_BYTES;

use crate::measure::{print_part, print_row};

/// Batches for each of the two on each input.
const ROUNDS: usize = 101;

/// A start term of so many puts, a power of two.
fn puts(doublings: usize) -> Vec<u8> {
    let mut table = Builder::new();
    let put = table.put(0);
    let all = (0..doublings).fold(put, |all, _| table.side_by_side(all, all));
    table.start(all)
}

/// A start term of 64 puts, each to the right of all before it.
fn leaning_left() -> Vec<u8> {
    let mut table = Builder::new();
    let put = table.put(0);
    let all = table.copies(put, 64);
    table.start(all)
}

/// The same the other way round.
fn leaning_right() -> Vec<u8> {
    let mut table = Builder::new();
    let put = table.put(0);
    let all = (1..64).fold(put, |all, _| table.side_by_side(put, all));
    table.start(all)
}

/// One block of an end.
fn block() -> Vec<u8> {
    let mut table = Builder::new();
    let end = table.end();
    let block = table.atom(end);
    table.start(block)
}

fn stored(stations: Vec<Station>) -> Vec<u8> {
    encode(&Hall {
        counts: [1; 16],
        stations,
    })
}

fn full_attempt() -> Station {
    let leaf = || {
        Node::Leaf(Leaf {
            rest: Rest::Term(0),
            log: Log {
                entries: vec![Action::Write(15); 16],
            },
        })
    };
    let tree = (1..8).fold(leaf(), |all, _| Node::Fork(Box::new(all), Box::new(leaf())));
    Station::Attempt {
        term: 1,
        snapshot: [1; 16],
        tree,
    }
}

/// Opens again and again in memory that held other bytes at first.
fn opening(name: &str, table: &[u8]) {
    let mut by_engine = vec![171; HALL_BYTES];
    let mut by_second = by_engine.clone();
    print_row(
        name,
        ROUNDS,
        &mut || ruonfidd::open_hall(black_box(table), black_box(&mut by_engine)).is_ok(),
        &mut || calls::open(black_box(table), black_box(&mut by_second)).is_ok(),
    );
}

/// The last turn of an opening, 64 wide; each call makes those before it too.
fn last_turn(name: &str) {
    let table = puts(6);
    let turn = 126;
    let put = ruonfidd::Station::Putting { tray: 0 };
    let last = Turn::Laid {
        station: Station::Putting { tray: 0 },
        to_open: 0,
    };
    print_row(
        name,
        ROUNDS,
        &mut || {
            let turn = ruonfidd::opening_turn(black_box(&table), black_box(turn));
            matches!(turn, Ok(Some(turn)) if turn.laid == Some(put) && turn.left == 0)
        },
        &mut || calls::opening_turn(black_box(&table), black_box(turn)).as_ref() == Ok(&last),
    );
}

fn checking(name: &str, stations: Vec<Station>) {
    let table = block();
    let hall = stored(stations);
    print_row(
        name,
        ROUNDS,
        &mut || ruonfidd::check_hall(black_box(&table), black_box(&hall)).is_ok(),
        &mut || calls::check_hall(black_box(&table), black_box(&hall)).number == 0,
    );
}

pub(crate) fn print() {
    let small = Station::Waiting { term: 1 };
    print_part("opening and checking a hall, the table's reading included");
    opening("open, width 1", &puts(0));
    opening("open, width 64", &puts(6));
    opening("open, width 64, leaning to the left", &leaning_left());
    opening("open, width 64, leaning to the right", &leaning_right());
    last_turn("one turn, the last of width 64");
    checking("check, 4 small stations", vec![small.clone(); 4]);
    checking("check, 64 small stations", vec![small; 64]);
    checking("check, 64 full attempts", vec![full_attempt(); 64]);
}
