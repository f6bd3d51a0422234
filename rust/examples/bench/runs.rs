//! Running choices and suggesting one.
//!
//! A long list is run in one call, from a hall that is copied before each call;
//! the copy is part of the figure, which is for one choice. Calls of one choice
//! each follow one another on one hall, by choices that lead back to where they
//! began; the figure is for one call. Where no choice leads back, one choice is
//! run as a list is, from a copy.

use std::hint::black_box;

use reference::build::Builder;
use reference::calls;
use reference::choice::Choice as Second;
use reference::generator::Random;
use reference::hall::{decode, encode, opening, Action, Hall, Leaf, Log, Node, Rest, Station};
use reference::moves::{make_move, Outcome};
use reference::run::Tally as SecondTally;
use reference::table::{byte_of, read_table, Table};
use ruonfidd::{Tally, HALL_BYTES};

use crate::measure::{print_part, print_row, print_row_per};

/// Batches for each of the two on each workload.
const ROUNDS: usize = 31;

/// A table, a hall, choices that are all accepted there.
struct Workload {
    name: &'static str,
    table: Vec<u8>,
    hall: Vec<u8>,
    choices: Vec<u8>,
    /// How many choices these are.
    count: u32,
}

fn table_of(bytes: &[u8]) -> Table {
    read_table(bytes).expect("an accepted table")
}

fn opened(table: &[u8]) -> Vec<u8> {
    encode(&opening(&table_of(table)))
}

fn act(position: usize) -> Vec<u8> {
    vec![1, byte_of(position)]
}

fn inside(position: usize, node: usize) -> Vec<u8> {
    vec![2, byte_of(position), byte_of(node)]
}

impl Workload {
    fn new(name: &'static str, table: Vec<u8>, hall: Vec<u8>, choices: &[Vec<u8>]) -> Workload {
        let count = u32::try_from(choices.len()).expect("a list of choices");
        let workload = Workload {
            name,
            table,
            hall,
            choices: choices.concat(),
            count,
        };
        workload.is_run_alike();
        workload
    }

    /// The choices are repeated, which must lead back to the hall.
    fn cycling(mut self, times: u32) -> Workload {
        let (hall, _) = self.is_run_alike();
        assert!(hall == self.hall, "{} does not lead back", self.name);
        self.choices = self.choices.repeat(times as usize);
        self.count *= times;
        self.is_run_alike();
        self
    }

    /// Both do all choices and leave the same hall and tally.
    fn is_run_alike(&self) -> (Vec<u8>, Tally) {
        let (mut by_engine, mut by_second) = (self.hall.clone(), self.hall.clone());
        let (mut tally, mut tally_of_second) = (Tally::fresh(), SecondTally::FRESH);
        let done = ruonfidd::run(&self.table, &mut by_engine, &self.choices, &mut tally);
        let second = calls::run(
            &self.table,
            &mut by_second,
            &mut tally_of_second,
            &self.choices,
        );
        assert_eq!(done, Ok(self.count as usize), "{}", self.name);
        assert_eq!(second.done, self.count as usize, "{}", self.name);
        assert!(by_engine == by_second, "{}", self.name);
        assert_eq!(tally.commits, tally_of_second.commits);
        assert_eq!(tally.failed, tally_of_second.failed);
        assert_eq!(tally.retries, tally_of_second.retries);
        (by_engine, tally)
    }

    /// One call with all choices.
    fn long(&self) {
        self.run_on_copies(&format!("{}, {} choices", self.name, self.count));
    }

    /// One call with the one choice that there is.
    fn once(&self) {
        assert_eq!(self.count, 1, "{}", self.name);
        self.run_on_copies(self.name);
    }

    /// One call with all choices, each time on a copy of the hall.
    fn run_on_copies(&self, name: &str) {
        let (mut hall, mut hall_of_second) = (self.hall.clone(), self.hall.clone());
        let (mut tally, mut tally_of_second) = (Tally::fresh(), SecondTally::FRESH);
        print_row_per(
            name,
            ROUNDS,
            self.count,
            &mut || {
                hall.copy_from_slice(&self.hall);
                let (table, choices) = (black_box(&self.table), black_box(&self.choices));
                ruonfidd::run(table, &mut hall, choices, &mut tally).is_ok()
            },
            &mut || {
                hall_of_second.copy_from_slice(&self.hall);
                let (table, choices) = (black_box(&self.table), black_box(&self.choices));
                calls::run(table, &mut hall_of_second, &mut tally_of_second, choices).number == 0
            },
        );
    }

    /// One choice in each call, over and over.
    fn single(&self) {
        let choices = reference::choice::whole_choices(&self.choices);
        let lists: Vec<Vec<u8>> = choices.iter().map(|choice| choice.bytes()).collect();
        let (mut hall, mut hall_of_second) = (self.hall.clone(), self.hall.clone());
        let (mut tally, mut tally_of_second) = (Tally::fresh(), SecondTally::FRESH);
        let (mut next, mut next_of_second) = (0, 0);
        print_row(
            self.name,
            ROUNDS,
            &mut || {
                let list = black_box(&lists[next]);
                next = (next + 1) % lists.len();
                ruonfidd::run(black_box(&self.table), &mut hall, list, &mut tally).is_ok()
            },
            &mut || {
                let list = black_box(&lists[next_of_second]);
                next_of_second = (next_of_second + 1) % lists.len();
                let table = black_box(&self.table);
                calls::run(table, &mut hall_of_second, &mut tally_of_second, list).number == 0
            },
        );
    }

    /// Both must suggest the same choice.
    fn compare_suggestions(&self) {
        let mut bytes = Vec::new();
        if let Ok(Some(choice)) = ruonfidd::suggest(&self.table, &self.hall) {
            choice.write_to(&mut bytes);
        }
        let second = calls::suggest(&self.table, &self.hall).ok().flatten();
        assert_eq!(second.map(Second::bytes), Some(bytes), "{}", self.name);
    }

    /// A suggestion on the hall as it stands. The second implementation lists
    /// all accepted choices and takes the first of them.
    fn suggest(&self) {
        self.compare_suggestions();
        print_row(
            self.name,
            ROUNDS,
            &mut || ruonfidd::suggest(black_box(&self.table), black_box(&self.hall)).is_ok(),
            &mut || calls::suggest(black_box(&self.table), black_box(&self.hall)).is_ok(),
        );
    }
}

/// Two repeated takes hand one token to each other.
fn ring() -> Workload {
    let mut table = Builder::new();
    let puts = [table.put(1), table.put(0)];
    let takes = [
        table.repeated_take(0, puts[0]),
        table.repeated_take(1, puts[1]),
    ];
    let both = table.side_by_side(takes[0], takes[1]);
    table.tokens(0, 1);
    let table = table.start(both);
    let hall = opened(&table);
    let cycle = [act(0), act(0), act(1), act(1)];
    Workload::new("a small hall that cycles", table, hall, &cycle)
}

/// The last of 64 stations takes and puts.
fn last_of_many() -> Workload {
    let mut table = Builder::new();
    let nil = table.nil();
    let put = table.put(0);
    let idle = table.take(1, nil);
    let active = table.repeated_take(0, put);
    let idle = table.copies(idle, 62);
    let all = table.side_by_side(idle, active);
    table.tokens(0, 1);
    let table = table.start(all);
    let hall = opened(&table);
    let cycle = [act(62), act(62)];
    Workload::new("64 small stations, the last acts", table, hall, &cycle)
}

/// A tree of 8 leaves that leans to the right; each has a read and two writes
/// to do.
fn deep_tree() -> Node {
    let leaf = || {
        Node::Leaf(Leaf {
            rest: Rest::Term(3),
            log: Log {
                entries: vec![Action::Write(3); 8],
            },
        })
    };
    (1..8).fold(leaf(), |all, _| Node::Fork(Box::new(leaf()), Box::new(all)))
}

/// In every fourth of 64 attempts all leaves read once and write twice, and then
/// the first fork keeps its left side.
fn deep() -> Workload {
    let mut table = Builder::new();
    let end = table.end();
    let write = table.wt(1, end);
    let write = table.wt(2, write);
    let read = table.rd(0, write);
    let block = table.atom(read);
    let table = table.start(block);
    let attempt = Station::Attempt {
        term: usize::from(block),
        snapshot: [1; 16],
        tree: deep_tree(),
    };
    let hall = encode(&Hall {
        counts: [1; 16],
        stations: vec![attempt; 64],
    });
    let mut choices = Vec::new();
    for position in (0..64).rev().step_by(4) {
        // Forks and leaves by turns, the last node a leaf.
        for node in (1..14).step_by(2).chain([14]) {
            for _ in 0..3 {
                choices.push(inside(position, node));
            }
        }
        choices.push(inside(position, 0));
    }
    Workload::new(
        "64 attempts of 8 leaves, inner moves",
        table,
        hall,
        &choices,
    )
}

/// 16 blocks read one token: one is committed, 15 fail, and the token is put
/// back.
fn contended() -> Workload {
    let mut table = Builder::new();
    let end = table.end();
    let write = table.wt(0, end);
    let read = table.rd(0, write);
    let block = table.atom(read);
    let blocks = table.copies(block, 16);
    table.tokens(0, 1);
    let table = table.start(blocks);
    let hall = opened(&table);
    let mut choices = Vec::new();
    for position in 0..16 {
        choices.push(act(position));
    }
    for position in 0..16 {
        choices.push(inside(position, 0));
        choices.push(inside(position, 0));
    }
    // The last one is committed; the others find nothing and wait again. The
    // station that puts the token back stands at the end.
    choices.push(act(15));
    for position in 0..15 {
        choices.push(act(position));
    }
    choices.push(act(15));
    Workload::new("16 blocks for one token", table, hall, &choices)
}

/// Blocks with alternatives, takes, repeated takes and puts over four trays.
fn busy_table() -> Vec<u8> {
    let mut table = Builder::new();
    let end = table.end();
    let retry = table.retry();
    let give = table.wt(1, end);
    let give = table.wt(0, give);
    let left = table.rd(0, give);
    let left = table.rd(1, left);
    let right = table.wt(2, end);
    let right = table.rd(2, right);
    let third = table.rd(3, retry);
    let either = table.or_else(right, third);
    let body = table.or_else(left, either);
    let block = table.atom(body);
    let swap = table.rd(1, end);
    let swap = table.wt(2, swap);
    let swap = table.atom(swap);
    let back = table.put(0);
    let on = table.side_by_side(block, back);
    let again = table.repeated_take(0, on);
    let put = table.put(1);
    let other = table.side_by_side(swap, put);
    let other = table.repeated_take(1, other);
    let take = table.repeated_take(2, back);
    let first = table.copies(again, 3);
    let rest = table.copies(other, 3);
    let some = table.side_by_side(first, rest);
    let some = table.side_by_side(some, take);
    let all = table.side_by_side(some, block);
    table.tokens(0, 3);
    table.tokens(1, 3);
    table.tokens(2, 1);
    table.start(all)
}

/// Accepted choices by guess, each time a station and a node by chance.
fn walk(choices: usize) -> Workload {
    let bytes = busy_table();
    let table = table_of(&bytes);
    let hall = opened(&bytes);
    let mut random = Random::new(7);
    let mut now = decode(&table, &hall).expect("a well formed hall");
    let mut list = Vec::new();
    while list.len() < choices {
        let position = random.byte_below(now.stations.len());
        let choice = if random.percent(40) {
            Second::Act { position }
        } else {
            let node = random.byte_below(5);
            Second::Inside { position, node }
        };
        if let Outcome::Moved { hall, .. } = make_move(&table, &now, choice) {
            now = hall;
            list.push(choice.bytes());
        }
    }
    Workload::new("a random walk", bytes, hall, &list)
}

/// 63 attempts as large as they can be, and a block that begins and retries at
/// a position.
fn full(name: &'static str, position: usize) -> Workload {
    let mut table = Builder::new();
    let retry = table.retry();
    let block = table.atom(retry);
    let table = table.start(block);
    let leaf = || {
        Node::Leaf(Leaf {
            rest: Rest::BareRetry,
            log: Log {
                entries: vec![Action::Write(15); 16],
            },
        })
    };
    let large = Station::Attempt {
        term: usize::from(block),
        snapshot: [1; 16],
        tree: (1..8).fold(leaf(), |all, _| Node::Fork(Box::new(all), Box::new(leaf()))),
    };
    let mut stations = vec![large; 63];
    let term = usize::from(block);
    stations.insert(position, Station::Waiting { term });
    let hall = encode(&Hall {
        counts: [1; 16],
        stations,
    });
    assert_eq!(hall.len(), HALL_BYTES);
    let cycle = [act(position), act(position)];
    Workload::new(name, table, hall, &cycle)
}

/// Such a block alone, in a table of 200 terms.
fn large_table() -> Workload {
    let mut table = Builder::new();
    let retry = table.retry();
    let block = table.atom(retry);
    let mut last = table.nil();
    while table.terms() < 200 {
        last = table.take(1, last);
    }
    let table = table.start(block);
    let hall = opened(&table);
    let cycle = [act(0), act(0)];
    Workload::new("a table of 200 terms", table, hall, &cycle)
}

/// One station takes a token and opens into 64 that put.
fn wide_take(name: &'static str, puts: fn(&mut Builder, u8) -> u8) -> Workload {
    let mut table = Builder::new();
    let put = table.put(0);
    let all = puts(&mut table, put);
    let take = table.take(0, all);
    table.tokens(0, 1);
    let table = table.start(take);
    let hall = opened(&table);
    Workload::new(name, table, hall, &[act(0)])
}

/// A take of 64 puts in pairs of pairs.
fn balanced_take() -> Workload {
    wide_take("64 puts, balanced", |table, put| {
        (0..6).fold(put, |all, _| table.side_by_side(all, all))
    })
}

/// A take of 64 puts, each beside all before it.
fn leaning_take() -> Workload {
    wide_take("64 puts, leaning to the left", |table, put| {
        table.copies(put, 64)
    })
}

/// A repeated take of 63 nils and a put, in pairs of pairs: 64 terms are opened
/// and one station is laid down, which puts the token back.
fn mostly_nils() -> Workload {
    let mut table = Builder::new();
    let put = table.put(0);
    let mut nils = table.nil();
    let mut all = table.side_by_side(nils, put);
    for _ in 0..5 {
        nils = table.side_by_side(nils, nils);
        all = table.side_by_side(nils, all);
    }
    let take = table.repeated_take(0, all);
    table.tokens(0, 1);
    let table = table.start(take);
    let hall = opened(&table);
    Workload::new(
        "63 nils and a put, repeated",
        table,
        hall,
        &[act(0), act(0)],
    )
}

pub(crate) fn print() {
    print_part("a choice of a long list, its share of the call included");
    ring().cycling(500).long();
    last_of_many().cycling(250).long();
    deep().long();
    contended().long();
    walk(5_000).long();
    print_part("a call of one choice");
    ring().single();
    last_of_many().single();
    full("a full hall, at its last station", 63).single();
    full("a full hall, at its first station", 0).single();
    large_table().single();
    print_part("a take of what is 64 wide: one choice on a copied hall, a choice of a long list");
    balanced_take().once();
    leaning_take().once();
    mostly_nils().cycling(1_000).long();
    print_part("a suggestion, beside the second implementation's");
    ring().suggest();
    last_of_many().suggest();
    full("a full hall", 63).suggest();
}
