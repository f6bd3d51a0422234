//! Which tray was short, and by how many: told where a commit or a read fails, and
//! nowhere else.

mod by_chance;
mod every_tray;
mod exact;
mod none_told;
mod which;

use reference::build::Builder;
use reference::generator::Random;
use reference::hall::{Hall, Station};
use reference::moves::{ARDF, ATFAIL};
use reference::run::Tally;
use reference::table::byte_of;

use crate::common::by_hand::{attempt, hall, leaf, BARE_RETRY};
use crate::common::calls::Sequence;
use crate::common::shortages::Told;

/// The term of an end.
const END: u8 = 0;
/// The term of a block, which waits again when its attempt fails.
const BLOCK: u8 = 17;
/// Where the snapshot of an attempt at position 0 stands in a stored hall.
const SNAPSHOT: usize = 18;

/// The term that reads this tray and ends.
fn reads(tray: u8) -> u8 {
    tray + 1
}

/// An end, a read of each tray, a block of the end.
fn table() -> Vec<u8> {
    let mut table = Builder::new();
    assert_eq!(table.end(), END);
    for tray in 0..16 {
        assert_eq!(table.rd(tray, END), reads(tray));
    }
    assert_eq!(table.atom(END), BLOCK);
    table.start(BLOCK)
}

/// Counts of which these trays have so many, and the others as many as there can
/// be.
fn counts(few: &[(u8, u8)]) -> [u8; 16] {
    let mut counts = [255; 16];
    for (tray, count) in few {
        counts[usize::from(*tray)] = *count;
    }
    counts
}

/// A log of so many reads of each of these trays.
fn log(reads: &[(u8, usize)]) -> Vec<u8> {
    let parts = reads.iter().map(|(tray, times)| vec![*tray; *times]);
    parts.collect::<Vec<_>>().concat()
}

/// A hall of one attempt with one leaf, which has this term left to do.
fn hall_of(now: [u8; 16], snapshot: [u8; 16], term: u8, log: &[u8]) -> Vec<u8> {
    let length = u8::try_from(log.len()).expect("a log");
    let mut bytes = hall(&attempt(BLOCK, &leaf(term, length, log)));
    bytes[..16].copy_from_slice(&now);
    bytes[SNAPSHOT..SNAPSHOT + 16].copy_from_slice(&snapshot);
    bytes
}

/// This choice on this hall: its rule, which is one, and what it told.
#[track_caller]
fn made(hall: &[u8], choice: [u8; 3]) -> (u8, Told) {
    let mut sequence = Sequence::new(&table(), hall, Tally::FRESH);
    let ((number, _, rule), told) = sequence.step_told(choice);
    assert_eq!(number, 0, "{sequence}");
    (rule, told)
}

/// The commit of an attempt with this log: its rule, and what it told.
#[track_caller]
fn commit(now: [u8; 16], snapshot: [u8; 16], log: &[u8]) -> (u8, Told) {
    made(&hall_of(now, snapshot, END, log), [1, 0, 0])
}

/// A read of this tray behind this log: its rule, and what it told.
#[track_caller]
fn read(now: [u8; 16], snapshot: [u8; 16], log: &[u8], tray: u8) -> (u8, Told) {
    made(&hall_of(now, snapshot, reads(tray), log), [2, 0, 0])
}

/// The commit fails and tells this.
#[track_caller]
fn commit_fails(now: [u8; 16], log: &[u8], told: (u8, u8)) {
    assert_eq!(commit(now, [255; 16], log), (ATFAIL, Some(told)), "{log:?}");
}

/// The read fails and tells this.
#[track_caller]
fn read_fails(snapshot: [u8; 16], log: &[u8], tray: u8, told: (u8, u8)) {
    let answer = read([255; 16], snapshot, log, tray);
    assert_eq!(answer, (ARDF, Some(told)), "{log:?} and {tray}");
}

/// A hall of one attempt that most often lacks something, now and by its snapshot:
/// a log over few trays, which have few tokens.
fn short_hall(random: &mut Random) -> Vec<u8> {
    let trays: Vec<u8> = (0..random.between(1, 4))
        .map(|_| random.byte_below(16))
        .collect();
    let (now, snapshot) = (few_tokens(random, &trays), few_tokens(random, &trays));
    let mut log = any_log(random, &trays);
    let reading = trays[random.below(trays.len())];
    match random.below(10) {
        0 => hall_of(now, snapshot, BARE_RETRY, &log),
        1..=4 => hall_of(now, snapshot, reads(reading), &log),
        _ => {
            // At its end a log may have one action more.
            log.push(reading);
            hall_of(now, snapshot, END, &log)
        }
    }
}

/// Counts of which these trays have few.
fn few_tokens(random: &mut Random, trays: &[u8]) -> [u8; 16] {
    let most = random.between(1, 12);
    let few = trays
        .iter()
        .map(|tray| (*tray, random.byte_below(most)))
        .collect::<Vec<_>>();
    counts(&few)
}

/// A log of up to 15 actions on these trays, most of them reads.
fn any_log(random: &mut Random, trays: &[u8]) -> Vec<u8> {
    let length = if random.percent(40) {
        15
    } else {
        random.below(16)
    };
    let writes = 25 * random.below(2);
    let mut action = || {
        let tray = trays[random.below(trays.len())];
        tray + 16 * u8::from(random.percent(writes))
    };
    (0..length).map(|_| action()).collect()
}

/// Of each attempt the act, and a move at each of its nodes.
fn choices_of_attempts(hall: &Hall) -> Vec<[u8; 3]> {
    let mut choices = Vec::new();
    for (position, station) in hall.stations.iter().enumerate() {
        if let Station::Attempt { tree, .. } = station {
            let position = byte_of(position);
            choices.push([1, position, 0]);
            choices.extend((0..byte_of(tree.size())).map(|node| [2, position, node]));
        }
    }
    choices
}
