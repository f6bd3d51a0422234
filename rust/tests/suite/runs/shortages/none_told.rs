//! Rules and refusals that tell nothing. Both bytes are set to others before each
//! call, so that one left as it was would be seen.

use ruonfidd::{step, Choice, Moved, Tally, HALL_BYTES};

use super::{hall_of, reads, END};
use crate::common::by_hand::{attempt, each_kind, hall, joined, leaf, leaning_right};
use crate::common::by_hand::{BARE_RETRY, FORK, PUTTING, WAITING};
use crate::ffi;

/// What a step answers and sets, called with two bytes that it has to set:
/// number, rule and both bytes.
fn set(table: &[u8], hall: &[u8], choice: [u8; 3], before: [u8; 2]) -> (u8, u8, [u8; 2]) {
    let mut hall = hall.to_vec();
    let (mut rule, mut shortage) = (99, before);
    let number = ffi::step(
        table,
        &mut hall,
        choice,
        &mut [0; 3],
        &mut rule,
        &mut shortage,
        &mut 0,
    );
    (number, rule, shortage)
}

/// Such a step answers this number and rule, and sets both bytes to 0.
#[track_caller]
fn none_told(table: &[u8], hall: &[u8], choice: [u8; 3], number: u8, rule: u8) {
    for before in [[1, 1], [15, 16], [99, 0], [0, 99], [255, 255]] {
        let answer = set(table, hall, choice, before);
        assert_eq!(answer, (number, rule, [0, 0]), "{choice:?}");
    }
}

/// A stored hall with this count in every tray and these stations, of the table
/// with a term of each kind.
fn stored(count: u8, stations: &[u8]) -> Vec<u8> {
    let mut bytes = hall(stations);
    bytes[..16].fill(count);
    bytes
}

fn of_block(nodes: &[u8]) -> Vec<u8> {
    attempt(each_kind::BLOCK, nodes)
}

/// Each rule but 6 and 9. An attempt, where the rule has one, is short by the counts
/// of now and by its snapshot, but not by those that the rule itself goes by.
#[test]
fn by_every_other_rule() {
    use each_kind::{BLOCK, END, OR_ELSE, RD, REPEATED_TAKE, RETRY, TAKE, WT};
    let table = each_kind::table();
    // Reads of trays that are empty where a hall has no tokens.
    let log = [9, 9, 10];
    let with_log = |term| leaf(term, 3, &log);
    let fork = |left: &[u8]| joined(&[&[FORK], left, &with_log(RD)]);
    let mut reading = stored(0, &of_block(&leaf(RD, 0, &[])));
    reading[18 + 2] = 1; // the snapshot has what is read
    for (hall, choice, rule) in [
        (stored(0, &[PUTTING, 3]), [1, 0, 0], Moved::OUT),
        (stored(1, &[WAITING, TAKE]), [1, 0, 0], Moved::IN),
        (stored(1, &[WAITING, REPEATED_TAKE]), [1, 0, 0], Moved::REP),
        (stored(0, &[WAITING, BLOCK]), [1, 0, 0], Moved::ATST),
        (
            stored(0, &of_block(&with_log(RETRY))),
            [1, 0, 0],
            Moved::ATRE,
        ),
        (
            stored(0, &of_block(&with_log(BARE_RETRY))),
            [1, 0, 0],
            Moved::ATRE,
        ),
        (stored(2, &of_block(&with_log(END))), [1, 0, 0], Moved::ATOK),
        (reading, [2, 0, 0], Moved::ARDOK),
        (stored(0, &of_block(&with_log(WT))), [2, 0, 0], Moved::AWR),
        (
            stored(0, &of_block(&with_log(OR_ELSE))),
            [2, 0, 0],
            Moved::AOI,
        ),
        (
            stored(0, &of_block(&fork(&with_log(RETRY)))),
            [2, 0, 0],
            Moved::AOF,
        ),
        (
            stored(0, &of_block(&fork(&with_log(END)))),
            [2, 0, 0],
            Moved::AOE,
        ),
    ] {
        none_told(&table, &hall, choice, 0, rule);
    }
    // The same call does tell where something is short: the bytes come from it.
    let failing = stored(1, &of_block(&with_log(END)));
    let answer = set(&table, &failing, [1, 0, 0], [255, 255]);
    assert_eq!(answer, (0, Moved::ATFAIL, [9, 1]));
    let failing = stored(0, &of_block(&with_log(RD)));
    let answer = set(&table, &failing, [2, 0, 0], [255, 255]);
    assert_eq!(answer, (0, Moved::ARDF, [2, 1]));
}

/// Refusals by table, hall and choice, most of them on a hall where an attempt is
/// short. (13 is of lists of choices, and no step's.)
#[test]
fn by_every_refusal() {
    use each_kind::{END, RD, REPEATED_TAKE, TAKE, WT};
    let table = each_kind::table();
    let short = stored(0, &of_block(&leaf(END, 2, &[4, 4])));
    let reading = stored(0, &of_block(&leaf(RD, 1, &[4])));
    // By the table.
    for (bad, number) in [
        (&[14][..], 1),
        (&[2], 2),
        (&[1; 201], 3),
        (&[2, 16], 4),
        (&[13, 0], 5),
        (&[7, 13, 0], 6),
        (
            &[
                1, 5, 0, 0, 5, 1, 1, 5, 2, 2, 5, 3, 3, 5, 4, 4, 5, 5, 5, 5, 6, 6,
            ],
            7,
        ),
        (&[12, 0, 0], 8),
        (&[], 9),
    ] {
        none_told(bad, &short, [1, 0, 0], number, 0);
    }
    // By the hall.
    none_told(&table, &short[1..], [1, 0, 0], 10, 0);
    none_told(&table, &[1; HALL_BYTES], [1, 0, 0], 11, 0);
    // By the choice.
    let nodes = leaning_right(&[leaf(WT, 1, &[4]), leaf(RD, 1, &[4])]);
    let full = joined(&[
        &[WAITING, REPEATED_TAKE].repeat(63),
        &of_block(&leaf(END, 2, &[16, 17])),
    ]);
    for (hall, choice, number) in [
        (&short, [0, 0, 0], 12),
        (&short, [3, 0, 0], 12),
        (&short, [1, 1, 0], 14),
        (&short, [2, 1, 0], 14),
        (&reading, [1, 0, 0], 15),
        (&stored(0, &[PUTTING, 0]), [2, 0, 0], 15),
        (&reading, [2, 0, 1], 16),
        (&short, [2, 0, 0], 17),
        (&stored(0, &of_block(&nodes)), [2, 0, 0], 17),
        (&stored(0, &[WAITING, TAKE]), [1, 0, 0], 18),
        (&stored(0, &[WAITING, REPEATED_TAKE]), [1, 0, 0], 18),
        (&stored(1, &full), [1, 0, 0], 19),
        (&stored(0, &full), [1, 63, 0], 19),
        (&stored(255, &[PUTTING, 0]), [1, 0, 0], 20),
    ] {
        none_told(&table, hall, choice, number, 0);
    }
}

/// A commit without room that would be short as well: it fails, and is not refused,
/// so it tells.
#[test]
fn a_commit_that_is_short_and_without_room() {
    let table = each_kind::table();
    let log = [16, 17, 18, 11];
    let stations = joined(&[
        &[PUTTING, 0].repeat(63),
        &of_block(&leaf(each_kind::END, 4, &log)),
    ]);
    let answer = set(&table, &stored(0, &stations), [1, 63, 0], [0, 0]);
    assert_eq!(answer, (0, Moved::ATFAIL, [11, 1]));
    none_told(&table, &stored(1, &stations), [1, 63, 0], 19, 0);
}

/// The safe call: nothing where the bytes are 0, else what they say.
#[test]
fn by_the_safe_call() {
    let table = super::table();
    let act = Choice::Act { position: 0 };
    let inside = Choice::Inside {
        position: 0,
        node: 0,
    };
    for count in [0, 1, 2, 3] {
        let few = [count; 16];
        for (term, log, choice) in [(END, &[6, 6, 6][..], act), (reads(6), &[6, 6], inside)] {
            let mut hall = hall_of(few, few, term, log);
            let moved = step(&table, &mut hall, choice, &mut Tally::fresh());
            let shortage = moved.expect("an accepted choice").shortage;
            let told = shortage.map(|it| (it.tray, it.by.get()));
            assert_eq!(told, (count < 3).then(|| (6, 3 - count)));
        }
    }
}
