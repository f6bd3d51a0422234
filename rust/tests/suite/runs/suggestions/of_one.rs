//! Halls with one accepted choice, and still halls.

use reference::build::Builder;
use reference::choice::Choice;

use super::{act, inside, sequence};
use crate::common::by_hand::{attempt, each_kind, joined, leaf, leaning_left};
use crate::common::by_hand::{BARE_RETRY, PUTTING, WAITING};
use crate::common::calls::Sequence;

/// The suggestion on such a hall.
#[track_caller]
fn suggests(counts: &[u8], stations: &[u8], choice: Choice) {
    let mut sequence = sequence(counts, stations);
    assert_eq!(sequence.suggest(), Some(choice), "{sequence}");
}

/// Such a hall is still.
#[track_caller]
fn still(counts: &[u8], stations: &[u8]) {
    let mut sequence = sequence(counts, stations);
    assert_eq!(sequence.suggest(), None, "{sequence}");
}

/// Where one choice alone is accepted, it is suggested.
#[test]
fn the_only_choice() {
    let end = leaf(each_kind::END, 0, &[]);
    let retry = leaf(BARE_RETRY, 0, &[]);
    let rd = leaf(each_kind::RD, 0, &[]);
    let block = each_kind::BLOCK;
    still(&[], &[]);
    suggests(&[], &[PUTTING, 0], act(0));
    still(&[255], &[PUTTING, 0]);
    suggests(&[254], &[PUTTING, 0], act(0));
    still(&[], &[WAITING, each_kind::TAKE]);
    suggests(&[1], &[WAITING, each_kind::TAKE], act(0));
    still(&[1], &[WAITING, each_kind::REPEATED_TAKE]);
    suggests(&[0, 1], &[WAITING, each_kind::REPEATED_TAKE], act(0));
    suggests(&[], &[WAITING, block], act(0));
    suggests(&[], &attempt(block, &end), act(0));
    suggests(&[], &attempt(block, &retry), act(0));
    suggests(&[], &attempt(block, &rd), inside(0, 0));
    // A fork waits for its left side, however deep that is.
    let forks = leaning_left(&[rd.clone(), end.clone(), retry.clone(), end.clone()]);
    suggests(&[], &attempt(block, &forks), inside(0, 3));
    // Behind stations and forks that cannot move.
    let mut stations = [WAITING, each_kind::TAKE].repeat(63);
    stations.extend([PUTTING, 0]);
    suggests(&[], &stations, act(63));
    let mut leaves = vec![end; 8];
    leaves[0] = rd;
    let eight = leaning_left(&leaves);
    let stations = joined(&[&stations[..126], &attempt(block, &eight)]);
    suggests(&[], &stations, inside(63, 7));
}

/// A commit that would leave too many stations is not suggested; one that fails
/// is.
#[test]
fn in_a_full_hall() {
    let writes = leaf(each_kind::END, 2, &[16, 17]);
    let reads_too = leaf(each_kind::END, 3, &[16, 17, 0]);
    let waiting = [WAITING, each_kind::TAKE].repeat(63);
    let with = |leaf: &[u8]| joined(&[&waiting, &attempt(each_kind::BLOCK, leaf)]);
    still(&[], &with(&writes));
    suggests(&[], &with(&reads_too), act(63));
    let one_write = leaf(each_kind::END, 1, &[16]);
    suggests(&[], &with(&one_write), act(63));
}

/// In a full hall a repeated take of nil is accepted, and one of a put is not.
#[test]
fn a_repeated_take_in_a_full_hall() {
    let mut table = Builder::new();
    let nil = table.nil();
    let nils = table.copies(nil, 3);
    let put = table.put(3);
    let quiet = table.repeated_take(0, nils);
    let loud = table.repeated_take(0, put);
    table.tokens(0, 2);
    for (term, suggestion) in [(quiet, Some(act(0))), (loud, None)] {
        let all = table.clone().copies(term, 64);
        let mut table = table.clone();
        assert_eq!(table.copies(term, 64), all);
        let mut sequence = Sequence::open(&table.start(all));
        assert_eq!(sequence.suggest(), suggestion);
    }
}
