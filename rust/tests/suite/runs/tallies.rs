//! The tally: what raises each counter, and counters near their top.

use reference::build::Builder;
use reference::hall::encode;
use reference::moves::{ATFAIL, ATOK, ATRE};
use reference::run::Tally;

use crate::common::by_chance::accepted;
use crate::common::calls::Sequence;

/// Two blocks that read tray 0, one block that retries, one token: each of the
/// three ends of an attempt is a few choices away.
fn table() -> Vec<u8> {
    let mut table = Builder::new();
    let end = table.end();
    let retry = table.retry();
    let put = table.put(0);
    let read = table.rd(0, end);
    let reads = table.atom(read);
    let retries = table.atom(retry);
    let both = table.side_by_side(reads, reads);
    let all = table.side_by_side(both, retries);
    let all = table.side_by_side(all, put);
    table.tokens(0, 1);
    table.start(all)
}

/// Both reading blocks begin and read; the first is committed, the second is
/// not; the third begins and retries.
const ENDS: [u8; 18] = [1, 0, 1, 1, 2, 0, 0, 2, 1, 0, 1, 0, 1, 0, 1, 1, 1, 1];

fn tally(commits: u32, failed: u32, retries: u32) -> Tally {
    Tally {
        commits,
        failed,
        retries,
    }
}

/// One run and the same choices one by one give this tally.
#[track_caller]
fn counts(before: Tally, after: Tally) {
    let bytes = table();
    let hall = encode(&reference::hall::opening(&accepted(&bytes)));
    let mut run = Sequence::new(&bytes, &hall, before);
    assert_eq!(run.run(&ENDS), (0, ENDS.len(), 8));
    assert_eq!(run.tally, after);
    for rule in [ATOK, ATFAIL, ATRE] {
        assert_eq!(run.met.rules[usize::from(rule)], 1);
    }
    let mut steps = Sequence::new(&bytes, &hall, before);
    for choice in reference::choice::whole_choices(&ENDS) {
        let bytes = crate::common::choices::step_bytes(choice, 0);
        assert_eq!(steps.step(bytes).0, 0);
    }
    assert_eq!(steps.tally, after);
}

#[test]
fn each_end_raises_its_own_counter() {
    counts(tally(0, 0, 0), tally(1, 1, 1));
    counts(tally(10, 20, 30), tally(11, 21, 31));
}

#[test]
fn a_counter_at_its_top_stays() {
    const TOP: u32 = 4_294_967_295;
    counts(tally(TOP, 5, 5), tally(TOP, 6, 6));
    counts(tally(5, TOP, 5), tally(6, TOP, 6));
    counts(tally(5, 5, TOP), tally(6, 6, TOP));
    counts(tally(TOP, TOP, TOP), tally(TOP, TOP, TOP));
    counts(tally(TOP - 1, TOP - 1, TOP - 1), tally(TOP, TOP, TOP));
    counts(tally(TOP - 2, TOP - 1, TOP), tally(TOP - 1, TOP, TOP));
}

/// It is brought up to date as far as the run went.
#[test]
fn a_refused_choice_leaves_what_was_counted() {
    let mut choices = ENDS.to_vec();
    choices.extend([9, 1, 0]);
    let mut sequence = Sequence::open(&table());
    assert_eq!(sequence.run(&choices), (12, ENDS.len(), 8));
    assert_eq!(sequence.tally, tally(1, 1, 1));
    assert_eq!(sequence.run(&[1]), (13, 0, 0));
    assert_eq!(sequence.step([1, 200, 0]), (14, 0, 0));
    assert_eq!(sequence.tally, tally(1, 1, 1));
}
