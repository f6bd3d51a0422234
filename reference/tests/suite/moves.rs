//! What single moves leave: logs, bytes and counters.

use reference::build::Builder;
use reference::calls;
use reference::hall::{encode, Action, Hall, Leaf, Log, Node, Rest, Station, HALL_BYTES};
use reference::run::Tally;

use crate::common::{accepted, each_kind, inside, moved, opened, run_answer};
use crate::common::{EXAMPLE_CHOICES, EXAMPLE_TABLE};

#[test]
fn counters_stay_at_their_top() {
    const TOP: u32 = 4_294_967_295;
    // A block of retry, then a block that fails once its token is gone, then
    // one that commits.
    let mut table = Builder::new();
    let retry = table.retry();
    let end = table.end();
    let read = table.rd(0, end);
    let a = table.atom(retry);
    let b = table.atom(read);
    let both = table.side_by_side(b, b);
    let all = table.side_by_side(a, both);
    table.tokens(0, 1);
    let bytes = table.start(all);
    let choices = [1, 0, 1, 0, 1, 1, 1, 2, 2, 1, 0, 2, 2, 0, 1, 1, 1, 1];
    for (commits, failed, retries) in [(0, 0, 0), (7, 8, 9), (TOP - 1, TOP, 3), (TOP, 1, TOP - 1)] {
        let mut hall = opened(&bytes);
        let mut tally = Tally {
            commits,
            failed,
            retries,
        };
        let answer = calls::run(&bytes, &mut hall, &mut tally, &choices);
        assert_eq!(answer, run_answer(0, 18, 8));
        let up = |counter: u32| if counter == TOP { TOP } else { counter + 1 };
        assert_eq!(
            tally,
            Tally {
                commits: up(commits),
                failed: up(failed),
                retries: up(retries)
            }
        );
    }
}

/// A log read that is over the snapshot at another tray makes the next read
/// fail too: all trays of the log are compared.
#[test]
fn a_read_looks_at_every_tray_of_the_log() {
    let bytes = each_kind();
    let table = accepted(&bytes);
    let mut snapshot = [0; 16];
    snapshot[2] = 1;
    for (log, expected) in [
        (vec![], 8),
        (vec![Action::Write(9)], 8),
        (vec![Action::Read(9)], 9),
        (vec![Action::Read(2)], 9),
    ] {
        let hall = Hall {
            counts: [0; 16],
            stations: vec![Station::Attempt {
                term: 10,
                snapshot,
                tree: Node::Leaf(Leaf {
                    rest: Rest::Term(2),
                    log: Log {
                        entries: log.clone(),
                    },
                }),
            }],
        };
        let (rule, next) = moved(&table, &hall, inside(0, 0));
        assert_eq!(rule, expected);
        let Station::Attempt {
            tree: Node::Leaf(leaf),
            ..
        } = &next.stations[0]
        else {
            panic!("no single leaf");
        };
        let mut entries = log;
        if rule == 8 {
            entries.push(Action::Read(2));
            assert_eq!(leaf.rest, Rest::Term(0));
        } else {
            // The log stays, and the byte is 255 though the table has a retry.
            assert_eq!(leaf.rest, Rest::BareRetry);
            assert_eq!(encode(&next)[16 + 18 + 1], 255);
        }
        assert_eq!(leaf.log.entries, entries);
    }
}

#[test]
fn a_hall_that_shrinks_leaves_zeros() {
    let mut hall = opened(&EXAMPLE_TABLE);
    let mut tally = Tally::FRESH;
    assert_eq!(
        calls::run(&EXAMPLE_TABLE, &mut hall, &mut tally, &EXAMPLE_CHOICES),
        run_answer(0, 12, 5)
    );
    let mut expected = vec![0; HALL_BYTES];
    expected[1] = 1;
    assert_eq!(hall, expected);
}
