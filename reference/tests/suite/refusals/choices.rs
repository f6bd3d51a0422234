//! Refusals 12 to 20: choices.

use reference::build::Builder;
use reference::choice::Choice;
use reference::hall::{opening, Hall, Leaf, Log, Node, Rest, Station};
use reference::moves::{make_move, Outcome};
use reference::run::Tally;

use crate::common::EXAMPLE_TABLE;
use crate::common::{accepted, act, each_kind, inside, moved, run_answer, run_from_opening};

#[test]
fn refusal_12_kind_of_the_choice() {
    for kind in 0..=255u8 {
        let run = run_from_opening(&EXAMPLE_TABLE, &[1, 0, kind]);
        let number = if kind == 1 || kind == 2 { 13 } else { 12 };
        assert_eq!(run.answer, run_answer(number, 2, 1));
        assert_eq!(run.rules, [4]);
    }
    assert_eq!(
        run_from_opening(&EXAMPLE_TABLE, &[0]).answer,
        run_answer(12, 0, 0)
    );
    assert_eq!(
        run_from_opening(&EXAMPLE_TABLE, &[3, 0, 0]).answer,
        run_answer(12, 0, 0)
    );
}

#[test]
fn refusal_13_cut_short() {
    // Even where no station stands at the position.
    for choices in [vec![1], vec![2], vec![2, 0], vec![2, 9]] {
        assert_eq!(
            run_from_opening(&EXAMPLE_TABLE, &choices).answer,
            run_answer(13, 0, 0)
        );
        let mut later = vec![1, 0, 2, 0, 0];
        later.extend(&choices);
        let run = run_from_opening(&EXAMPLE_TABLE, &later);
        assert_eq!(run.answer, run_answer(13, 5, 2));
        assert_eq!(run.rules, [4, 8]);
    }
}

#[test]
fn refusal_14_no_station() {
    for position in 0..=255u8 {
        let run = run_from_opening(&EXAMPLE_TABLE, &[1, position]);
        let expected = if position == 0 {
            run_answer(0, 2, 1)
        } else {
            run_answer(14, 0, 0)
        };
        assert_eq!(run.answer, expected);
        let run = run_from_opening(&EXAMPLE_TABLE, &[1, 0, 2, position, 0]);
        let expected = if position == 0 {
            run_answer(0, 5, 2)
        } else {
            run_answer(14, 2, 1)
        };
        assert_eq!(run.answer, expected);
    }
    let run = run_from_opening(&EXAMPLE_TABLE, &[1, 0, 2, 0, 0, 2, 0, 0, 1, 0, 1, 0, 1, 0]);
    assert_eq!(run.answer, run_answer(14, 12, 5));
    // Position 63 of 64 stands, 64 does not.
    let mut table = Builder::new();
    let put = table.put(0);
    let all = table.copies(put, 64);
    let bytes = table.start(all);
    assert_eq!(
        run_from_opening(&bytes, &[1, 63]).answer,
        run_answer(0, 2, 1)
    );
    assert_eq!(
        run_from_opening(&bytes, &[1, 64]).answer,
        run_answer(14, 0, 0)
    );
    assert_eq!(
        run_from_opening(&bytes, &[1, 63, 1, 63]).answer,
        run_answer(14, 2, 1)
    );
}

/// A hall over the table of each kind with one attempt of block 10.
fn one_attempt(tree: Node) -> Hall {
    Hall {
        counts: [2; 16],
        stations: vec![Station::Attempt {
            term: 10,
            snapshot: [2; 16],
            tree,
        }],
    }
}

fn leaf_of(rest: Rest) -> Node {
    Node::Leaf(Leaf {
        rest,
        log: Log::EMPTY,
    })
}

fn fork_of(left: Node, right: Node) -> Node {
    Node::Fork(Box::new(left), Box::new(right))
}

fn outcome(hall: &Hall, choice: Choice) -> u8 {
    let bytes = each_kind();
    let table = accepted(&bytes);
    match make_move(&table, hall, choice) {
        Outcome::Moved { rule, .. } => rule,
        Outcome::Refused(number) => number,
    }
}

#[test]
fn refusal_15_wrong_station() {
    // Kind 1 at each leaf: end commits, both retries go back, others refuse.
    for (rest, expected) in [
        (Rest::Term(0), 7),
        (Rest::Term(1), 5),
        (Rest::BareRetry, 5),
        (Rest::Term(2), 15),
        (Rest::Term(3), 15),
        (Rest::Term(4), 15),
    ] {
        let hall = one_attempt(leaf_of(rest));
        assert_eq!(outcome(&hall, act(0)), expected);
        // A fork never closes, whatever its sides say.
        for other in [Rest::Term(0), Rest::Term(1), Rest::BareRetry] {
            let hall = one_attempt(fork_of(leaf_of(rest), leaf_of(other)));
            assert_eq!(outcome(&hall, act(0)), 15);
        }
    }
    // Kind 2 at stations that are no attempts, before the node is looked for.
    let hall = Hall {
        counts: [0; 16],
        stations: vec![
            Station::Waiting { term: 7 },
            Station::Waiting { term: 8 },
            Station::Waiting { term: 10 },
            Station::Putting { tray: 0 },
        ],
    };
    for position in 0..4 {
        for node in [0, 1, 255] {
            assert_eq!(outcome(&hall, inside(position, node)), 15);
        }
    }
    assert_eq!(outcome(&hall, inside(4, 0)), 14);
}

#[test]
fn refusal_16_no_node() {
    for node in 1..=255 {
        // Before 17: node 0 is an end.
        assert_eq!(
            outcome(&one_attempt(leaf_of(Rest::Term(0))), inside(0, node)),
            16
        );
    }
    let tree = fork_of(
        leaf_of(Rest::Term(2)),
        fork_of(leaf_of(Rest::Term(3)), leaf_of(Rest::Term(4))),
    );
    let hall = one_attempt(tree);
    let expected = [17, 8, 17, 10, 11];
    for node in 0..=255u8 {
        let number = expected.get(usize::from(node)).copied().unwrap_or(16);
        assert_eq!(outcome(&hall, inside(0, node)), number, "node {node}");
    }
}

#[test]
fn refusal_17_nothing_to_do_at_the_node() {
    for rest in [Rest::Term(0), Rest::Term(1), Rest::BareRetry] {
        assert_eq!(outcome(&one_attempt(leaf_of(rest)), inside(0, 0)), 17);
    }
    // A fork goes by its left side alone.
    for (left, expected) in [
        (leaf_of(Rest::Term(0)), 13),
        (leaf_of(Rest::Term(1)), 12),
        (leaf_of(Rest::BareRetry), 12),
        (leaf_of(Rest::Term(2)), 17),
        (leaf_of(Rest::Term(3)), 17),
        (leaf_of(Rest::Term(4)), 17),
        (
            fork_of(leaf_of(Rest::BareRetry), leaf_of(Rest::BareRetry)),
            17,
        ),
        (fork_of(leaf_of(Rest::Term(0)), leaf_of(Rest::Term(0))), 17),
    ] {
        for right in [
            leaf_of(Rest::Term(0)),
            leaf_of(Rest::Term(1)),
            leaf_of(Rest::BareRetry),
            leaf_of(Rest::Term(2)),
            fork_of(leaf_of(Rest::Term(0)), leaf_of(Rest::Term(0))),
        ] {
            let hall = one_attempt(fork_of(left.clone(), right));
            assert_eq!(outcome(&hall, inside(0, 0)), expected);
        }
    }
    // The right side may move while the left side is settled.
    for left in [Rest::Term(0), Rest::Term(1), Rest::BareRetry] {
        let hall = one_attempt(fork_of(leaf_of(left), leaf_of(Rest::Term(2))));
        assert_eq!(outcome(&hall, inside(0, 2)), 8);
        assert_eq!(outcome(&hall, inside(0, 1)), 17);
    }
}

#[test]
fn refusal_18_empty_tray() {
    for repeated in [false, true] {
        let mut table = Builder::new();
        let nil = table.nil();
        let take = if repeated {
            table.repeated_take(9, nil)
        } else {
            table.take(9, nil)
        };
        let twice = table.side_by_side(take, take);
        let empty = table.start(twice);
        assert_eq!(
            run_from_opening(&empty, &[1, 0]).answer,
            run_answer(18, 0, 0)
        );
        table.tokens(9, 1);
        let one = table.start(twice);
        let run = run_from_opening(&one, &[1, 1, 1, 0]);
        assert_eq!(run.answer, run_answer(18, 2, 1));
        assert_eq!(run.rules, [if repeated { 3 } else { 2 }]);
        assert_eq!(run.hall.counts, [0; 16]);
        assert_eq!(run.hall.stations.len(), if repeated { 2 } else { 1 });
    }
}

/// 63 blocks that never end and one more station.
fn nearly_full(last: impl Fn(&mut Builder) -> u8, tokens: u8) -> Vec<u8> {
    let mut table = Builder::new();
    let retry = table.retry();
    let block = table.atom(retry);
    let many = table.copies(block, 63);
    let last = last(&mut table);
    let all = table.side_by_side(many, last);
    if tokens > 0 {
        table.tokens(0, tokens);
    }
    table.start(all)
}

#[test]
fn refusal_19_full_hall_at_a_take() {
    // An IN to one station, to two, to none; the tray is looked at first.
    let take = |copies: usize, repeated: bool| {
        move |table: &mut Builder| {
            let put = table.put(1);
            let then = if copies == 0 {
                table.nil()
            } else {
                table.copies(put, copies)
            };
            if repeated {
                table.repeated_take(0, then)
            } else {
                table.take(0, then)
            }
        }
    };
    let act_63 = [1, 63];
    for (copies, repeated, tokens, expected, stations) in [
        (0, false, 1, 0, 63),
        (1, false, 1, 0, 64),
        (2, false, 1, 19, 64),
        (2, false, 0, 18, 64),
        (64, false, 1, 19, 64),
        (0, true, 1, 0, 64),
        (1, true, 1, 19, 64),
        (1, true, 0, 18, 64),
        (64, true, 1, 19, 64),
    ] {
        let bytes = nearly_full(take(copies, repeated), tokens);
        let run = run_from_opening(&bytes, &act_63);
        assert_eq!(run.answer.number, expected, "{copies} {repeated}");
        assert_eq!(run.hall.stations.len(), stations);
        assert_eq!(
            run.hall.counts[0],
            if expected == 0 { tokens - 1 } else { tokens }
        );
    }
}

#[test]
fn refusal_19_full_hall_at_a_commit() {
    let block = |writes: usize, reads: usize| {
        move |table: &mut Builder| {
            let mut body = table.end();
            for _ in 0..writes {
                body = table.wt(5, body);
            }
            for _ in 0..reads {
                body = table.rd(0, body);
            }
            table.atom(body)
        }
    };
    for (writes, expected, stations) in [(0, 7, 63), (1, 7, 64), (2, 19, 64), (15, 19, 64)] {
        let bytes = nearly_full(block(writes, 1), 1);
        let mut choices = vec![1, 63];
        choices.extend([2, 63, 0].repeat(writes + 1));
        choices.extend([1, 63]);
        let run = run_from_opening(&bytes, &choices);
        if expected == 7 {
            assert_eq!(
                run.answer,
                run_answer(0, choices.len(), choices.len() / 3 + 1)
            );
            assert_eq!(run.rules.last(), Some(&7));
            assert_eq!(run.hall.counts[0], 0);
            assert_eq!(run.tally.commits, 1);
        } else {
            assert_eq!(
                run.answer,
                run_answer(19, choices.len() - 2, writes + 2),
                "{writes}"
            );
            assert_eq!(run.hall.counts[0], 1);
            assert_eq!(run.tally, Tally::FRESH);
        }
        assert_eq!(run.hall.stations.len(), stations);
    }
    // A commit that fails in a full hall is rule 6 and never 19.
    let bytes = nearly_full(block(2, 1), 1);
    let table = accepted(&bytes);
    let mut hall = opening(&table);
    for choice in [act(63), inside(63, 0), inside(63, 0), inside(63, 0)] {
        hall = moved(&table, &hall, choice).1;
    }
    assert_eq!(make_move(&table, &hall, act(63)), Outcome::Refused(19));
    hall.counts[0] = 0;
    assert_eq!(moved(&table, &hall, act(63)).0, 6);
}

#[test]
fn refusal_20_full_tray() {
    let mut table = Builder::new();
    let put = table.put(15);
    let other = table.put(14);
    let both = table.side_by_side(put, other);
    table.tokens(15, 255);
    let bytes = table.start(both);
    assert_eq!(
        run_from_opening(&bytes, &[1, 0]).answer,
        run_answer(20, 0, 0)
    );
    let run = run_from_opening(&bytes, &[1, 1, 1, 0, 1, 0]);
    assert_eq!(run.answer, run_answer(20, 2, 1));
    assert_eq!(run.hall.counts[14], 1);
    assert_eq!(run.hall.counts[15], 255);
}

#[test]
fn a_refused_choice_leaves_what_came_before() {
    // The second choice is refused; the third, which would be accepted, is not
    // looked at.
    let mut table = Builder::new();
    let put = table.put(0);
    let all = table.copies(put, 3);
    let bytes = table.start(all);
    let run = run_from_opening(&bytes, &[1, 0, 1, 9, 1, 0]);
    assert_eq!(run.answer, run_answer(14, 2, 1));
    assert_eq!(run.hall.counts[0], 1);
    assert_eq!(run.hall.stations.len(), 2);
}
