//! The stored form: round trips, damaged halls, runs on halls that no run
//! reached, and what a refused call leaves.

use reference::build::Builder;
use reference::calls::{self, check_hall};
use reference::generator::{self, Random, Shape};
use reference::hall::{decode, encode, opening, Hall, Node, Rest, Station, HALL_BYTES};
use reference::run::{run_choices, Tally};
use reference::table::{self, Refusal, Table};

use crate::common::{accepted, all_choices, answer, opened, run_answer};

fn any_table(random: &mut Random) -> Vec<u8> {
    if random.percent(50) {
        generator::contended_table(random)
    } else {
        let shape = Shape::any(random);
        generator::accepted_table(random, shape)
    }
}

fn attempts(hall: &Hall) -> usize {
    hall.stations
        .iter()
        .filter(|station| matches!(station, Station::Attempt { .. }))
        .count()
}

fn most_nodes(hall: &Hall) -> usize {
    let mut most = 0;
    for station in &hall.stations {
        if let Station::Attempt { tree, .. } = station {
            most = most.max(tree.size());
        }
    }
    most
}

#[test]
fn random_halls_come_back() {
    let mut random = Random::new(20);
    let mut with_attempts = 0;
    let mut full_trees = 0;
    let mut full_halls = 0;
    for _ in 0..8_000 {
        let bytes = any_table(&mut random);
        let table = accepted(&bytes);
        let hall = generator::hall(&mut random, &table);
        let stored = encode(&hall);
        assert_eq!(stored.len(), HALL_BYTES);
        assert_eq!(decode(&table, &stored).as_ref(), Some(&hall));
        assert_eq!(check_hall(&bytes, &stored), answer(0, 0));
        with_attempts += usize::from(attempts(&hall) > 0);
        full_trees += usize::from(most_nodes(&hall) == 15);
        full_halls += usize::from(hall.stations.len() == 64);
    }
    assert!(with_attempts > 2_000, "{with_attempts}");
    assert!(full_trees > 5, "{full_trees}");
    assert!(full_halls > 20, "{full_halls}");
}

/// Well formed by a look of its own: what each station and node may be, one
/// condition at a time, over the hall that was decoded.
fn assert_well_formed(table: &Table, hall: &Hall) {
    assert!(hall.stations.len() <= 64);
    for station in &hall.stations {
        match station {
            Station::Putting { tray } => assert!(*tray <= 15),
            Station::Waiting { term } => {
                assert!([3, 4, 6].contains(&table.terms[*term].kind()));
            }
            Station::Attempt { term, tree, .. } => {
                assert_eq!(table.terms[*term].kind(), 6);
                assert!(branches_of(table, tree) <= 8);
            }
        }
    }
}

/// Branches in all; each leaf's log and length are looked at on the way.
fn branches_of(table: &Table, node: &Node) -> usize {
    match node {
        Node::Fork(left, right) => branches_of(table, left) + branches_of(table, right),
        Node::Leaf(leaf) => {
            let (branches, length) = match leaf.rest {
                Rest::BareRetry => (1, 0),
                Rest::Term(term) => {
                    assert!(table.terms[term].kind() >= 7);
                    (
                        table::branches(&table.terms, term),
                        table::length(&table.terms, term),
                    )
                }
            };
            assert!(leaf.log.entries.len() + length <= 16);
            branches
        }
    }
}

#[test]
fn damaged_halls() {
    let mut random = Random::new(21);
    let mut well_formed = 0;
    let mut refused = 0;
    for _ in 0..20_000 {
        let bytes = any_table(&mut random);
        let table = accepted(&bytes);
        let hall = generator::hall(&mut random, &table);
        let mut stored = generator::damaged_hall(&mut random, &encode(&hall));
        let before = stored.clone();
        let mut tally = Tally {
            commits: 5,
            failed: 6,
            retries: 7,
        };
        if let Some(hall) = decode(&table, &stored) {
            well_formed += 1;
            // Only one byte form stands for a hall.
            assert_eq!(encode(&hall), stored);
            assert_well_formed(&table, &hall);
            assert_eq!(check_hall(&bytes, &stored).number, 0);
        } else {
            refused += 1;
            let answer = calls::run(&bytes, &mut stored, &mut tally, &[1, 0]);
            assert_eq!(answer, run_answer(11, 0, 0));
            assert_eq!(tally.commits, 5);
            let refusal = Refusal {
                number: 11,
                place: 0,
            };
            assert_eq!(calls::accepted_choices(&bytes, &stored), Err(refusal));
            assert_eq!(calls::suggest(&bytes, &stored), Err(refusal));
        }
        assert_eq!(stored, before);
    }
    assert!(
        well_formed > 1_000 && refused > 1_000,
        "{well_formed} {refused}"
    );
}

#[test]
fn random_bytes_as_halls() {
    let mut random = Random::new(22);
    let table = [7, 6, 0, 13, 1];
    for _ in 0..3_000 {
        let mut bytes = vec![0; HALL_BYTES];
        let used = random.below(HALL_BYTES);
        for byte in bytes.iter_mut().take(used) {
            *byte = if random.percent(80) {
                random.byte_between(20, 24)
            } else {
                random.byte()
            };
        }
        let answer = check_hall(&table, &bytes);
        let well_formed = decode(&accepted(&table), &bytes).is_some();
        assert_eq!(answer.number, if well_formed { 0 } else { 11 });
        assert_eq!(answer.place, 0);
    }
}

/// Runs from halls that no run reached: the hall stays well formed, and a run
/// cut into calls comes out as the run in one.
#[test]
fn runs_from_any_hall() {
    let mut random = Random::new(23);
    let mut rules = [0; 14];
    for _ in 0..4_000 {
        let bytes = any_table(&mut random);
        let table = accepted(&bytes);
        let hall = generator::hall(&mut random, &table);
        let how_many = random.below(30);
        let list = generator::choices(&mut random, &table, &hall, how_many, 30);
        let whole = run_choices(&table, &hall, Tally::FRESH, &list);
        for rule in &whole.rules {
            rules[usize::from(*rule)] += 1;
        }
        assert_eq!(whole.rules.len(), whole.done);
        assert_well_formed(&table, &whole.hall);
        let mut stored = encode(&hall);
        let mut tally = Tally::FRESH;
        let mut at = 0;
        let mut done = 0;
        for choice in all_choices(&list[..whole.place]) {
            let answer = calls::run(&bytes, &mut stored, &mut tally, &choice.bytes());
            assert_eq!(answer, run_answer(0, choice.size(), 1));
            at += choice.size();
            done += 1;
        }
        let rest = calls::run(&bytes, &mut stored, &mut tally, &list[at..]);
        assert_eq!(rest, run_answer(whole.number, 0, 0));
        assert_eq!(done, whole.done);
        assert_eq!(stored, encode(&whole.hall));
        assert_eq!(tally, whole.tally);
    }
    for (rule, times) in rules.iter().enumerate().skip(1) {
        assert!(*times > 100, "rule {rule} seen {times} times");
    }
}

#[test]
fn opening_writes_every_byte() {
    let mut random = Random::new(24);
    for _ in 0..300 {
        let bytes = any_table(&mut random);
        let table = accepted(&bytes);
        let mut dirty = vec![0; HALL_BYTES];
        for byte in &mut dirty {
            *byte = random.byte();
        }
        // Opening does not test what stood there.
        assert_eq!(calls::open(&bytes, &mut dirty), Ok(Tally::FRESH));
        assert_eq!(dirty, opened(&bytes));
        assert_eq!(decode(&table, &dirty), Some(opening(&table)));
    }
}

#[test]
fn opening_by_hand() {
    let mut table = Builder::new();
    let end = table.end(); // 0
    let nil = table.nil(); // 1
    let put = table.put(7); // 2
    let take = table.take(3, put); // 3
    let again = table.repeated_take(4, nil); // 4
    let block = table.atom(end); // 5
    let a = table.side_by_side(nil, take); // 6
    let b = table.side_by_side(put, nil); // 7
    let c = table.side_by_side(block, again); // 8
    let d = table.side_by_side(b, c); // 9
    let all = table.side_by_side(a, d); // 10
    table.tokens(15, 200);
    table.tokens(0, 1);
    let mut expected = vec![0; HALL_BYTES];
    expected[0] = 1;
    expected[15] = 200;
    expected[16..24].copy_from_slice(&[20, 3, 24, 7, 20, 5, 20, 4]);
    assert_eq!(opened(&table.start(all)), expected);
}

/// The bytes of an attempt, written out by hand.
#[test]
fn an_attempt_by_hand() {
    let mut table = Builder::new();
    let end = table.end();
    let read = table.rd(2, end);
    let either = table.or_else(read, end);
    let write = table.wt(1, either);
    let block = table.atom(write);
    table.tokens(2, 9);
    let bytes = table.start(block);
    let mut stored = opened(&bytes);
    let mut tally = Tally::FRESH;
    // ATST, AWR, AOI, ARDOK on the left.
    let choices = [1, 0, 2, 0, 0, 2, 0, 0, 2, 0, 1];
    let answer = calls::run(&bytes, &mut stored, &mut tally, &choices);
    assert_eq!(answer, run_answer(0, 11, 4));
    let mut expected = vec![0; HALL_BYTES];
    expected[2] = 9;
    expected[16..18].copy_from_slice(&[21, 4]);
    expected[18 + 2] = 9;
    expected[34] = 22;
    expected[35..40].copy_from_slice(&[23, 0, 2, 17, 2]);
    expected[54..58].copy_from_slice(&[23, 0, 1, 17]);
    assert_eq!(stored, expected);
}
