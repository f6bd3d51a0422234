//! The iterators over turns and over stations.

use reference::build::Builder;
use reference::generator::Random;
use ruonfidd::{opening_stations, opening_turn, opening_turns, Refusal, Station, Turn};

use crate::common::by_chance::{any_table, tree_table};
use crate::common::by_hand::EXAMPLE;
use crate::common::seeds::seeds;

/// Nils, and between them a put into tray 4 and a take.
fn some_stations() -> (Vec<u8>, [Station; 2]) {
    let mut table = Builder::new();
    let nil = table.nil();
    let put = table.put(4);
    let take = table.take(0, nil);
    let front = table.side_by_side(nil, put);
    let back = table.side_by_side(nil, take);
    let back = table.side_by_side(back, nil);
    let all = table.side_by_side(front, back);
    let stations = [
        Station::Putting { tray: 4 },
        Station::Waiting { term: take },
    ];
    (table.start(all), stations)
}

#[test]
fn turns_are_those_of_the_calls() -> Result<(), Refusal> {
    let (table, _) = some_stations();
    let mut turns = opening_turns(&table)?;
    for number in 0..11 {
        let turn = opening_turn(&table, number)?;
        assert_eq!(turn.is_some(), number < 9, "turn {number}");
        assert_eq!(turns.next(), turn, "turn {number}");
    }
    Ok(())
}

#[test]
fn stations_come_without_the_turns_between_them() -> Result<(), Refusal> {
    let (table, stations) = some_stations();
    assert!(opening_stations(&table)?.eq(stations));
    assert!(opening_stations(&EXAMPLE)?.eq([Station::Waiting { term: 3 }]));
    assert!(opening_stations(&[1, 5, 0, 0, 13, 1])?.eq([]));
    Ok(())
}

/// Past their end they have nothing more, however often they are asked.
#[test]
fn they_end_and_stay_so() -> Result<(), Refusal> {
    let (table, stations) = some_stations();
    let mut laid = opening_stations(&table)?;
    let mut turns = opening_turns(&table)?;
    assert_eq!(laid.by_ref().count(), stations.len());
    assert_eq!(turns.by_ref().count(), 9);
    for _ in 0..300 {
        assert_eq!((laid.next(), turns.next()), (None, None));
        assert_eq!(laid.size_hint(), (0, Some(0)));
        assert_eq!(turns.size_hint(), (0, Some(0)));
    }
    Ok(())
}

/// A copy goes on from where the other stands, and by itself.
#[test]
fn a_copy_goes_its_own_way() -> Result<(), Refusal> {
    let (table, [first, second]) = some_stations();
    let mut stations = opening_stations(&table)?;
    assert_eq!(stations.next(), Some(first));
    let copy = stations.clone();
    assert_eq!(stations.next(), Some(second));
    assert_eq!(stations.next(), None);
    assert!(copy.eq([second]));
    Ok(())
}

/// How many items are told to come, at every moment, holds what does come.
#[track_caller]
fn hints_are_true<T>(mut items: impl Iterator<Item = T> + Clone) {
    loop {
        let (least, most) = items.size_hint();
        let come = items.clone().count();
        assert!(least <= come, "at least {least}, and {come} come");
        let most = most.expect("a bound");
        assert!(come <= most, "at most {most}, and {come} come");
        if items.next().is_none() {
            return;
        }
    }
}

#[test]
fn how_many_are_told_to_come() {
    for seed in seeds("hints of openings", 60) {
        let mut random = Random::new(seed);
        for table in [any_table(&mut random), tree_table(&mut random)] {
            hints_are_true(opening_turns(&table).expect("an accepted table"));
            hints_are_true(opening_stations(&table).expect("an accepted table"));
        }
    }
}

/// On the widest openings nothing is told too low.
#[test]
fn how_many_are_told_to_come_of_the_widest() -> Result<(), Refusal> {
    let mut table = Builder::new();
    let put = table.put(0);
    let left = table.copies(put, 64);
    let right = (1..64).fold(put, |all, _| table.side_by_side(put, all));
    for start in [left, right] {
        let table = table.start(start);
        assert_eq!(opening_turns(&table)?.size_hint(), (1, Some(127)));
        assert_eq!(opening_stations(&table)?.size_hint(), (0, Some(64)));
        assert_eq!(opening_turns(&table)?.count(), 127);
        assert_eq!(opening_stations(&table)?.count(), 64);
        hints_are_true(opening_turns(&table)?);
        hints_are_true(opening_stations(&table)?);
    }
    Ok(())
}

/// After each turn the stations laid down so far, followed by those still to come,
/// are all of them.
#[test]
fn laid_and_still_to_come() -> Result<(), Refusal> {
    let (table, stations) = some_stations();
    let mut turns = opening_turns(&table)?;
    let mut so_far = Vec::new();
    while let Some(Turn { laid, .. }) = turns.next() {
        so_far.extend(laid);
        let to_come = turns.clone().filter_map(|turn| turn.laid);
        assert!(so_far.iter().copied().chain(to_come).eq(stations));
    }
    assert_eq!(so_far, stations);
    Ok(())
}
