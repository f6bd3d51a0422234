//! The hall that owns its bytes.

use std::mem::size_of;

use reference::generator::{self, Random};
use reference::hall::encode;
use ruonfidd::{Hall, Refusal, Tally, HALL_BYTES};

use crate::common::answers::opened;
use crate::common::by_chance::{accepted, any_hall, any_table};
use crate::common::by_hand::{attempt, each_kind, hall, joined, leaf, leaning_left};
use crate::common::by_hand::{EXAMPLE, FORK, PUTTING, WAITING};

/// The hall of these stations over the table with a term of each kind.
fn hall_of(stations: &[u8]) -> Hall {
    Hall::from_bytes(&each_kind::table(), &hall(stations)).expect("a well formed hall")
}

#[test]
fn opened_as_in_lent_memory() {
    let (hall, tally) = Hall::open(&EXAMPLE).expect("an accepted table");
    assert_eq!(tally, Tally::fresh());
    assert!(hall.as_bytes() == &*opened(&EXAMPLE));
}

#[test]
fn opening_is_refused_by_the_table() {
    let refusal = Hall::open(&EXAMPLE[..12]).unwrap_err();
    assert_eq!(refusal.number, Refusal::START_NOT_LAST);
    assert_eq!(refusal.place, 12);
}

#[test]
fn stored_and_read_again() {
    let mut random = Random::new(20);
    for round in 0..500 {
        let bytes = any_table(&mut random);
        let stored = encode(&any_hall(&mut random, &accepted(&bytes), round));
        let hall = Hall::from_bytes(&bytes, &stored).expect("a well formed hall");
        assert!(hall.as_bytes() == &*stored);
        assert!(hall.as_ref() == &*stored);
        assert!(*hall.into_bytes() == *stored);
    }
}

#[test]
fn stored_bytes_are_tested() {
    let number = |table: &[u8], bytes: &[u8]| {
        let refusal = Hall::from_bytes(table, bytes).unwrap_err();
        assert!(refusal.number < 10 || refusal.place == 0);
        refusal.number
    };
    let mut stored = opened(&EXAMPLE);
    assert_eq!(number(&[], &stored), Refusal::START_NOT_LAST);
    assert_eq!(number(&[], &[]), Refusal::START_NOT_LAST);
    assert_eq!(number(&EXAMPLE, &[]), Refusal::HALL_LENGTH);
    assert_eq!(number(&EXAMPLE, &stored[1..]), Refusal::HALL_LENGTH);
    stored[17] = 0;
    assert_eq!(number(&EXAMPLE, &stored), Refusal::HALL_FORM);
}

/// A hall holds no table: it is tested with each one that it is used with.
#[test]
fn checked_with_another_table() {
    let (hall, _) = Hall::open(&EXAMPLE).expect("an accepted table");
    assert_eq!(hall.check(&EXAMPLE), Ok(()));
    let refusal = hall.check(&[1, 13, 0]).unwrap_err();
    assert_eq!((refusal.number, refusal.place), (Refusal::HALL_FORM, 0));
    let refusal = hall.check(&[1]).unwrap_err();
    assert_eq!(
        (refusal.number, refusal.place),
        (Refusal::START_NOT_LAST, 1)
    );
}

#[test]
fn counts_of_the_trays() {
    let mut stored = hall(&[PUTTING, 0]);
    for (tray, count) in (0..16).enumerate() {
        stored[tray] = 255 - count;
    }
    let hall = Hall::from_bytes(&EXAMPLE, &stored).expect("a well formed hall");
    assert_eq!(hall.counts(), &stored[..16]);
    assert_eq!(hall.counts().len(), 16);
}

#[test]
fn equal_where_the_bytes_are_equal() {
    let one = hall_of(&[PUTTING, 1]);
    assert_eq!(one, one.clone());
    assert_eq!(one, hall_of(&[PUTTING, 1]));
    assert_ne!(one, hall_of(&[PUTTING, 2]));
    assert_ne!(one, hall_of(&[]));
}

#[test]
fn a_clone_has_its_own_bytes() {
    let one = hall_of(&[PUTTING, 1]);
    let copy = one.clone();
    assert_ne!(one.as_bytes().as_ptr(), copy.as_bytes().as_ptr());
    drop(one);
    assert_eq!(copy, hall_of(&[PUTTING, 1]));
}

/// Counts, stations and used bytes, also where the last bytes used are zeros.
#[test]
fn shown_in_one_line() {
    let mut stored = hall(&[]);
    stored[0] = 7;
    let empty = Hall::from_bytes(&EXAMPLE, &stored).expect("a well formed hall");
    assert_eq!(
        format!("{empty:?}"),
        "Hall { counts: [7, 0, 0, 0, 0, 0, 0, 0, 0, 0, 0, 0, 0, 0, 0, 0], \
         stations: 0, used_bytes: 16, .. }"
    );
    let extent = |stations: &[u8], expected: &str| {
        let shown = format!("{:?}", hall_of(stations));
        assert!(shown.ends_with(expected), "{shown}");
        assert!(shown.len() < 200, "{shown}");
    };
    let end = leaf(each_kind::END, 0, &[]);
    let fork = joined(&[&[FORK], &end, &end]);
    extent(&[PUTTING, 0], "stations: 1, used_bytes: 18, .. }");
    extent(
        &[WAITING, each_kind::TAKE, PUTTING, 0],
        "stations: 2, used_bytes: 20, .. }",
    );
    extent(
        &attempt(each_kind::BLOCK, &end),
        "stations: 1, used_bytes: 53, .. }",
    );
    extent(
        &joined(&[&attempt(each_kind::BLOCK, &fork), &[PUTTING, 0]]),
        "stations: 2, used_bytes: 75, .. }",
    );
    let full = leaning_left(&vec![leaf(each_kind::END, 16, &[24; 16]); 8]);
    extent(
        &attempt(each_kind::BLOCK, &full).repeat(64),
        "stations: 64, used_bytes: 11344, .. }",
    );
}

/// The extent shown is that of the hall, whatever its stations are.
#[test]
fn shown_with_its_own_extent() {
    let mut random = Random::new(21);
    for round in 0..500 {
        let bytes = any_table(&mut random);
        let table = accepted(&bytes);
        let hall = any_hall(&mut random, &table, round);
        let stored = encode(&hall);
        let owned = Hall::from_bytes(&bytes, &stored).expect("a well formed hall");
        let stations = hall.stations.len();
        assert!(format!("{owned:?}").contains(&format!("stations: {stations}, ")));
        // One station more begins where the others end.
        if stations < 64 {
            let shown = format!("{owned:?}");
            let (_, used) = shown.split_once("used_bytes: ").expect("used bytes");
            let (used, _) = used.split_once(',').expect("used bytes");
            let used: usize = used.parse().expect("a number");
            let mut more = stored.clone();
            more[used..used + 2].copy_from_slice(&[PUTTING, 3]);
            assert!(Hall::from_bytes(&bytes, &more).is_ok());
            assert!(stored[used..].iter().all(|byte| *byte == 0));
        }
    }
}

#[test]
fn sent_to_another_thread() {
    let (hall, _) = Hall::open(&EXAMPLE).expect("an accepted table");
    let same = hall.clone();
    let back = std::thread::spawn(move || {
        assert_eq!(hall.check(&EXAMPLE), Ok(()));
        hall
    });
    assert_eq!(back.join().expect("the thread's hall"), same);
}

#[test]
fn as_large_as_a_pointer() {
    assert_eq!(size_of::<Hall>(), size_of::<usize>());
    let (hall, _) =
        Hall::open(&generator::nearly_full_table(&mut Random::new(1))).expect("an accepted table");
    assert_eq!(hall.into_bytes().len(), HALL_BYTES);
}
