//! Sessions from stored halls, sound and damaged. What is refused is refused with
//! the second implementation's number and place.

use reference::calls;
use reference::generator::{self, Random};
use reference::hall::encode;
use reference::run::Tally as SecondTally;
use ruonfidd::{Refusal, Session, Tally, HALL_BYTES};

use super::{tally_of, Both};
use crate::common::by_chance::{accepted, any_hall, any_table};
use crate::common::by_hand::EXAMPLE;
use crate::common::seeds::{say, seeds};

/// Restores and compares: the number, 0 where there is a session.
#[track_caller]
fn restored(table: &[u8], hall: &[u8], tally: Tally) -> u8 {
    let second = calls::check_hall(table, hall);
    match Session::restore(table, hall, tally) {
        Ok(session) => {
            assert_eq!(second.number, 0, "{table:?}");
            assert_eq!(session.table(), table);
            assert!(session.hall().as_bytes()[..] == *hall);
            assert_eq!(session.tally(), tally);
        }
        Err(refusal) => {
            let told = (refusal.number, refusal.place);
            assert_eq!(told, (second.number, second.place), "{table:?}");
        }
    }
    second.number
}

/// What is refused is told with its number and its place, each one by hand.
#[test]
fn refused_one_by_one() {
    let fresh = Tally::fresh();
    let sound = Both::open(&EXAMPLE).hall;
    let refused = |table: &[u8], hall: &[u8]| {
        let Refusal { number, place, .. } = Session::restore(table, hall, fresh).unwrap_err();
        (number, place)
    };
    assert_eq!(refused(&EXAMPLE[..13], &sound), (2, 12));
    assert_eq!(refused(&EXAMPLE[..12], &[]), (9, 12));
    assert_eq!(refused(&EXAMPLE, &[]), (10, 0));
    assert_eq!(refused(&EXAMPLE, &sound[1..]), (10, 0));
    assert_eq!(refused(&EXAMPLE, &[&sound[..], &[0]].concat()), (10, 0));
    let mut other = sound.clone();
    other[17] = 2;
    assert_eq!(refused(&EXAMPLE, &other), (11, 0));
    // A hall of another table.
    assert_eq!(refused(&[1, 13, 0], &sound), (11, 0));
    assert_eq!(restored(&EXAMPLE, &sound, fresh), 0);
}

/// Any tally is taken, and counted on from; at its top it stays.
#[test]
fn any_tally() {
    let sound = Both::open(&EXAMPLE).hall;
    for commits in [0, 7, u32::MAX - 1, u32::MAX] {
        let tally = Tally {
            commits,
            failed: 8,
            retries: 9,
        };
        let mut session = Session::restore(&EXAMPLE, &sound, tally).expect("a hall");
        assert_eq!(session.tally(), tally);
        assert!(session.follow(9).still);
        let counted = Tally {
            commits: commits.saturating_add(1),
            ..tally
        };
        assert_eq!(session.tally(), counted);
    }
}

/// Halls that runs reached and that none did, whole and damaged; tables damaged.
#[test]
fn by_chance() {
    let mut met = [0_usize; 12];
    for seed in seeds("stored sessions", 3_000) {
        let mut random = Random::new(seed);
        let bytes = any_table(&mut random);
        let sort = random.below(2);
        let hall = any_hall(&mut random, &accepted(&bytes), sort);
        let sound = encode(&hall);
        let tally = Tally {
            commits: u32::from(random.byte()),
            failed: u32::from(random.byte()),
            retries: u32::from(random.byte()),
        };
        let session = Session::restore(&bytes, &sound, tally).expect("a sound hall");
        let mut damaged = generator::damaged_hall(&mut random, &sound);
        if random.percent(10) {
            damaged.resize(random.between(HALL_BYTES - 1, HALL_BYTES + 1), 0);
        }
        let table = if random.percent(30) {
            generator::damaged_table(&mut random)
        } else {
            bytes.clone()
        };
        for hall in [&sound, &damaged] {
            for table in [&bytes, &table] {
                met[usize::from(restored(table, hall, tally))] += 1;
            }
            // The session's own check is of its table.
            let second = calls::check_hall(&bytes, hall);
            let checked = session.check(hall);
            let told = checked.map_err(|it| (it.number, it.place));
            match second.number {
                0 => assert_eq!(told, Ok(())),
                number => assert_eq!(told, Err((number, second.place))),
            }
        }
    }
    say(&format!("stored sessions: numbers 0 to 11 {met:?}"));
    for (number, times) in met.iter().enumerate() {
        assert!(*times >= 5, "{number} too seldom: {met:?}");
    }
}

/// A restored session goes on as the one that was stored, also from halls that no
/// run reached.
#[test]
fn goes_on_as_before() {
    for seed in seeds("sessions that go on", 500) {
        let mut random = Random::new(seed);
        let bytes = any_table(&mut random);
        let sort = random.below(2);
        let hall = encode(&any_hall(&mut random, &accepted(&bytes), sort));
        let tally = SecondTally::FRESH;
        let session = Session::restore(&bytes, &hall, tally_of(tally)).expect("a sound hall");
        let mut both = Both {
            session,
            table: bytes,
            hall,
            tally,
            made: Vec::new(),
        };
        both.follow(random.below(6));
        both.stored_and_restored();
        both.follow(random.below(6));
    }
}
