//! Refusals 1 to 11: the first test that fails decides, and hall and tally stay
//! as they are.

use reference::generator::{self, Random};
use reference::hall::encode;
use reference::run::Tally;
use ruonfidd::HALL_BYTES;

use crate::common::answers::opened;
use crate::common::by_chance::{accepted, any_hall, any_table};
use crate::common::by_hand::EXAMPLE;
use crate::common::calls::{Met, Sequence};
use crate::common::seeds::seeds;

const TALLY: Tally = Tally {
    commits: 7,
    failed: 8,
    retries: 9,
};

/// Every call on this table and hall is refused with this number and place, and
/// leaves hall and tally.
#[track_caller]
fn all_refused(table: &[u8], hall: &[u8], number: u8, place: usize) {
    let mut sequence = Sequence::new(table, hall, TALLY);
    for choices in [&[][..], &[1, 0], &[2, 0, 0], &[0], &[1]] {
        assert_eq!(sequence.run(choices), (number, place, 0));
    }
    for choice in [[1, 0, 0], [2, 0, 0], [0, 0, 0]] {
        assert_eq!(sequence.step(choice), (number, place, 0));
    }
    assert_eq!(sequence.suggest(), None);
    assert_eq!(sequence.met.numbers[usize::from(number)], 9);
    assert!(sequence.hall == hall);
    assert_eq!(sequence.tally, TALLY);
}

#[test]
fn by_the_table() {
    let hall = opened(&EXAMPLE);
    let mut too_many = vec![1; 201];
    too_many.extend([13, 0]);
    let mut too_large = vec![7];
    for number in 0..17 {
        too_large.extend([9, 0, number]);
    }
    let cases: [(&[u8], u8, usize); 11] = [
        (&[], 9, 0),
        (&[0], 1, 0),
        (&[1, 2], 2, 1),
        (&too_many, 3, 200),
        (&[2, 16, 13, 0], 4, 0),
        (&[1, 13, 1], 5, 1),
        (&[7, 13, 0], 6, 1),
        (&too_large, 7, 49),
        (&[1, 12, 0, 0, 13, 0], 8, 1),
        (&[1, 1], 9, 2),
        (&[1, 13, 0, 0], 9, 3),
    ];
    for (table, number, place) in cases {
        // The hall is not looked at.
        for hall in [&hall[..], &hall[1..], &[]] {
            all_refused(table, hall, number, place);
        }
    }
}

#[test]
fn by_the_halls_length() {
    let hall = opened(&EXAMPLE);
    let mut longer = hall.clone();
    longer.push(0);
    for hall in [&hall[1..], &hall[..16], &[], &longer] {
        all_refused(&EXAMPLE, hall, 10, 0);
    }
}

#[test]
fn by_the_halls_form() {
    let mut hall = opened(&EXAMPLE);
    hall[17] = 2; // an expression waits
    all_refused(&EXAMPLE, &hall, 11, 0);
    hall[17] = 4; // no term
    all_refused(&EXAMPLE, &hall, 11, 0);
    all_refused(&EXAMPLE, &vec![255; HALL_BYTES], 11, 0);
    // Bytes behind the zeros.
    let mut hall = opened(&EXAMPLE);
    hall[HALL_BYTES - 1] = 1;
    all_refused(&EXAMPLE, &hall, 11, 0);
}

/// Damage by chance to table or hall, with all three calls.
#[test]
fn by_chance() {
    let mut met = Met::default();
    for seed in seeds("refused by table or hall", 2_000) {
        let mut random = Random::new(seed);
        let good = any_table(&mut random);
        let table = accepted(&good);
        let hall = encode(&any_hall(&mut random, &table, usize::from(seed % 2 == 0)));
        let (bytes, hall) = match seed % 4 {
            0 => (generator::damaged_table(&mut random), hall),
            1 => (good, hall[..random.below(HALL_BYTES)].to_vec()),
            _ => (good, generator::damaged_hall(&mut random, &hall)),
        };
        let mut sequence = Sequence::new(&bytes, &hall, TALLY);
        let choices = [1, random.byte_below(4), 2, random.byte_below(4), 0];
        let refused = (1..=11).contains(&sequence.copy().run(&choices).0);
        sequence.suggest();
        sequence.step([1, random.byte_below(3), 0]);
        sequence.step([2, random.byte_below(3), random.byte_below(3)]);
        sequence.run(&choices);
        if refused {
            assert!(sequence.hall == hall);
            assert_eq!(sequence.tally, TALLY);
        }
        met.add(&sequence.met);
    }
    met.numbers_at_least([1, 2, 4, 5, 6, 9].into_iter(), 20);
    met.numbers_at_least([3, 7, 8].into_iter(), 4);
    met.numbers_at_least([10, 11].into_iter(), 1_000);
}
