//! Refusal 10: a hall that is too long or too short.

use reference::generator::Random;
use ruonfidd::HALL_BYTES;

use crate::common::answers::{hall_gives, opened, opened_over, ACCEPTED};
use crate::common::by_chance::any_table;
use crate::common::by_hand::EXAMPLE;

#[test]
fn one_byte_more_or_less() {
    let hall = opened(&EXAMPLE);
    hall_gives(&EXAMPLE, &hall, ACCEPTED);
    hall_gives(&EXAMPLE, &hall[..HALL_BYTES - 1], (10, 0));
    hall_gives(&EXAMPLE, &hall[1..], (10, 0));
    let mut longer = hall;
    longer.push(0);
    hall_gives(&EXAMPLE, &longer, (10, 0));
}

#[test]
fn no_bytes_at_all() {
    hall_gives(&EXAMPLE, &[], (10, 0));
    assert_eq!(opened_over(&EXAMPLE, &[]), Err((10, 0)));
}

/// The number does not depend on what stands in the bytes.
#[test]
fn before_11() {
    for length in [1, 15, 16, 17, 34, HALL_BYTES - 1, HALL_BYTES + 1] {
        for byte in [0, 20, 21, 22, 255] {
            hall_gives(&EXAMPLE, &vec![byte; length], (10, 0));
        }
    }
}

/// A refused opening writes nothing into a hall of another length.
#[test]
fn openings_in_halls_of_other_lengths() {
    let mut random = Random::new(2);
    for length in [0, 1, 16, HALL_BYTES - 1, HALL_BYTES + 1, 2 * HALL_BYTES] {
        for _ in 0..20 {
            let table = any_table(&mut random);
            let before = random.bytes(length);
            assert_eq!(opened_over(&table, &before), Err((10, 0)));
            hall_gives(&table, &before, (10, 0));
        }
    }
}

/// The table is tested first, with each of its numbers.
#[test]
fn after_1_to_9() {
    let mut too_many = vec![1; 201];
    too_many.extend([13, 0]);
    let mut too_large = vec![7];
    for number in 0..17 {
        too_large.extend([9, 0, number]);
    }
    let cases: [(&[u8], _); 10] = [
        (&[0], (1, 0)),
        (&[1, 2], (2, 1)),
        (&too_many, (3, 200)),
        (&[2, 16, 13, 0], (4, 0)),
        (&[1, 13, 1], (5, 1)),
        (&[7, 13, 0], (6, 1)),
        (&too_large, (7, 49)),
        (&[1, 12, 0, 0, 13, 0], (8, 1)),
        (&[1, 1], (9, 2)),
        (&[1, 13, 0, 0], (9, 3)),
    ];
    let mut random = Random::new(3);
    for (table, answer) in cases {
        for length in [0, 1, 16, HALL_BYTES - 1, HALL_BYTES, HALL_BYTES + 1] {
            let bytes = random.bytes(length);
            assert_eq!(opened_over(table, &bytes), Err(answer));
            hall_gives(table, &bytes, answer);
        }
    }
}
