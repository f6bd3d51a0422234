//! Well-formed halls with some damage.

use reference::generator::{self, Random};
use reference::hall::{encode, Station};
use ruonfidd::HALL_BYTES;

use crate::common::answers::hall_answer;
use crate::common::by_chance::{accepted, any_hall, any_table, reached_hall};

/// Values around every limit of a stored hall.
const VALUES: [u8; 19] = [
    0, 1, 2, 7, 15, 16, 17, 19, 20, 21, 22, 23, 24, 25, 31, 32, 199, 254, 255,
];

/// Every byte of the used part and a few behind it, set to each of the values.
#[test]
fn each_byte_of_small_halls() {
    let mut random = Random::new(4);
    let (mut well_formed, mut refused) = (0, 0);
    // Stations that wait, that put, attempts, attempts with a fork.
    let mut kinds = [0; 4];
    for round in 0..80 {
        let bytes = any_table(&mut random);
        let table = accepted(&bytes);
        let hall = if round % 2 == 0 {
            let mut hall = reached_hall(&mut random, &table, 12);
            hall.stations.truncate(4);
            hall
        } else {
            let stations = random.between(1, 4);
            generator::hall_with(&mut random, &table, stations)
        };
        for station in &hall.stations {
            match station {
                Station::Waiting { .. } => kinds[0] += 1,
                Station::Putting { .. } => kinds[1] += 1,
                Station::Attempt { tree, .. } => {
                    kinds[2] += 1;
                    kinds[3] += usize::from(tree.size() > 1);
                }
            }
        }
        let stored = encode(&hall);
        let used = HALL_BYTES - stored.iter().rev().take_while(|byte| **byte == 0).count();
        for at in 0..(used + 3).min(HALL_BYTES) {
            for value in VALUES {
                let mut hall = stored.clone();
                hall[at] = value;
                match hall_answer(&bytes, &hall) {
                    (0, 0) => well_formed += 1,
                    (11, 0) => refused += 1,
                    other => panic!("{other:?}"),
                }
            }
        }
    }
    assert!(kinds.iter().all(|times| *times > 10), "{kinds:?}");
    assert!(
        well_formed > 5_000 && refused > 20_000,
        "{well_formed} {refused}"
    );
}

/// Bytes changed, lost and put in.
#[test]
fn random_damage() {
    let mut random = Random::new(5);
    let (mut well_formed, mut refused) = (0, 0);
    for round in 0..20_000 {
        let bytes = any_table(&mut random);
        let table = accepted(&bytes);
        let stored = encode(&any_hall(&mut random, &table, round));
        match hall_answer(&bytes, &generator::damaged_hall(&mut random, &stored)) {
            (0, 0) => well_formed += 1,
            (11, 0) => refused += 1,
            other => panic!("{other:?}"),
        }
    }
    assert!(
        well_formed > 2_000 && refused > 10_000,
        "{well_formed} {refused}"
    );
}
