//! Tables that are refused, 1 to 9: the same at every turn, with nothing laid
//! down or left.

use reference::build::Builder;
use ruonfidd::{opening_stations, opening_turn, opening_turns, Refusal};

use crate::common::answers::table_gives;
use crate::common::turns::refused_at_every_turn;

/// A table of each refusal, with its place.
fn of_each() -> [(Vec<u8>, u8, usize); 12] {
    let mut wide = Builder::new();
    let put = wide.put(0);
    let all = wide.copies(put, 65);
    let wide = wide.start(all);
    let last_pair = 2 + 3 * 63;
    let too_many = [vec![1; 201], vec![13, 0]].concat();
    [
        (vec![0], 1, 0),
        (vec![1, 14], 1, 1),
        (vec![1, 2], 2, 1),
        (too_many, 3, 200),
        (vec![2, 16, 13, 0], 4, 0),
        (vec![1, 5, 0, 1, 13, 1], 5, 1),
        (vec![7, 3, 0, 0, 13, 1], 6, 1),
        (wide, 7, last_pair),
        (vec![12, 0, 1, 12, 0, 2, 1, 13, 0], 8, 3),
        (vec![], 9, 0),
        (vec![1, 2, 3], 9, 3),
        (vec![2, 5, 5, 0, 0, 13, 1, 1], 9, 7),
    ]
}

#[test]
fn each_refusal() {
    let all = of_each();
    for (table, number, place) in &all {
        table_gives(table, (*number, *place));
        refused_at_every_turn(table, (*number, *place));
    }
    let mut numbers: Vec<u8> = all.iter().map(|(_, number, _)| *number).collect();
    numbers.dedup();
    assert_eq!(numbers, [1, 2, 3, 4, 5, 6, 7, 8, 9]);
}

/// The calls of the package say it as other calls do, before any turn is made.
#[test]
fn by_the_package() {
    for (table, number, place) in of_each() {
        let refused = |refusal: Refusal| (refusal.number, refusal.place) == (number, place);
        assert!(opening_turn(&table, 0).is_err_and(refused));
        assert!(opening_turn(&table, usize::MAX).is_err_and(refused));
        assert!(opening_turns(&table).is_err_and(refused));
        assert!(opening_stations(&table).is_err_and(refused));
    }
}

/// Every front part of a table that opens several stations is refused at every
/// turn, although the bytes behind it are there in memory.
#[test]
fn cut_anywhere() {
    let table = [1, 2, 4, 3, 0, 0, 5, 1, 0, 5, 3, 2, 12, 0, 9, 13, 4];
    let starts = [0, 1, 3, 6, 9, 12, 15];
    for cut in 0..table.len() {
        let record = *starts.iter().rfind(|at| **at <= cut).expect("a record");
        let number = if record == cut { 9 } else { 2 };
        refused_at_every_turn(&table[..cut], (number, record));
    }
    assert!(opening_turn(&table, 0).is_ok());
}
