//! The order of the tests: the first refused record decides, and on one record
//! the lowest number.

use reference::build::Builder;

use crate::common::answers::table_gives;
use crate::common::by_hand::joined;

/// Terms 0 and 1 are a process and an expression, then terms at the limits:
/// their numbers.
struct Front {
    table: Builder,
    wide: u8,
    eight: u8,
    long: u8,
}

/// Tray 3 has its tokens.
fn front() -> Front {
    let mut table = Builder::new();
    let put = table.put(0);
    let end = table.end();
    let wide = (0..6).fold(put, |all, _| table.side_by_side(all, all));
    let eight = (0..3).fold(end, |all, _| table.or_else(all, all));
    let long = (0..16).fold(end, |all, _| table.wt(1, all));
    table.tokens(3, 9);
    Front {
        table,
        wide,
        eight,
        long,
    }
}

impl Front {
    /// Records behind this front, each with its number: one fault alone.
    fn faults(&self) -> Vec<(u8, Vec<u8>)> {
        vec![
            (1, vec![0]),
            (1, vec![14]),
            (4, vec![2, 16]),
            (4, vec![12, 16, 1]),
            (5, vec![6, 255]),
            (5, vec![3, 0, 255]),
            (6, vec![6, 0]),
            (6, vec![5, 0, 1]),
            (7, vec![5, self.wide, 0]),
            (7, vec![11, 1, self.eight]),
            (7, vec![9, 0, self.long]),
            (8, vec![12, 3, 1]),
            (8, vec![12, 4, 0]),
        ]
    }
}

/// Two records with a fault each: the second is not looked at, whatever the two
/// numbers are.
#[test]
fn the_first_refused_record_decides() {
    let front = front();
    let bytes = front.table.bytes();
    for (number, first) in front.faults() {
        table_gives(&joined(&[&bytes, &first]), (number, bytes.len()));
        for (_, second) in front.faults() {
            let table = joined(&[&bytes, &first, &second, &[13, 0]]);
            table_gives(&table, (number, bytes.len()));
        }
        // One that is cut short comes last.
        for last in [&[2][..], &[5, 0], &[13]] {
            let table = joined(&[&bytes, &first, last]);
            table_gives(&table, (number, bytes.len()));
        }
    }
}

/// A record without a fault in between changes nothing but the place.
#[test]
fn records_before_the_refused_one_are_passed() {
    let front = front();
    for between in [&[1][..], &[7], &[2, 15], &[12, 5, 1], &[6, 1]] {
        let bytes = joined(&[&front.table.bytes(), between]);
        for (number, record) in front.faults() {
            table_gives(&joined(&[&bytes, &record]), (number, bytes.len()));
        }
    }
}

/// Each pair of tests that one record can fail together.
#[test]
fn the_lowest_number_on_one_record() {
    let Front {
        table, wide, long, ..
    } = front();
    let bytes = table.bytes();
    let gives = |record: &[u8], number| {
        table_gives(&joined(&[&bytes, record]), (number, bytes.len()));
    };
    // 2 with 4, 5, 6 and 8: the bytes that are there have the other fault.
    gives(&[9, 16], 2);
    gives(&[5, 255], 2);
    gives(&[5, 1], 2);
    gives(&[12, 3], 2);
    // 4 with 5, 6, 7 and 8.
    gives(&[3, 16, 255], 4);
    gives(&[3, 16, 1], 4);
    gives(&[9, 16, long], 4);
    gives(&[12, 16, 0], 4);
    // 5 with 6, 7 and 9.
    gives(&[5, 1, 255], 5);
    gives(&[5, wide, 255], 5);
    gives(&[13, 255, 0], 5);
    // 6 with 7 and 9.
    gives(&[5, wide, 1], 6);
    gives(&[13, 1, 0], 6);
    // 3 with 2, 4, 5, 6 and 7: two hundred terms in front.
    let mut table = table;
    while table.terms() < 200 {
        table.nil();
    }
    let bytes = table.bytes();
    let gives = |record: &[u8], number| {
        table_gives(&joined(&[&bytes, record]), (number, bytes.len()));
    };
    gives(&[2], 2);
    gives(&[2, 16], 3);
    gives(&[6, 255], 3);
    gives(&[6, 0], 3);
    gives(&[9, 0, long], 3);
    gives(&[5, wide, wide], 3);
}
