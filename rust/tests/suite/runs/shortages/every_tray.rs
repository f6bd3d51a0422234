//! Every tray and every shortage that a log can come to, at both rules, in halls
//! by hand.

use reference::moves::{ARDOK, ATOK};

use super::{commit, commit_fails, counts, log, read, read_fails};

/// Calls with every tray, every number of reads and every count below it, and with
/// how many are missing then: each tray is short by 1 to 16.
fn every_shortage(mut call: impl FnMut(u8, usize, u8, u8)) {
    for tray in 0..16 {
        for (reads, most) in (1..=16).zip(1..) {
            for count in 0..most {
                call(tray, reads, count, most - count);
            }
        }
    }
}

#[test]
fn of_a_commit() {
    every_shortage(|tray, reads, count, by| {
        let all = log(&[(tray, reads)]);
        commit_fails(counts(&[(tray, count)]), &all, (tray, by));
    });
}

/// The read that fails is the last of them.
#[test]
fn of_a_read() {
    every_shortage(|tray, reads, count, by| {
        let so_far = log(&[(tray, reads - 1)]);
        read_fails(counts(&[(tray, count)]), &so_far, tray, (tray, by));
    });
}

/// Where there are just enough, nothing is told; so it is with more.
#[test]
fn of_none() {
    for tray in 0..16 {
        for (reads, enough) in (1..=16).zip(1..) {
            for count in [enough, enough + 1, 255] {
                let there = counts(&[(tray, count)]);
                let all = log(&[(tray, reads)]);
                assert_eq!(commit(there, [0; 16], &all), (ATOK, None));
                assert_eq!(read([0; 16], there, &all[1..], tray), (ARDOK, None));
            }
        }
    }
}

/// With writes to the tray in the log, as many as fit and before or behind the
/// reads: they are no tokens.
#[test]
fn beside_writes() {
    for tray in 0..16 {
        for (reads, by) in [(1, 1), (2, 2), (8, 8), (15, 15)] {
            let there = counts(&[(tray, 0)]);
            let reads = log(&[(tray, reads)]);
            let writes = vec![tray + 16; 16 - reads.len()];
            commit_fails(there, &[&reads[..], &writes].concat(), (tray, by));
            commit_fails(there, &[&writes[..], &reads].concat(), (tray, by));
            let so_far = [&writes[..], &reads[1..]].concat();
            read_fails(there, &so_far, tray, (tray, by));
        }
    }
}
