//! The printed run, from input bytes to output bytes (document 01, "The
//! printed run").

use crate::hall::{opening, Hall, Station};
use crate::run::{run_choices, RunResult, Tally};
use crate::table::{body_length, read_table, Refusal, TRAYS};

/// A longer input is answered with `long` alone.
pub const LONGEST_INPUT: usize = 16_384;

/// What the program prints for this input.
pub fn printed_run(input: &[u8]) -> Vec<u8> {
    if input.len() > LONGEST_INPUT {
        return b"long\n".to_vec();
    }
    let (table, choices) = input.split_at(table_end(input));
    let text = match read_table(table) {
        Err(Refusal { number, place }) => format!("R {number} {place} 0\n"),
        Ok(table) => {
            let first = opening(&table);
            let result = run_choices(&table, &first, Tally::FRESH, choices);
            report(&first, &result)
        }
    };
    text.into_bytes()
}

/// Where the table ends: behind the first start record on the way from record to
/// record; at the end of the input when there is none.
pub fn table_end(input: &[u8]) -> usize {
    let mut offset = 0;
    while offset < input.len() {
        let kind = input[offset];
        let Some(body) = body_length(kind) else {
            return input.len();
        };
        let next = offset + 1 + body;
        if next > input.len() {
            return input.len();
        }
        if kind == 13 {
            return next;
        }
        offset = next;
    }
    input.len()
}

fn report(first: &Hall, result: &RunResult) -> String {
    let tally = result.tally;
    let mut lines = vec![
        format!("R {} {} {}\n", result.number, result.place, result.done),
        format!("C {} {} {}\n", tally.commits, tally.failed, tally.retries),
    ];
    for tray in 0..TRAYS {
        lines.push(tray_line(
            tray,
            first.counts[tray],
            result.hall.counts[tray],
        ));
    }
    for station in &result.hall.stations {
        lines.push(station_line(station));
    }
    lines.concat()
}

/// A tray's line, or nothing when it was and is empty.
fn tray_line(tray: usize, first: u8, last: u8) -> String {
    if first == 0 && last == 0 {
        return String::new();
    }
    let net = i16::from(last) - i16::from(first);
    format!("T {tray} {first} {net} {last}\n")
}

fn station_line(station: &Station) -> String {
    match station {
        Station::Putting { tray } => format!("P {tray}\n"),
        Station::Waiting { term } => format!("W {term}\n"),
        Station::Attempt { term, tree, .. } => format!("A {term} {}\n", tree.size()),
    }
}
