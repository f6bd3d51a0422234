//! Tables by chance: accepted ones, records with a fault now and then, bytes
//! without any form.

use reference::generator::{accepted_table, contended_table, nearly_full_table, Random, Shape};
use reference::table::byte_of;

use crate::common::answers::{table_gives, AnswerCounts, ACCEPTED};

#[test]
fn random_accepted() {
    for seed in 0..100_000 {
        let mut random = Random::new(seed);
        let table = match seed % 8 {
            0 => contended_table(&mut random),
            1 => nearly_full_table(&mut random),
            _ => {
                let shape = Shape::any(&mut random);
                accepted_table(&mut random, shape)
            }
        };
        table_gives(&table, ACCEPTED);
    }
}

/// A table that is written record by record, with a fault now and then.
struct FaultyTable {
    bytes: Vec<u8>,
    terms: usize,
    processes: Vec<u8>,
    expressions: Vec<u8>,
    /// One field in so many is any byte at all.
    one_in: usize,
    /// The kinds of its terms.
    kinds: &'static [u8],
}

/// All kinds alike; and two lists that let the measures grow.
const ALL_KINDS: &[u8] = &[1, 2, 3, 4, 5, 6, 7, 8, 9, 10, 11];
const WIDE_KINDS: &[u8] = &[1, 2, 3, 5, 5, 5, 5];
const LONG_KINDS: &[u8] = &[1, 6, 7, 8, 9, 9, 9, 10, 10, 10, 11, 11];

impl FaultyTable {
    fn new(random: &mut Random) -> FaultyTable {
        FaultyTable {
            bytes: Vec::new(),
            terms: 0,
            processes: Vec::new(),
            expressions: Vec::new(),
            one_in: [10, 100, 1000][random.below(3)],
            kinds: [ALL_KINDS, ALL_KINDS, WIDE_KINDS, LONG_KINDS][random.below(4)],
        }
    }

    fn any(&self, random: &mut Random) -> Option<u8> {
        (random.below(self.one_in) == 0).then(|| random.byte())
    }

    fn tray(&self, random: &mut Random) -> u8 {
        self.any(random).unwrap_or(random.byte_below(16))
    }

    /// A reference to one of these, a late one more often; or to any term.
    fn reference(&self, random: &mut Random, terms: &[u8]) -> u8 {
        let late = terms.len().saturating_sub(3);
        let from = if random.percent(60) { late } else { 0 };
        let term = random.pick(&terms[from..]);
        let stray = random.below(self.one_in) == 0;
        let term = term.filter(|_| !stray);
        let term = term.unwrap_or(random.byte_below(self.terms + 1));
        self.any(random).unwrap_or(term)
    }

    fn record(&mut self, random: &mut Random) {
        // Tokens records soon use up the trays, so they are rare.
        let kind = if random.below(60) == 0 {
            12
        } else {
            self.kinds[random.below(self.kinds.len())]
        };
        let tray = self.tray(random);
        let process = self.reference(random, &self.processes);
        let expression = self.reference(random, &self.expressions);
        let record = match kind {
            1 | 7 | 8 => vec![kind],
            2 => vec![kind, tray],
            3 | 4 => vec![kind, tray, process],
            5 => vec![kind, process, self.reference(random, &self.processes)],
            6 => vec![kind, expression],
            9 | 10 => vec![kind, tray, expression],
            11 => vec![kind, expression, self.reference(random, &self.expressions)],
            _ => vec![kind, tray, random.byte_below(40)],
        };
        let needed = match kind {
            3..=5 => self.processes.len(),
            6 | 9..=11 => self.expressions.len(),
            _ => 1,
        };
        // Seldom a record that cannot be right.
        if needed == 0 && random.percent(90) {
            return;
        }
        self.bytes.extend(record);
        if kind <= 6 {
            self.processes.push(byte_of(self.terms));
        } else if kind <= 11 {
            self.expressions.push(byte_of(self.terms));
        }
        self.terms += usize::from(kind <= 11);
    }
}

/// Mostly short; a tenth of them goes on until something is wrong, if only the
/// number of terms.
fn faulty_table(random: &mut Random) -> Vec<u8> {
    let mut table = FaultyTable::new(random);
    let records = if random.percent(10) {
        240
    } else {
        random.below(30)
    };
    for _ in 0..records {
        table.record(random);
    }
    let start = table.reference(random, &table.processes);
    table.bytes.extend([13, start]);
    match random.below(20) {
        0 => table.bytes.push(random.byte()),
        1 => table.bytes.truncate(random.below(table.bytes.len())),
        2 => {
            let at = random.below(table.bytes.len());
            table.bytes[at] = random.byte();
        }
        _ => {}
    }
    table.bytes
}

#[test]
fn random_records() {
    let mut counts = AnswerCounts::default();
    let mut random = Random::new(9);
    for _ in 0..200_000 {
        counts.compare(&faulty_table(&mut random));
    }
    counts.at_least([
        30_000, 1_400, 1_700, 600, 7_500, 40_000, 7_000, 1_400, 1_000, 3_300,
    ]);
}

/// Bytes without any form, from all values or from small ones.
#[test]
fn random_bytes() {
    let mut counts = AnswerCounts::default();
    let mut random = Random::new(10);
    for round in 0..1_000_000 {
        let length = random.below(48);
        let bound = [256, 17, 14, 13][round % 4];
        let table: Vec<u8> = (0..length).map(|_| random.byte_below(bound)).collect();
        counts.compare(&table);
    }
    counts.at_least([
        5, 180_000, 14_000, 0, 6_000, 270_000, 3_000, 0, 2_700, 15_000,
    ]);
}
