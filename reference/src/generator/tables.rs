//! Tables by chance: accepted ones, and ones with some damage.

use super::Random;
use crate::build::Builder;
use crate::table::{body_length, byte_of, measures_fit, Term, MOST_TERMS, TRAYS};

/// How a random table shall look.
#[derive(Clone, Copy, Debug)]
pub struct Shape {
    /// How many terms to draw before those that join up the start term.
    pub terms: usize,
    /// Trays 0 to one below this are used; 1 to 16.
    pub trays: usize,
    /// How many processes stand side by side in the start term.
    pub stations: usize,
}

impl Shape {
    /// Mostly small, so that stations meet at the same trays; now and then up
    /// to the limits.
    pub fn any(random: &mut Random) -> Shape {
        if random.percent(10) {
            Shape {
                terms: random.between(1, 140),
                trays: random.between(1, TRAYS),
                stations: random.between(1, 60),
            }
        } else {
            Shape::small(random)
        }
    }

    /// At most 24 terms, 4 trays and 6 stations.
    pub fn small(random: &mut Random) -> Shape {
        Shape {
            terms: random.between(1, 24),
            trays: random.between(1, 4),
            stations: random.between(1, 6),
        }
    }
}

/// A table under way: its bytes, its terms, and the trays already given.
struct Draft {
    bytes: Vec<u8>,
    terms: Vec<Term>,
    given: [bool; TRAYS],
}

impl Draft {
    /// No record yet.
    fn new() -> Draft {
        Draft {
            bytes: Vec::new(),
            terms: Vec::new(),
            given: [false; TRAYS],
        }
    }

    fn processes(&self) -> Vec<usize> {
        (0..self.terms.len())
            .filter(|term| self.terms[*term].is_process())
            .collect()
    }

    fn expressions(&self) -> Vec<usize> {
        (0..self.terms.len())
            .filter(|term| self.terms[*term].is_expression())
            .collect()
    }

    /// The number of the term, which is added unless it is there already.
    fn must_add(&mut self, term: Term) -> usize {
        if let Some(number) = self.terms.iter().position(|there| *there == term) {
            return number;
        }
        assert!(self.add(term), "a term over the limits");
        self.terms.len() - 1
    }

    /// Adds the term if the table stays within the limits.
    fn add(&mut self, term: Term) -> bool {
        if self.terms.len() == MOST_TERMS {
            return false;
        }
        self.terms.push(term);
        if !measures_fit(&self.terms, self.terms.len() - 1) {
            self.terms.pop();
            return false;
        }
        self.bytes.extend(record_of(term));
        true
    }

    /// The table's bytes, with a start record for this term.
    fn start(mut self, term: usize) -> Vec<u8> {
        self.bytes.extend([13, byte_of(term)]);
        self.bytes
    }
}

/// The record of a term.
pub fn record_of(term: Term) -> Vec<u8> {
    let kind = term.kind();
    match term {
        Term::Nil | Term::End | Term::Retry => vec![kind],
        Term::Put { tray } => vec![kind, tray],
        Term::Take { tray, then } | Term::RepeatedTake { tray, then } => {
            vec![kind, tray, byte_of(then)]
        }
        Term::Rd { tray, rest } | Term::Wt { tray, rest } => vec![kind, tray, byte_of(rest)],
        Term::SideBySide { left, right } | Term::OrElse { left, right } => {
            vec![kind, byte_of(left), byte_of(right)]
        }
        Term::Atom { body } => vec![kind, byte_of(body)],
    }
}

/// A random table that is accepted.
pub fn accepted_table(random: &mut Random, shape: Shape) -> Vec<u8> {
    let mut draft = Draft::new();
    for _ in 0..shape.terms {
        maybe_tokens(random, &mut draft, shape.trays);
        let term = random_term(random, &draft, shape.trays);
        draft.add(term);
    }
    if draft.processes().is_empty() {
        draft.add(Term::Nil);
    }
    let start = join_stations(random, &mut draft, shape.stations);
    for _ in 0..shape.trays {
        maybe_tokens(random, &mut draft, shape.trays);
    }
    draft.start(start)
}

fn maybe_tokens(random: &mut Random, draft: &mut Draft, trays: usize) {
    let tray = random.below(trays);
    if random.percent(25) && !draft.given[tray] {
        draft.given[tray] = true;
        let count = match random.below(12) {
            0 => 254,
            1 => 255,
            2 => random.byte_between(1, 255),
            _ => random.byte_between(1, 3),
        };
        draft.bytes.extend([12, byte_of(tray), count]);
    }
}

/// A term that refers to earlier terms of the right class. Its measures are
/// not looked at.
fn random_term(random: &mut Random, draft: &Draft, trays: usize) -> Term {
    let tray = random.byte_below(trays);
    let process = some_of(random, &draft.processes());
    let other_process = some_of(random, &draft.processes());
    let expression = some_of(random, &draft.expressions());
    let other_expression = some_of(random, &draft.expressions());
    match (random.below(100), process, expression) {
        (0..=3, _, _) => Term::Nil,
        (4..=11, _, _) => Term::Put { tray },
        (12..=19, Some(then), _) => Term::Take { tray, then },
        (20..=25, Some(then), _) => Term::RepeatedTake { tray, then },
        (26..=33, Some(left), _) => Term::SideBySide {
            left,
            right: other_process.unwrap_or(left),
        },
        (34..=49, _, Some(body)) => Term::Atom { body },
        (50..=53, _, _) => Term::Retry,
        (54..=67, _, Some(rest)) => Term::Rd { tray, rest },
        (68..=79, _, Some(rest)) => Term::Wt { tray, rest },
        (80..=94, _, Some(left)) => Term::OrElse {
            left,
            right: other_expression.unwrap_or(left),
        },
        _ => Term::End,
    }
}

/// One of the terms, a late one more often.
fn some_of(random: &mut Random, terms: &[usize]) -> Option<usize> {
    if terms.len() > 4 && random.percent(50) {
        random.pick(&terms[terms.len() - 4..])
    } else {
        random.pick(terms)
    }
}

/// Joins so many processes side by side, as far as the limits allow. Blocks
/// are preferred, since most of the engine's work is theirs.
fn join_stations(random: &mut Random, draft: &mut Draft, stations: usize) -> usize {
    let processes = draft.processes();
    let blocks: Vec<usize> = processes
        .iter()
        .copied()
        .filter(|term| matches!(draft.terms[*term], Term::Atom { .. }))
        .collect();
    let mut start = *processes.last().expect("a table with a process");
    for _ in 1..stations {
        let from = if random.percent(40) && !blocks.is_empty() {
            &blocks
        } else {
            &processes
        };
        let other = random.pick(from).expect("a table with a process");
        let (left, right) = if random.percent(50) {
            (start, other)
        } else {
            (other, start)
        };
        if draft.add(Term::SideBySide { left, right }) {
            start = draft.terms.len() - 1;
        }
    }
    start
}

/// A random table that is accepted and whose stations want the same tokens:
/// blocks that read and write a few trays with few tokens, and takes and puts
/// at the same trays.
pub fn contended_table(random: &mut Random) -> Vec<u8> {
    let mut draft = Draft::new();
    let trays = random.between(1, 4);
    for tray in 0..trays {
        if random.percent(60) {
            let count = if random.percent(5) {
                random.byte_between(253, 255)
            } else {
                random.byte_between(1, 2)
            };
            draft.bytes.extend([12, byte_of(tray), count]);
        }
    }
    let mut start = contended_process(random, &mut draft, trays, 2);
    for _ in 0..random.between(1, 6) {
        // One more process adds fewer than 60 terms.
        if draft.terms.len() > 120 {
            break;
        }
        let other = contended_process(random, &mut draft, trays, 2);
        start = draft.must_add(Term::SideBySide {
            left: start,
            right: other,
        });
    }
    draft.start(start)
}

/// A process with at most so many processes nested in it.
fn contended_process(random: &mut Random, draft: &mut Draft, trays: usize, depth: usize) -> usize {
    let tray = random.byte_below(trays);
    let chance = random.below(100);
    if depth > 0 && chance < 25 {
        let then = contended_process(random, draft, trays, depth - 1);
        let term = match random.below(3) {
            0 => Term::Take { tray, then },
            1 => Term::RepeatedTake { tray, then },
            _ => Term::SideBySide {
                left: then,
                right: then,
            },
        };
        return draft.must_add(term);
    }
    if chance < 80 {
        let body = if random.percent(4) {
            let branches = random.between(1, 2);
            contended_expression(random, draft, trays, branches, 16, 96)
        } else {
            let branches = random.between(1, 4);
            contended_expression(random, draft, trays, branches, 5, 65)
        };
        return draft.must_add(Term::Atom { body });
    }
    draft.must_add(if chance < 97 {
        Term::Put { tray }
    } else {
        Term::Nil
    })
}

/// An expression with at most so many branches and this length; so many times
/// in a hundred it goes on with a read or a write.
fn contended_expression(
    random: &mut Random,
    draft: &mut Draft,
    trays: usize,
    branches: usize,
    length: usize,
    percent_on: usize,
) -> usize {
    let tray = random.byte_below(trays);
    if branches > 1 && random.percent(60) {
        let in_left = random.between(1, branches - 1);
        let in_right = branches - in_left;
        let left = contended_expression(random, draft, trays, in_left, length, percent_on);
        let right = contended_expression(random, draft, trays, in_right, length, percent_on);
        return draft.must_add(Term::OrElse { left, right });
    }
    if length > 0 && random.percent(percent_on) {
        let rest = contended_expression(random, draft, trays, branches, length - 1, percent_on);
        return draft.must_add(if random.percent(60) {
            Term::Rd { tray, rest }
        } else {
            Term::Wt { tray, rest }
        });
    }
    draft.must_add(if random.percent(90) {
        Term::End
    } else {
        Term::Retry
    })
}

/// A random table that opens a hall of 51 to 63 stations, on two trays: takes
/// that open into several puts, and blocks that write several tokens. Its runs
/// soon meet the limit of 64 stations.
pub fn nearly_full_table(random: &mut Random) -> Vec<u8> {
    let mut table = Builder::new();
    let end = table.end();
    let nil = table.nil();
    let put = table.put(0);
    let three = table.copies(put, 3);
    let take = table.take(1, three);
    let again = table.repeated_take(0, three);
    let quiet = table.repeated_take(0, nil);
    let mut body = end;
    for _ in 0..random.between(1, 4) {
        body = table.wt(1, body);
    }
    let body = table.rd(0, body);
    let block = table.atom(body);
    let parts = [put, take, again, quiet, block];
    let mut all = block;
    for _ in 0..random.between(50, 62) {
        let part = parts[random.below(parts.len())];
        all = table.side_by_side(all, part);
    }
    table.tokens(0, random.byte_between(1, 9));
    table.tokens(1, random.byte_between(1, 9));
    table.start(all)
}

/// Bytes that look like a table and are often refused: an accepted table with
/// some damage, or random bytes.
pub fn damaged_table(random: &mut Random) -> Vec<u8> {
    if random.percent(10) {
        let length = random.below(40);
        return (0..length).map(|_| random.byte_below(16)).collect();
    }
    let shape = Shape::any(random);
    let mut bytes = accepted_table(random, shape);
    match random.below(20) {
        0 => {
            add_nils(random, &mut bytes);
            return bytes;
        }
        1 => {
            add_growing_terms(random, &mut bytes);
            return bytes;
        }
        _ => {}
    }
    for _ in 0..random.between(1, 3) {
        damage_once(random, &mut bytes);
    }
    bytes
}

/// About as many nils before the start record as bring the terms to 200.
fn add_nils(random: &mut Random, bytes: &mut Vec<u8>) {
    let starts = record_starts(bytes);
    let terms = starts.iter().filter(|at| bytes[**at] <= 11).count();
    let last = *starts.last().expect("a table with a start record");
    let nils = (MOST_TERMS + random.below(3)).saturating_sub(1 + terms);
    bytes.splice(last..last, vec![1; nils]);
}

/// Terms before the start record that grow until one of their measures may be
/// over its limit.
fn add_growing_terms(random: &mut Random, bytes: &mut Vec<u8>) {
    let starts = record_starts(bytes);
    let terms = byte_of(starts.iter().filter(|at| bytes[**at] <= 11).count());
    let (first, kind, times) = match random.below(4) {
        0 => (1, 5, random.between(5, 7)),
        1 => (7, 11, random.between(2, 4)),
        2 => (8, 9, random.between(15, 17)),
        _ => (7, 10, random.between(15, 17)),
    };
    let mut records = vec![first];
    for newest in (terms..).take(times) {
        match kind {
            5 | 11 => records.extend([kind, newest, newest]),
            _ => records.extend([kind, random.byte_below(TRAYS), newest]),
        }
    }
    let last = *starts.last().expect("a table with a start record");
    bytes.splice(last..last, records);
}

/// One byte or record lost, added or changed.
fn damage_once(random: &mut Random, bytes: &mut Vec<u8>) {
    let at = random.below(bytes.len() + 1);
    match random.below(8) {
        0 => bytes.truncate(at),
        1 => bytes.insert(at, random.byte()),
        2 => bytes.insert(at, random.byte_below(16)),
        3 if at < bytes.len() => {
            bytes.remove(at);
        }
        4 if at < bytes.len() => bytes[at] = random.byte(),
        5 if at < bytes.len() => bytes[at] = random.byte_below(20),
        6 => bytes.push(random.byte_below(16)),
        _ => insert_record(random, bytes),
    }
}

/// A random record between two records, before the start record.
fn insert_record(random: &mut Random, bytes: &mut Vec<u8>) {
    let starts = record_starts(bytes);
    let at = random.pick(&starts).unwrap_or(0);
    let kind = random.byte_between(1, 12);
    let mut record = vec![kind];
    for _ in 0..body_length(kind).unwrap_or(0) {
        record.push(random.byte_below(20));
    }
    bytes.splice(at..at, record);
}

/// The offsets at which records begin, as far as they can be stepped over.
pub fn record_starts(bytes: &[u8]) -> Vec<usize> {
    let mut starts = Vec::new();
    let mut offset = 0;
    while offset < bytes.len() {
        starts.push(offset);
        let Some(body) = body_length(bytes[offset]) else {
            return starts;
        };
        offset += 1 + body;
    }
    starts
}
