//! Calls that run choices or suggest one, each compared with the second
//! implementation's: answer, every byte of the hall, every number of the tally.

use std::fmt;

use reference::calls::{self, StepAnswer};
use reference::choice::Choice;
use reference::hall::{decode, Station};
use reference::moves::{ATOK, IN, REP};
use reference::run::{run_choices, Tally};
use reference::table::{read_table, Term};
use ruonfidd::HALL_BYTES;

use crate::ffi;

use super::choices::step_bytes;
use super::shortages::{told_bytes, Seen, ShortMet, Told};
use super::wrong_suggestions::{first_of, WRONG};

/// What was met over many calls.
#[derive(Clone, Debug, Default, PartialEq, Eq)]
pub(crate) struct Met {
    /// Calls of the library that were compared.
    pub(crate) calls: usize,
    /// How often each rule was done.
    pub(crate) rules: [usize; 14],
    /// How often each number was answered, 0 for none.
    pub(crate) numbers: [usize; 21],
    /// How often 19 stopped an IN, a REP and an ATOK, by the rule's number.
    pub(crate) too_many: [usize; 8],
    /// How often a rule that is counted found its counter at the top.
    pub(crate) at_the_top: [usize; 3],
    /// Suggestions, and halls found still.
    pub(crate) suggested: usize,
    pub(crate) still: usize,
    /// Suggestions where more than one choice was accepted.
    pub(crate) of_several: usize,
    /// How often each wrong way to suggest would have given something else.
    pub(crate) wrong: [usize; WRONG.len()],
    /// What steps told of shortages.
    pub(crate) short: ShortMet,
}

/// Adds numbers that were counted elsewhere, each to its own.
pub(crate) fn add_each<const N: usize>(sums: &mut [usize; N], more: &[usize; N]) {
    for (sum, more) in sums.iter_mut().zip(more) {
        *sum += more;
    }
}

impl Met {
    /// What was met here or there.
    pub(crate) fn add(&mut self, other: &Met) {
        self.calls += other.calls;
        add_each(&mut self.rules, &other.rules);
        add_each(&mut self.numbers, &other.numbers);
        add_each(&mut self.too_many, &other.too_many);
        add_each(&mut self.at_the_top, &other.at_the_top);
        self.suggested += other.suggested;
        self.still += other.still;
        self.of_several += other.of_several;
        add_each(&mut self.wrong, &other.wrong);
        self.short.add(&other.short);
    }

    /// Each rule, 1 to 13, was done so often.
    #[track_caller]
    pub(crate) fn rules_at_least(&self, least: usize) {
        for (rule, times) in self.rules.iter().enumerate().skip(1) {
            assert!(*times >= least, "rule {rule} too seldom: {self}");
        }
    }

    /// Each of these numbers was answered so often.
    #[track_caller]
    pub(crate) fn numbers_at_least(&self, numbers: impl Iterator<Item = usize>, least: usize) {
        for number in numbers {
            assert!(self.numbers[number] >= least, "{number} too seldom: {self}");
        }
    }

    /// 19 was answered so often at each of the three rules that open stations.
    #[track_caller]
    pub(crate) fn too_many_at_least(&self, least: usize) {
        for rule in [IN, REP, ATOK] {
            assert!(
                self.too_many[usize::from(rule)] >= least,
                "19 at rule {rule} too seldom: {self}"
            );
        }
    }

    /// Each wrong way to suggest would have been noticed so often.
    #[track_caller]
    pub(crate) fn wrong_at_least(&self, least: usize) {
        for (times, wrong) in self.wrong.iter().zip(WRONG) {
            assert!(*times >= least, "{}: too seldom: {self}", wrong.name);
        }
    }
}

impl fmt::Display for Met {
    fn fmt(&self, out: &mut fmt::Formatter<'_>) -> fmt::Result {
        write!(
            out,
            "{} calls; rules 1 to 13 {:?}; numbers 0 to 20 {:?}; 19 at IN {}, REP {}, ATOK {}; \
             counters at the top {:?}; {} suggestions, {} of several, {} still; \
             wrong ways to suggest that would be noticed {:?}; {}",
            self.calls,
            &self.rules[1..],
            self.numbers,
            self.too_many[usize::from(IN)],
            self.too_many[usize::from(REP)],
            self.too_many[usize::from(ATOK)],
            self.at_the_top,
            self.suggested,
            self.of_several,
            self.still,
            self.wrong,
            self.short
        )
    }
}

fn words(tally: Tally) -> [u32; 3] {
    [tally.commits, tally.failed, tally.retries]
}

/// One table, hall and tally on which call after call is made, by the engine
/// and by the second implementation. Both begin with the same bytes and never
/// see each other's.
#[derive(Clone, Debug)]
pub(crate) struct Sequence {
    pub(crate) table: Vec<u8>,
    pub(crate) hall: Vec<u8>,
    pub(crate) tally: Tally,
    by_second: Vec<u8>,
    tally_of_second: Tally,
    pub(crate) met: Met,
}

impl Sequence {
    pub(crate) fn new(table: &[u8], hall: &[u8], tally: Tally) -> Sequence {
        Sequence {
            table: table.to_vec(),
            hall: hall.to_vec(),
            tally,
            by_second: hall.to_vec(),
            tally_of_second: tally,
            met: Met::default(),
        }
    }

    /// The hall that a table opens, with the fresh tally.
    #[track_caller]
    pub(crate) fn open(table: &[u8]) -> Sequence {
        let mut hall = vec![170; HALL_BYTES];
        assert_eq!(ffi::open_hall(table, &mut hall, &mut 0), 0);
        Sequence::new(table, &hall, Tally::FRESH)
    }

    /// The same table, hall and tally, with nothing met.
    pub(crate) fn copy(&self) -> Sequence {
        Sequence {
            met: Met::default(),
            ..self.clone()
        }
    }

    /// Hall and tally are those of the second implementation.
    #[track_caller]
    fn compare(&mut self, what: &dyn fmt::Debug) {
        self.met.calls += 1;
        if self.hall != self.by_second {
            let at = self
                .hall
                .iter()
                .zip(&self.by_second)
                .position(|(a, b)| a != b);
            panic!("byte {at:?} differs after {what:?}: {self}");
        }
        assert_eq!(self.tally, self.tally_of_second, "after {what:?}: {self}");
    }

    /// Runs choices: number, place and choices done.
    #[track_caller]
    pub(crate) fn run(&mut self, choices: &[u8]) -> (u8, usize, usize) {
        self.note_run(choices);
        let mut tally = words(self.tally);
        let (mut place, mut done) = (usize::MAX, usize::MAX);
        let number = ffi::run(
            &self.table,
            &mut self.hall,
            choices,
            &mut tally,
            &mut place,
            &mut done,
        );
        let second = calls::run(
            &self.table,
            &mut self.by_second,
            &mut self.tally_of_second,
            choices,
        );
        self.set_tally(tally);
        let answer = (number, place, done);
        let expected = (second.number, second.place, second.done);
        assert_eq!(answer, expected, "{choices:?} on {self}");
        self.compare(&choices);
        answer
    }

    /// Makes one choice of any kind: number, place and rule.
    #[track_caller]
    pub(crate) fn step(&mut self, choice: [u8; 3]) -> (u8, usize, u8) {
        self.step_told(choice).0
    }

    /// The same, and what was short.
    #[track_caller]
    pub(crate) fn step_told(&mut self, choice: [u8; 3]) -> ((u8, usize, u8), Told) {
        let [kind, position, node] = choice;
        let bytes = match kind {
            1 => vec![kind, position],
            2 => vec![kind, position, node],
            _ => vec![kind],
        };
        self.note_run(&bytes);
        let seen = Seen::before(&self.table, &self.by_second, choice);
        let mut tally = words(self.tally);
        let (mut place, mut rule, mut shortage) = (usize::MAX, u8::MAX, [u8::MAX; 2]);
        let number = ffi::step(
            &self.table,
            &mut self.hall,
            choice,
            &mut tally,
            &mut rule,
            &mut shortage,
            &mut place,
        );
        let second = calls::step(
            &self.table,
            &mut self.by_second,
            &mut self.tally_of_second,
            &bytes,
        );
        self.set_tally(tally);
        let (expected, told) = match second {
            StepAnswer::Moved { rule, short } => (
                (0, bytes.len(), rule),
                short.map(|short| (short.tray, short.by)),
            ),
            StepAnswer::Refused(refusal) => ((refusal.number, refusal.place, 0), None),
        };
        let answer = (number, place, rule);
        assert_eq!(answer, expected, "{choice:?} on {self}");
        assert_eq!(shortage, told_bytes(told), "{choice:?} on {self}");
        match seen {
            Some(seen) if number == 0 => self.met.short.note(&seen.moved_by(rule), told),
            _ => assert_eq!(told, None, "{choice:?} on {self}"),
        }
        self.compare(&choice);
        (answer, told)
    }

    /// The choice suggested, the first that is accepted; none where none is.
    #[track_caller]
    pub(crate) fn suggest(&mut self) -> Option<Choice> {
        let (mut place, mut choice) = (usize::MAX, [u8::MAX; 3]);
        let number = ffi::suggest(&self.table, &self.hall, &mut choice, &mut place);
        let second = calls::suggest(&self.table, &self.by_second);
        let expected = match second {
            Ok(None) => (0, 0, [0; 3]),
            Ok(Some(first)) => (0, 0, step_bytes(first, 0)),
            Err(refusal) => (refusal.number, refusal.place, [0; 3]),
        };
        assert_eq!((number, place, choice), expected, "{self}");
        self.met.numbers[usize::from(number)] += 1;
        self.note_suggestion();
        self.compare(&"a suggestion");
        second.ok().flatten()
    }

    /// What a suggestion meets, by the second implementation: how many choices
    /// are accepted, and what wrong ways to suggest would make of them.
    fn note_suggestion(&mut self) {
        let Ok(accepted) = calls::accepted_choices(&self.table, &self.by_second) else {
            return;
        };
        let all: Vec<[u8; 3]> = accepted.into_iter().map(|it| step_bytes(it, 0)).collect();
        let Some(first) = first_of(&all) else {
            self.met.still += 1;
            return;
        };
        self.met.suggested += 1;
        self.met.of_several += usize::from(all.len() > 1);
        for (times, wrong) in self.met.wrong.iter_mut().zip(WRONG) {
            *times += usize::from((wrong.suggests)(&all) != Some(first));
        }
    }

    fn set_tally(&mut self, [commits, failed, retries]: [u32; 3]) {
        self.tally = Tally {
            commits,
            failed,
            retries,
        };
    }

    /// What a run of these choices will meet, by the second implementation.
    fn note_run(&mut self, choices: &[u8]) {
        let Ok(table) = read_table(&self.table) else {
            let number = calls::check_table(&self.table).number;
            self.met.numbers[usize::from(number)] += 1;
            return;
        };
        let Some(hall) = decode(&table, &self.by_second) else {
            let number = calls::check_hall(&self.table, &self.by_second).number;
            self.met.numbers[usize::from(number)] += 1;
            return;
        };
        let result = run_choices(&table, &hall, self.tally_of_second, choices);
        self.met.numbers[usize::from(result.number)] += 1;
        let mut tally = self.tally_of_second;
        for rule in result.rules {
            self.met.rules[usize::from(rule)] += 1;
            let counter = match rule {
                7 => Some((0, tally.commits)),
                6 => Some((1, tally.failed)),
                5 => Some((2, tally.retries)),
                _ => None,
            };
            if let Some((counter, u32::MAX)) = counter {
                self.met.at_the_top[counter] += 1;
            }
            tally = tally.after(rule);
        }
        if result.number == 19 {
            let position = usize::from(choices[result.place + 1]);
            let rule = match result.hall.stations[position] {
                Station::Waiting { term } => match table.terms[term] {
                    Term::Take { .. } => IN,
                    _ => REP,
                },
                _ => ATOK,
            };
            self.met.too_many[usize::from(rule)] += 1;
        }
    }
}

/// The table and the used part of the hall, for a message.
impl fmt::Display for Sequence {
    fn fmt(&self, out: &mut fmt::Formatter<'_>) -> fmt::Result {
        let zeros = self.by_second.iter().rev().take_while(|byte| **byte == 0);
        let used = self.by_second.len() - zeros.count();
        write!(
            out,
            "table {:?}, hall {:?} and zeros, tally {:?}",
            self.table,
            &self.by_second[..used],
            self.tally_of_second
        )
    }
}
