//! What can happen next in a situation, one step at a time.
//!
//! A step is a put, a take, a repeated take, or a block that commits, by the
//! first way that is readable now. With notes a block may also note that way
//! and commit by it later; once the noted way is not readable any more, the
//! note is dropped. Any other attempt that will be abandoned changes nothing and
//! is left out.

use super::model::{Kind, Model, Way, MOST_STATIONS};

/// What a station did.
#[derive(Clone, Copy, Debug, PartialEq, Eq)]
pub enum Deed {
    /// It put its token.
    Put,
    /// It took a token.
    Take,
    /// It took a token and stays.
    Repeat,
    /// It committed its block by the way of this index.
    Commit(usize),
    /// It opened an attempt, for which the way of this index is the first
    /// readable one.
    Note(usize),
    /// Its attempt failed, and its block waits again.
    Drop,
}

impl Deed {
    /// Whether it changed what the trays have or who stands there.
    #[must_use]
    pub fn has_effect(self) -> bool {
        !matches!(self, Deed::Note(_) | Deed::Drop)
    }
}

/// A station of a code, and what it did.
#[derive(Clone, Copy, Debug, PartialEq, Eq)]
pub struct Step {
    /// The station.
    pub code: u8,
    /// What it did.
    pub deed: Deed,
}

/// The limits that can forbid a step.
#[derive(Clone, Copy, Debug, PartialEq, Eq)]
pub enum Limit {
    /// 19: more than 64 stations would stand.
    Stations,
    /// 20: the tray has 255.
    Tray,
}

impl Limit {
    /// The number under which the engine refuses.
    #[must_use]
    pub fn number(self) -> u8 {
        match self {
            Limit::Stations => 19,
            Limit::Tray => 20,
        }
    }
}

/// What comes of a station's try.
#[derive(Clone, Copy, Debug, PartialEq, Eq)]
pub enum Tried<'a> {
    /// The situation after it.
    To(&'a [u8]),
    /// All is there, and a limit forbids it.
    Barred(Limit),
}

/// Makes steps, in memory of its own.
#[derive(Clone, Debug)]
pub struct Stepper<'m> {
    model: &'m Model,
    /// For each code what its stations may do: the first of it that the counts
    /// allow.
    tries: Vec<Vec<Try>>,
    next: Vec<u8>,
}

/// Something that a station may do, laid out so that one look tells most of
/// those that can't be done.
#[derive(Clone, Debug)]
pub struct Try {
    code: u8,
    deed: Deed,
    /// The slots that it takes from, a bit for each.
    slots: u16,
    /// Whether one token of each of them is enough.
    single: bool,
    /// How many tokens it takes from which slots.
    needs: Vec<(usize, u8)>,
    /// The slot that it puts a token into.
    puts: Option<usize>,
    /// The codes of what stands there afterwards, sorted, without the station
    /// itself.
    opens: Vec<u8>,
    /// Whether the station itself stays.
    stays: bool,
    /// The note of this way that it may take instead.
    note: Option<Box<Try>>,
}

impl Try {
    fn of(code: u8, deed: Deed, needs: &[(usize, u8)], opens: &[u8]) -> Try {
        Try {
            code,
            deed,
            slots: needs.iter().fold(0, |slots, (slot, _)| slots | 1 << slot),
            single: needs.iter().all(|(_, need)| *need == 1),
            needs: needs.to_vec(),
            puts: None,
            opens: opens.to_vec(),
            stays: false,
            note: None,
        }
    }

    /// All that the stations of a code may do, the first one first.
    fn all(model: &Model, code: u8) -> Vec<Try> {
        let commit =
            |(index, way): (usize, &Way)| Try::of(code, Deed::Commit(index), &way.needs, &way.puts);
        match model.kind(code) {
            None => Vec::new(),
            Some(Kind::Put { slot }) => vec![Try {
                puts: Some(*slot),
                ..Try::of(code, Deed::Put, &[], &[])
            }],
            Some(Kind::Take {
                slot, opens, stays, ..
            }) => {
                let mut opens = opens.clone();
                if *stays {
                    // It stands there before and after.
                    let itself = opens.iter().position(|other| *other == code);
                    itself.map(|at| opens.remove(at));
                }
                let deed = if *stays { Deed::Repeat } else { Deed::Take };
                vec![Try {
                    stays: *stays,
                    ..Try::of(code, deed, &[(*slot, 1)], &opens)
                }]
            }
            Some(Kind::Block { ways, noted, .. }) => {
                let mut tries: Vec<Try> = ways.iter().enumerate().map(commit).collect();
                // The first way needs no note.
                for ((way, one), noted) in tries.iter_mut().enumerate().skip(1).zip(noted) {
                    let note = Try::of(code, Deed::Note(way), &[], &[*noted]);
                    one.note = Some(Box::new(note));
                }
                tries
            }
            Some(Kind::Noted { block, way }) => {
                let ways = model.ways(code).iter().enumerate();
                let mut tries: Vec<Try> = ways.skip(*way).take(1).map(commit).collect();
                tries.push(Try::of(code, Deed::Drop, &[], &[*block]));
                tries
            }
        }
    }

    /// The station, and what it does.
    #[must_use]
    pub fn step(&self) -> Step {
        Step {
            code: self.code,
            deed: self.deed,
        }
    }

    /// Whether the counts have all that it takes; `present` has a bit for each
    /// slot with a token.
    fn allowed(&self, counts: &[u8], present: u16) -> bool {
        let enough = |(slot, need): &(usize, u8)| counts.get(*slot).is_some_and(|it| it >= need);
        self.slots & !present == 0 && (self.single || self.needs.iter().all(enough))
    }

    /// The limit that forbids it.
    fn barred(&self, counts: &[u8], stations: usize) -> Option<Limit> {
        let full = |slot| counts.get(slot) == Some(&u8::MAX);
        if self.puts.is_some_and(full) {
            return Some(Limit::Tray);
        }
        let after = stations + self.opens.len() - usize::from(!self.stays);
        (after > MOST_STATIONS).then_some(Limit::Stations)
    }

    /// Changes the situation to what it is afterwards, where `trays` counts
    /// stand before the stations.
    fn make(&self, next: &mut Vec<u8>, trays: usize) {
        self.make_counts(next);
        let standing = next.get(trays..).unwrap_or(&[]);
        let place = trays + standing.partition_point(|other| *other < self.code);
        if !self.stays && place < next.len() {
            next.remove(place);
        }
        for code in &self.opens {
            open(next, trays, *code);
        }
    }

    /// The same where behind the counts stands how many stations there are of
    /// each code.
    pub fn make_numbers(&self, numbers: &mut [u8], trays: usize) {
        self.make_counts(numbers);
        if !self.stays {
            if let Some(number) = numbers.get_mut(trays + usize::from(self.code)) {
                *number = number.saturating_sub(1);
            }
        }
        for code in &self.opens {
            if let Some(number) = numbers.get_mut(trays + usize::from(*code)) {
                *number = number.saturating_add(1);
            }
        }
    }

    fn make_counts(&self, counts: &mut [u8]) {
        for (slot, need) in &self.needs {
            if let Some(count) = counts.get_mut(*slot) {
                *count = count.saturating_sub(*need);
            }
        }
        if let Some(count) = self.puts.and_then(|slot| counts.get_mut(slot)) {
            *count = count.saturating_add(1);
        }
    }
}

/// Puts a code among the sorted ones behind the counts.
fn open(next: &mut Vec<u8>, trays: usize, code: u8) {
    let standing = next.get(trays..).unwrap_or(&[]);
    let at = trays + standing.partition_point(|other| *other < code);
    next.insert(at, code);
}

impl<'m> Stepper<'m> {
    /// Makes steps of this model.
    #[must_use]
    pub fn new(model: &'m Model) -> Stepper<'m> {
        let codes = 0..=u8::MAX;
        let codes = codes.take(model.kinds().len());
        Stepper {
            model,
            tries: codes.map(|code| Try::all(model, code)).collect(),
            next: Vec::with_capacity(model.trays().len() + MOST_STATIONS + 1),
        }
    }

    /// Shows every step from a situation, and every one that a limit forbids.
    /// Of equal stations one is tried.
    pub fn each(&mut self, situation: &[u8], mut show: impl FnMut(Step, Tried<'_>)) {
        let (counts, stations) = self.model.split(situation);
        let mut next = std::mem::take(&mut self.next);
        let mut last = None;
        let codes = stations.iter().copied();
        let codes = codes.filter(|code| last.replace(*code) != Some(*code));
        self.each_try(counts, codes, stations.len(), |one, barred| {
            if let Some(limit) = barred {
                return show(one.step(), Tried::Barred(limit));
            }
            next.clear();
            next.extend_from_slice(situation);
            one.make(&mut next, counts.len());
            show(one.step(), Tried::To(&next));
        });
        self.next = next;
    }

    /// Shows what can be done with these counts by stations of these codes, each
    /// given once, so many stations standing there; and the limit that forbids
    /// it.
    #[inline]
    pub fn each_try(
        &self,
        counts: &[u8],
        codes: impl Iterator<Item = u8>,
        stations: usize,
        mut show: impl FnMut(&Try, Option<Limit>),
    ) {
        let bit = |present: u16, count: &u8| present << 1 | u16::from(*count > 0);
        let present = counts.iter().rev().fold(0, bit);
        for code in codes {
            let tries = self.tries.get(usize::from(code));
            let mut tries = tries.map_or(&[][..], Vec::as_slice).iter();
            let Some(one) = tries.find(|one| one.allowed(counts, present)) else {
                continue;
            };
            show(one, one.barred(counts, stations));
            if let Some(note) = &one.note {
                show(note, None);
            }
        }
    }
}
