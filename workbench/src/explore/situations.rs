//! Situations as they are kept: in fewer bytes than they are worked with.
//!
//! A hall of few sorts of stations is kept as numbers: what each tray has, then
//! how many stations of each code stand there. A number below 15 takes half a
//! byte, a larger one a byte and a half: 15, then the number in two halves. Zeros
//! at the end are left out. How many numbers there are is known from the model,
//! so two situations never look alike. Where there are more codes than that pays
//! for, a situation is kept as it is.

use crate::table::TRAYS;

use super::model::Model;
use super::steps::{Limit, Step, Stepper, Tried, Try};
use super::store::{Batch, Index, Kept, NoRoom, Store};

/// A number from here on takes three halves.
const LARGE: u8 = 15;

/// Those of all trays and all codes.
const MOST_NUMBERS: usize = TRAYS + 256;

/// Situations, each kept once, and from which each was first reached.
#[derive(Clone, Debug)]
pub struct Situations {
    store: Store,
    packing: Packing,
    /// The first code of a block with a note.
    first_noted: usize,
}

/// A little of a situation.
#[derive(Clone, Copy, Debug, PartialEq, Eq)]
pub struct Glance<'a> {
    /// What the trays in use have.
    pub counts: &'a [u8],
    /// How many stations stand there.
    pub stations: usize,
    /// Whether one of them has a note.
    pub noted: bool,
    standing: Standing<'a>,
}

/// Who stands there.
#[derive(Clone, Copy, Debug, PartialEq, Eq)]
enum Standing<'a> {
    /// How many of each code.
    Numbers(&'a [u8]),
    /// Their codes, sorted.
    Codes(&'a [u8]),
}

impl<'a> Glance<'a> {
    fn of(numbers: &'a [u8], trays: usize, first_noted: usize) -> Glance<'a> {
        let (counts, standing) = numbers.split_at(trays.min(numbers.len()));
        let mut noted = standing.iter().skip(first_noted);
        Glance {
            counts,
            stations: standing.iter().map(|number| usize::from(*number)).sum(),
            noted: noted.any(|number| *number > 0),
            standing: Standing::Numbers(standing),
        }
    }

    /// At what the trays have and the codes of the stations, sorted; all codes
    /// from the second number on are those of notes.
    #[must_use]
    pub fn of_codes(counts: &'a [u8], codes: &'a [u8], first_noted: usize) -> Glance<'a> {
        let last = codes.last().copied().map(usize::from);
        Glance {
            counts,
            stations: codes.len(),
            noted: last.is_some_and(|code| code >= first_noted),
            standing: Standing::Codes(codes),
        }
    }

    /// Shows each code that stands there, and how many of it.
    pub fn each_code(&self, mut show: impl FnMut(u8, u8)) {
        match self.standing {
            Standing::Numbers(numbers) => {
                for (code, number) in (0..=u8::MAX).zip(numbers) {
                    if *number > 0 {
                        show(code, *number);
                    }
                }
            }
            Standing::Codes(codes) => {
                let mut rest = codes;
                while let Some(code) = rest.first() {
                    let (equal, others) = rest.split_at(rest.partition_point(|it| it <= code));
                    show(*code, u8::try_from(equal.len()).unwrap_or(u8::MAX));
                    rest = others;
                }
            }
        }
    }
}

impl Situations {
    /// None yet, of this model.
    #[must_use]
    pub fn of(model: &Model) -> Situations {
        Situations {
            store: Store::new(),
            packing: Packing::of(model),
            first_noted: model.first_noted(),
        }
    }

    /// Whether they are kept as numbers, and not as they are.
    #[must_use]
    pub fn are_numbers(&self) -> bool {
        matches!(self.packing, Packing::Numbers { .. })
    }

    /// How many there are.
    #[must_use]
    pub fn len(&self) -> usize {
        self.store.len()
    }

    /// Whether there is none.
    #[must_use]
    pub fn is_empty(&self) -> bool {
        self.store.is_empty()
    }

    /// The memory in use.
    #[must_use]
    pub fn memory(&self) -> usize {
        self.store.memory()
    }

    /// The memory in use once there is room for so many more.
    #[must_use]
    pub fn memory_with(&self, more: usize) -> usize {
        self.store.memory_with(more)
    }

    /// From now on keeps for each situation the least one that it leads to.
    pub fn keep_least(&mut self) {
        self.store.keep_least();
    }

    /// Hands out for each situation the least one that it leads to; they are not
    /// kept any longer.
    pub fn take_least(&mut self) -> Option<Vec<Index>> {
        self.store.take_least()
    }

    /// Keeps them again, before anything else is kept.
    pub fn give_least(&mut self, least: Vec<Index>) {
        self.store.give_least(least);
    }

    /// Shows for each situation of a batch its number, where it is kept, and from
    /// which one it was reached.
    pub fn find_batch(&self, batch: &mut Batch, show: impl FnMut(Index, Index)) {
        self.store.find_batch(batch, show);
    }

    /// Gives a glance at a situation.
    pub fn glance(&self, index: Index, show: impl FnOnce(Glance<'_>)) {
        let packed = self.store.get(index);
        self.packing.glance(packed, self.first_noted, show);
    }

    /// From which situation this one was first reached; the first one from itself.
    #[must_use]
    pub fn parent(&self, index: Index) -> Index {
        self.store.parent(index)
    }

    /// The same for each situation, in order.
    #[must_use]
    pub fn parents(&self) -> &[Index] {
        self.store.parents()
    }

    /// All numbers, in order.
    pub fn indexes(&self) -> impl Iterator<Item = Index> {
        self.store.indexes()
    }

    /// The situations from the first one to this, each reached from the one
    /// before.
    #[must_use]
    pub fn way_to(&self, index: Index) -> Vec<Index> {
        self.store.way_to(index)
    }

    /// The situation of a number.
    #[must_use]
    pub fn get(&self, index: Index) -> Vec<u8> {
        let mut situation = Vec::new();
        self.read(index, &mut situation);
        situation
    }

    /// The same, in memory that is there already.
    pub fn read(&self, index: Index, situation: &mut Vec<u8>) {
        situation.clear();
        self.packing.unpack(self.store.get(index), situation);
    }

    /// The number of a situation that is kept.
    #[must_use]
    pub fn find(&self, situation: &[u8]) -> Option<Index> {
        self.find_with(situation, &mut Vec::new())
    }

    /// The same, with memory for the packed situation.
    #[must_use]
    pub fn find_with(&self, situation: &[u8], packed: &mut Vec<u8>) -> Option<Index> {
        packed.clear();
        if !self.packing.pack(situation, packed) {
            return None;
        }
        self.store.find(packed)
    }

    /// Keeps a situation, reached from that of the number `parent`.
    ///
    /// # Errors
    ///
    /// Where there is no room for it, or it is none of the model.
    pub fn keep(&mut self, situation: &[u8], parent: Index) -> Result<Kept, NoRoom> {
        let mut packed = Vec::new();
        if !self.packing.pack(situation, &mut packed) {
            return Err(NoRoom);
        }
        self.store.keep(&packed, parent)
    }

    /// Adds a situation to those that are to be kept together.
    pub fn add(&self, batch: &mut Batch, situation: &[u8], parent: Index) {
        batch.add_written(parent, |packed| self.packing.pack(situation, packed));
    }

    /// Shows what can be done in a situation, adds what comes of it to a batch,
    /// and gives a glance at the situation in the end.
    pub fn go_on(
        &self,
        stepper: &mut Stepper<'_>,
        index: Index,
        batch: &mut Batch,
        mut show: impl FnMut(Step, Option<Limit>),
        glance: impl FnOnce(Glance<'_>),
    ) {
        let packed = self.store.get(index);
        if let Packing::Numbers { trays, codes } = self.packing {
            let mut numbers = [0; MOST_NUMBERS];
            let numbers = read_numbers(packed, &mut numbers, trays + codes);
            let seen = Glance::of(numbers, trays, self.first_noted);
            each_next(stepper, numbers, seen, |one, barred, next| {
                show(one.step(), barred);
                if let Some(next) = next {
                    batch.add_written(index, |packed| write_numbers(next, packed));
                }
            });
            glance(seen);
        } else {
            stepper.each(packed, |step, tried| match tried {
                Tried::To(next) => {
                    show(step, None);
                    batch.add(next, index);
                }
                Tried::Barred(limit) => show(step, Some(limit)),
            });
            self.packing.glance(packed, self.first_noted, glance);
        }
    }

    /// Keeps the situations of a batch, and shows those that are new.
    ///
    /// # Errors
    ///
    /// Where there is no room for one; those before it are kept.
    pub fn keep_batch(
        &mut self,
        batch: &mut Batch,
        mut show: impl FnMut(Index, Glance<'_>),
    ) -> Result<(), NoRoom> {
        let Situations {
            store,
            packing,
            first_noted,
        } = self;
        store.keep_batch(batch, |index, packed| {
            packing.glance(packed, *first_noted, |glance| show(index, glance));
        })
    }
}

/// How situations of a model are packed.
#[derive(Clone, Copy, Debug, PartialEq, Eq)]
enum Packing {
    /// As they are, with so many trays.
    Plain { trays: usize },
    /// As numbers, of so many trays and so many codes.
    Numbers { trays: usize, codes: usize },
}

impl Packing {
    fn of(model: &Model) -> Packing {
        let (trays, codes) = (model.trays().len(), model.kinds().len());
        if (trays + codes) / 2 < model.opening().len() {
            Packing::Numbers { trays, codes }
        } else {
            Packing::Plain { trays }
        }
    }

    /// Writes the packed situation behind what is there; false where it has a
    /// code that is none of the model.
    fn pack(self, situation: &[u8], packed: &mut Vec<u8>) -> bool {
        let Packing::Numbers { trays, codes } = self else {
            packed.extend_from_slice(situation);
            return true;
        };
        let mut numbers = [0; MOST_NUMBERS];
        let numbers = numbers.get_mut(..trays + codes).unwrap_or(&mut []);
        let (counts, stations) = situation.split_at(trays.min(situation.len()));
        for (number, count) in numbers.iter_mut().zip(counts) {
            *number = *count;
        }
        for code in stations {
            let Some(number) = numbers.get_mut(trays + usize::from(*code)) else {
                return false;
            };
            *number = number.saturating_add(1);
        }
        write_numbers(numbers, packed)
    }

    /// Writes the situation behind what is there.
    fn unpack(self, packed: &[u8], situation: &mut Vec<u8>) {
        let Packing::Numbers { trays, codes } = self else {
            situation.extend_from_slice(packed);
            return;
        };
        let mut numbers = [0; MOST_NUMBERS];
        let numbers = read_numbers(packed, &mut numbers, trays + codes);
        let (counts, standing) = numbers.split_at(trays.min(numbers.len()));
        situation.extend_from_slice(counts);
        for (code, number) in (0..=u8::MAX).zip(standing) {
            for _ in 0..*number {
                situation.push(code);
            }
        }
    }

    /// Shows a little of a packed situation.
    fn glance(self, packed: &[u8], first_noted: usize, show: impl FnOnce(Glance<'_>)) {
        let Packing::Numbers { trays, codes } = self else {
            let trays = self.trays(packed.len());
            let (counts, codes) = packed.split_at(trays);
            return show(Glance::of_codes(counts, codes, first_noted));
        };
        let mut numbers = [0; MOST_NUMBERS];
        let numbers = read_numbers(packed, &mut numbers, trays + codes);
        show(Glance::of(numbers, trays, first_noted));
    }

    /// How many counts a situation of this length has.
    fn trays(self, length: usize) -> usize {
        let (Packing::Plain { trays } | Packing::Numbers { trays, .. }) = self;
        trays.min(length)
    }
}

/// Shows what can be done in a situation of numbers, and the numbers afterwards;
/// none where a limit forbids it.
fn each_next(
    stepper: &Stepper<'_>,
    numbers: &[u8],
    seen: Glance<'_>,
    mut show: impl FnMut(&Try, Option<Limit>, Option<&[u8]>),
) {
    let trays = seen.counts.len();
    let standing = (0..=u8::MAX).zip(numbers.iter().skip(trays));
    let standing = standing.filter(|(_, number)| **number > 0);
    let codes = standing.map(|(code, _)| code);
    stepper.each_try(seen.counts, codes, seen.stations, |one, barred| {
        if barred.is_some() {
            return show(one, barred, None);
        }
        let mut next = [0; MOST_NUMBERS];
        let next = next.get_mut(..numbers.len()).unwrap_or(&mut []);
        next.copy_from_slice(numbers);
        one.make_numbers(next, trays);
        show(one, None, Some(next));
    });
}

/// Packs numbers behind what is there, which can always be done.
fn write_numbers(numbers: &[u8], packed: &mut Vec<u8>) -> bool {
    let first = packed.len();
    if numbers.iter().fold(0, |most, number| (*number).max(most)) < LARGE {
        let pairs = numbers.chunks_exact(2);
        let last = pairs.remainder();
        packed.extend(pairs.map(|pair| match *pair {
            [low, high] => low | high << 4,
            _ => 0,
        }));
        packed.extend_from_slice(last);
    } else {
        let mut halves = Halves { packed, low: None };
        for number in numbers {
            halves.number(*number);
        }
        halves.last();
    }
    while packed.len() > first && packed.last() == Some(&0) {
        packed.pop();
    }
    true
}

/// The numbers that were packed, so many of them.
fn read_numbers<'a>(
    packed: &[u8],
    numbers: &'a mut [u8; MOST_NUMBERS],
    how_many: usize,
) -> &'a [u8] {
    let mut large = false;
    for (pair, byte) in numbers.chunks_exact_mut(2).zip(packed) {
        if let [low, high] = pair {
            (*low, *high) = (byte & LARGE, byte >> 4);
            large |= *low == LARGE || *high == LARGE;
        }
    }
    if large {
        numbers.fill(0);
        let mut halves = packed.iter().flat_map(|byte| [byte & LARGE, byte >> 4]);
        for number in numbers.iter_mut().take(how_many) {
            let mut half = || halves.next().unwrap_or(0);
            *number = match half() {
                LARGE => half() | half() << 4,
                small => small,
            };
        }
    }
    numbers.get(..how_many).unwrap_or(&[])
}

/// Numbers written half a byte after half a byte.
struct Halves<'a> {
    packed: &'a mut Vec<u8>,
    low: Option<u8>,
}

impl Halves<'_> {
    fn number(&mut self, number: u8) {
        if number < LARGE {
            self.half(number);
        } else {
            self.half(LARGE);
            self.half(number & LARGE);
            self.half(number >> 4);
        }
    }

    fn half(&mut self, half: u8) {
        match self.low.take() {
            None => self.low = Some(half),
            Some(low) => self.packed.push(low | half << 4),
        }
    }

    fn last(&mut self) {
        self.packed.extend(self.low.take());
    }
}

#[cfg(test)]
mod tests {
    use super::Packing;

    const NUMBERS: Packing = Packing::Numbers { trays: 2, codes: 5 };

    fn packed(situation: &[u8]) -> Option<Vec<u8>> {
        let mut packed = vec![9];
        let good = NUMBERS.pack(situation, &mut packed);
        good.then(|| packed.split_off(1))
    }

    #[test]
    fn there_and_back() {
        let many = [vec![255, 15], vec![0; 20], vec![2], vec![4; 43]].concat();
        for (situation, bytes) in [
            (vec![1, 2], vec![0x21]),
            (vec![0, 0], vec![]),
            (vec![0, 14, 1, 1, 4], vec![0xE0, 0x20, 0x00, 0x01]),
            (many, vec![0xFF, 0xFF, 0x0F, 0x4F, 0x01, 0x01, 0xBF, 0x02]),
        ] {
            assert_eq!(packed(&situation).as_ref(), Some(&bytes));
            let mut again = vec![7];
            NUMBERS.unpack(&bytes, &mut again);
            assert_eq!(again.split_off(1), situation);
        }
        // A code that no station has.
        assert_eq!(packed(&[0, 0, 5]), None);
    }

    /// All situations of a few stations look different.
    #[test]
    fn no_two_look_alike() {
        let mut all = std::collections::BTreeSet::new();
        let mut made = 0;
        for tray in [0, 1, 14, 15, 16, 240, 255] {
            for other in [0, 1, 15, 240] {
                for numbers in 0..6_usize.pow(5) {
                    let mut situation = vec![tray, other];
                    for (code, power) in (0..5).zip([1, 6, 36, 216, 1296]) {
                        let standing = [0, 1, 2, 14, 15, 16].get(numbers / power % 6).copied();
                        let standing = standing.unwrap_or(0);
                        situation.extend(std::iter::repeat(code).take(standing));
                    }
                    if situation.len() <= 66 {
                        made += 1;
                        all.extend(packed(&situation));
                    }
                }
            }
        }
        assert_eq!(all.len(), made);
        assert!(made > 100_000, "{made}");
    }
}
