//! Records of bytes, each kept once, with the record that led to it.
//!
//! All records stand in one piece of memory, one behind the other, and a table
//! of slots finds them again. Nothing is allocated for a single record: four
//! bytes say where it ends, four from where it was reached, and a slot is five
//! bytes, of which at most four in five are taken.

use std::mem::size_of;

/// A record's number: they are numbered from 0 as they come.
pub type Index = u32;

/// Why a record was not kept.
#[derive(Clone, Copy, Debug, PartialEq, Eq)]
pub struct NoRoom;

/// A record is kept: it was new, or has been there before.
#[derive(Clone, Copy, Debug, PartialEq, Eq)]
pub enum Kept {
    /// It is kept from now on.
    New(Index),
    /// It was there.
    Known(Index),
}

/// The number of a record plus one, 0 for a free slot, in four bytes; then a
/// byte of its hash, so that most other records are passed by unread.
type Slot = [u8; 5];

const FREE: Slot = [0; 5];

/// Records that are to be kept, and from which record each was reached.
///
/// One record alone is waited for several times, since its slot and what the
/// slot leads to stand anywhere in a large memory. For many at once the memory
/// is asked together, and most of the waiting is saved.
#[derive(Clone, Debug, Default)]
pub struct Batch {
    bytes: Vec<u8>,
    items: Vec<Item>,
    /// The records that the items may be equal to, and where they end.
    likely: Vec<Index>,
    places: Vec<usize>,
}

#[derive(Clone, Copy, Debug)]
struct Item {
    end: usize,
    parent: Index,
    hash: u64,
    /// From which slot on it is to be looked for.
    from: usize,
}

impl Batch {
    /// Adds a record.
    pub fn add(&mut self, record: &[u8], parent: Index) {
        self.add_written(parent, |bytes| {
            bytes.extend_from_slice(record);
            true
        });
    }

    /// Adds the record that is written behind the bytes given; none where that
    /// says no.
    pub fn add_written(&mut self, parent: Index, write: impl FnOnce(&mut Vec<u8>) -> bool) {
        let start = self.bytes.len();
        if !write(&mut self.bytes) {
            self.bytes.truncate(start);
            return;
        }
        self.items.push(Item {
            end: self.bytes.len(),
            parent,
            hash: hash(self.bytes.get(start..).unwrap_or(&[])),
            from: 0,
        });
    }

    /// How many records it has.
    #[must_use]
    pub fn len(&self) -> usize {
        self.items.len()
    }

    /// Whether it has none.
    #[must_use]
    pub fn is_empty(&self) -> bool {
        self.items.is_empty()
    }

    /// Takes all records out.
    pub fn clear(&mut self) {
        self.bytes.clear();
        self.items.clear();
    }

    fn records(&self) -> impl Iterator<Item = (Item, &[u8])> {
        let mut start = 0;
        self.items.iter().map(move |item| {
            let record = self.bytes.get(start..item.end).unwrap_or(&[]);
            start = item.end;
            (*item, record)
        })
    }
}

const FEWEST_SLOTS: usize = 1 << 10;

/// So many records get their slots together where slots are made anew.
const TOGETHER: usize = 256;

/// How much of an end is kept with each record; the rest of it is the same for
/// very many. Tests keep less, so that they see it change.
const LOW_BITS: u32 = if cfg!(test) { 16 } else { 32 };

/// Records of bytes, each kept once.
#[derive(Clone, Debug)]
pub struct Store {
    bytes: Vec<u8>,
    /// Where each record ends: the lower part.
    ends: Vec<u32>,
    /// The numbers of the records from which on the upper part is one more.
    higher: Vec<Index>,
    parents: Vec<Index>,
    /// For each record the least one that it was seen to lead to, where that is
    /// wanted.
    least: Option<Vec<Index>>,
    slots: Vec<Slot>,
}

/// In the place of a record that another one leads to: there is none.
pub const NOWHERE: Index = Index::MAX;

impl Store {
    /// No record yet.
    #[must_use]
    pub fn new() -> Store {
        Store {
            bytes: Vec::new(),
            ends: Vec::new(),
            higher: Vec::new(),
            parents: Vec::new(),
            least: None,
            slots: vec![FREE; FEWEST_SLOTS],
        }
    }

    /// From now on keeps for each record the least one that a batch shows it to
    /// lead to.
    pub fn keep_least(&mut self) {
        self.least = Some(vec![NOWHERE; self.len()]);
    }

    /// Hands out for each record the least one that it leads to, [`NOWHERE`]
    /// where there is none; they are not kept any longer.
    pub fn take_least(&mut self) -> Option<Vec<Index>> {
        self.least.take()
    }

    /// Keeps them again, before anything else is kept.
    pub fn give_least(&mut self, least: Vec<Index>) {
        self.least = Some(least);
    }

    /// How many records there are.
    #[must_use]
    pub fn len(&self) -> usize {
        self.ends.len()
    }

    /// Whether there is none.
    #[must_use]
    pub fn is_empty(&self) -> bool {
        self.ends.is_empty()
    }

    /// The memory in use.
    #[must_use]
    pub fn memory(&self) -> usize {
        let least = self.least.as_ref().map_or(0, Vec::len);
        self.bytes.len()
            + 4 * (self.ends.len() + self.parents.len() + least)
            + size_of::<Slot>() * self.slots.len()
    }

    /// The memory in use once so many more records have slots.
    #[must_use]
    pub fn memory_with(&self, more: usize) -> usize {
        let mut slots = self.slots.len();
        while too_full(self.len() + more, slots) {
            slots = more_slots(slots);
        }
        self.memory() + size_of::<Slot>() * (slots - self.slots.len())
    }

    /// The record of a number, empty for one that there is not.
    #[must_use]
    pub fn get(&self, index: Index) -> &[u8] {
        let record = self.start(index)..self.end(index);
        self.bytes.get(record).unwrap_or(&[])
    }

    /// From which record this one was first reached; the first one from itself.
    #[must_use]
    pub fn parent(&self, index: Index) -> Index {
        self.parents.get(place(index)).copied().unwrap_or(0)
    }

    /// The same for each record, in order.
    #[must_use]
    pub fn parents(&self) -> &[Index] {
        &self.parents
    }

    /// The records from the first one to this, each reached from the one before.
    #[must_use]
    pub fn way_to(&self, index: Index) -> Vec<Index> {
        let mut way = vec![index];
        let mut at = index;
        // A parent is an earlier record, so this ends.
        while at > 0 {
            at = self.parent(at).min(at - 1);
            way.push(at);
        }
        way.reverse();
        way
    }

    /// All numbers, in order.
    pub fn indexes(&self) -> impl Iterator<Item = Index> {
        0..Index::try_from(self.len()).unwrap_or(Index::MAX)
    }

    /// The number of a record that is kept.
    #[must_use]
    pub fn find(&self, record: &[u8]) -> Option<Index> {
        let hash = hash(record);
        self.look_up(record, hash, self.first_slot(hash)).ok()
    }

    /// Keeps a record, reached from that of the number `parent`.
    ///
    /// # Errors
    ///
    /// Where there is no memory for it, or 2^32 - 1 records are kept.
    pub fn keep(&mut self, record: &[u8], parent: Index) -> Result<Kept, NoRoom> {
        self.keep_hashed(record, parent, hash(record))
    }

    /// Keeps the records of a batch, as if one after the other, and shows those
    /// that are new.
    ///
    /// # Errors
    ///
    /// As for a single record; those before it are kept.
    pub fn keep_batch(
        &mut self,
        batch: &mut Batch,
        mut show: impl FnMut(Index, &[u8]),
    ) -> Result<(), NoRoom> {
        // All slots that the batch may take, so that none changes its place.
        while too_full(self.len() + batch.len(), self.slots.len()) {
            self.grow()?;
        }
        self.touch(batch);
        for (item, record) in batch.records() {
            let index = match self.look_up(record, item.hash, item.from) {
                Ok(index) => index,
                Err(slot) => {
                    let index = self.append(record, item.parent, item.hash, slot)?;
                    show(index, record);
                    index
                }
            };
            let least = self.least.as_mut();
            if let Some(least) = least.and_then(|least| least.get_mut(place(item.parent))) {
                *least = index.min(*least);
            }
        }
        Ok(())
    }

    /// Shows for each record of a batch its number, where it is kept, and from
    /// which one it was reached.
    pub fn find_batch(&self, batch: &mut Batch, mut show: impl FnMut(Index, Index)) {
        self.touch(batch);
        for (item, record) in batch.records() {
            if let Ok(index) = self.look_up(record, item.hash, item.from) {
                show(index, item.parent);
            }
        }
    }

    /// Reads what the records of a batch will be compared with, for all of them
    /// slot by slot, then end by end, then byte by byte: the reads of one kind
    /// do not wait for each other. What is kept of it is the first slot that is
    /// free or has the record's tag; those before it stay what they are.
    fn touch(&self, batch: &mut Batch) {
        let mut sum = 0;
        for item in &mut batch.items {
            item.from = self.first_slot(item.hash);
            let [first, ..] = self.slots.get(item.from).copied().unwrap_or(FREE);
            sum ^= first;
        }
        batch.likely.clear();
        for item in &mut batch.items {
            let tag = tag_of(item.hash);
            let index = loop {
                let slot = self.slots.get(item.from).copied().unwrap_or(FREE);
                let [.., other] = slot;
                match index_in(slot) {
                    Some(_) if other != tag => item.from = self.next_slot(item.from),
                    index => break index,
                }
            };
            batch.likely.extend(index);
        }
        batch.places.clear();
        for index in &batch.likely {
            batch.places.push(self.end(*index).saturating_sub(1));
        }
        for place in &batch.places {
            sum ^= self.bytes.get(*place).copied().unwrap_or(0);
        }
        std::hint::black_box(sum);
    }

    fn keep_hashed(&mut self, record: &[u8], parent: Index, hash: u64) -> Result<Kept, NoRoom> {
        if too_full(self.len() + 1, self.slots.len()) {
            self.grow()?;
        }
        match self.look_up(record, hash, self.first_slot(hash)) {
            Ok(index) => Ok(Kept::Known(index)),
            Err(slot) => self.append(record, parent, hash, slot).map(Kept::New),
        }
    }

    fn append(
        &mut self,
        record: &[u8],
        parent: Index,
        hash: u64,
        slot: usize,
    ) -> Result<Index, NoRoom> {
        let index = Index::try_from(self.len()).map_err(|_| NoRoom)?;
        let number = index.checked_add(1).ok_or(NoRoom)?;
        self.bytes
            .try_reserve(record.len())
            .and_then(|()| self.ends.try_reserve(1))
            .and_then(|()| self.parents.try_reserve(1))
            .map_err(|_| NoRoom)?;
        if let Some(least) = &mut self.least {
            least.try_reserve(1).map_err(|_| NoRoom)?;
            least.push(NOWHERE);
        }
        let upper = self.bytes.len() >> LOW_BITS;
        self.bytes.extend_from_slice(record);
        if self.bytes.len() >> LOW_BITS != upper {
            self.higher.push(index);
        }
        self.ends.push(lower_part(self.bytes.len()));
        self.parents.push(parent);
        self.take_slot(slot, number, hash);
        Ok(index)
    }

    fn start(&self, index: Index) -> usize {
        index.checked_sub(1).map_or(0, |before| self.end(before))
    }

    fn end(&self, index: Index) -> usize {
        let Some(low) = self.ends.get(place(index)) else {
            return 0;
        };
        let higher = self.higher.iter().filter(|from| **from <= index).count();
        (higher << LOW_BITS) + place(*low)
    }

    /// The record's number, or the free slot for it, looked for from a slot on.
    fn look_up(&self, record: &[u8], hash: u64, from: usize) -> Result<Index, usize> {
        let mut at = from;
        loop {
            let slot = self.slots.get(at).copied().unwrap_or(FREE);
            let Some(index) = index_in(slot) else {
                return Err(at);
            };
            let [.., tag] = slot;
            if tag == tag_of(hash) && self.get(index) == record {
                return Ok(index);
            }
            at = self.next_slot(at);
        }
    }

    fn take_slot(&mut self, at: usize, number: u32, hash: u64) {
        let [a, b, c, d] = number.to_le_bytes();
        if let Some(slot) = self.slots.get_mut(at) {
            *slot = [a, b, c, d, tag_of(hash)];
        }
    }

    /// The slot that lies among the slots where the hash lies among all numbers.
    /// There is none only where memory ran out while they were made anew, and
    /// then every slot is taken for a free one.
    fn first_slot(&self, hash: u64) -> usize {
        let slots = u128::try_from(self.slots.len()).unwrap_or(0);
        usize::try_from((u128::from(hash) * slots) >> 64).unwrap_or(0)
    }

    fn next_slot(&self, at: usize) -> usize {
        let next = at + 1;
        if next < self.slots.len() {
            next
        } else {
            0
        }
    }

    /// More slots. The old ones are let go first, since all that they say can be
    /// found again from the records.
    fn grow(&mut self) -> Result<(), NoRoom> {
        let before = self.slots.len();
        let more = more_slots(before);
        self.slots = Vec::new();
        if self.slots.try_reserve_exact(more).is_err() {
            self.slots.try_reserve_exact(before).map_err(|_| NoRoom)?;
            self.slots.resize(before, FREE);
            self.fill_slots();
            return Err(NoRoom);
        }
        self.slots.resize(more, FREE);
        self.fill_slots();
        Ok(())
    }

    /// Gives every record a slot. As for a batch the slots of many are read
    /// before one of them is taken.
    fn fill_slots(&mut self) {
        let mut hashes = Vec::with_capacity(TOGETHER);
        let mut indexes = self.indexes().peekable();
        while let Some(first) = indexes.peek().copied() {
            hashes.clear();
            let some = indexes.by_ref().take(TOGETHER);
            hashes.extend(some.map(|index| hash(self.get(index))));
            let slots = hashes.iter().map(|hash| self.first_slot(*hash));
            let slots = slots.filter_map(|at| self.slots.get(at)?.first());
            std::hint::black_box(slots.fold(0, |sum, byte| sum ^ byte));
            for (number, hash) in (first + 1..).zip(&hashes) {
                let mut at = self.first_slot(*hash);
                while self.slots.get(at).is_some_and(|slot| *slot != FREE) {
                    at = self.next_slot(at);
                }
                self.take_slot(at, number, *hash);
            }
        }
    }
}

impl Default for Store {
    fn default() -> Store {
        Store::new()
    }
}

/// Half as many slots more: twice as many would often leave most of them free.
fn more_slots(slots: usize) -> usize {
    slots + slots / 2
}

/// Whether more than four slots in five would be taken.
fn too_full(records: usize, slots: usize) -> bool {
    records * 5 > slots * 4
}

/// The record of a slot, none where it is free.
fn index_in([a, b, c, d, _]: Slot) -> Option<Index> {
    u32::from_le_bytes([a, b, c, d]).checked_sub(1)
}

fn place(index: Index) -> usize {
    usize::try_from(index).unwrap_or(usize::MAX)
}

fn lower_part(length: usize) -> u32 {
    u32::try_from(length & ((1 << LOW_BITS) - 1)).unwrap_or(0)
}

/// The lowest byte of the hash: the upper ones choose the slot.
fn tag_of(hash: u64) -> u8 {
    let [tag, ..] = hash.to_le_bytes();
    tag
}

/// Mixes a record's bytes, eight at a time, and its length. The last eight may
/// overlap those before.
fn hash(record: &[u8]) -> u64 {
    const FACTOR: u64 = 0x9E37_79B9_7F4A_7C15;
    let mix = |hash: u64, word: u64| (hash.rotate_left(23) ^ word).wrapping_mul(FACTOR);
    let word = |bytes: &[u8]| <[u8; 8]>::try_from(bytes).map_or(0, u64::from_le_bytes);
    let length = u64::try_from(record.len()).unwrap_or(0);
    let last = match record.len().checked_sub(8) {
        Some(from) => word(record.get(from..).unwrap_or(&[])),
        None => record
            .iter()
            .fold(0, |last, byte| last << 8 | u64::from(*byte)),
    };
    let mut hash = mix(length, last);
    for bytes in record.chunks_exact(8) {
        hash = mix(hash, word(bytes));
    }
    hash ^= hash >> 32;
    hash = hash.wrapping_mul(FACTOR);
    hash ^ (hash >> 29)
}

#[cfg(test)]
#[allow(clippy::unwrap_used)]
mod tests {
    use super::{Batch, Kept, Store};

    /// Records of many lengths, alike in most of their bytes: each is kept once
    /// and found again, through several changes of size.
    #[test]
    fn each_is_kept_once() {
        let mut store = Store::new();
        let record = |number: u32| {
            let mut bytes = vec![7; usize::try_from(number % 23).unwrap()];
            bytes.extend(number.to_be_bytes());
            bytes
        };
        for number in 0..50_000 {
            let parent = u32::saturating_sub(number, 3);
            assert_eq!(store.keep(&record(number), parent), Ok(Kept::New(number)));
        }
        for number in 0..50_000 {
            assert_eq!(store.find(&record(number)), Some(number));
            assert_eq!(store.keep(&record(number), 0), Ok(Kept::Known(number)));
            assert_eq!(store.get(number), record(number));
        }
        // 88,573 slots are enough for 70,858 records.
        let now = store.memory();
        assert_eq!(store.memory_with(20_858), now);
        assert_eq!(store.memory_with(20_859), now + 5 * 44_286);
        assert_eq!(store.find(&record(50_000)), None);
        assert_eq!(store.len(), 50_000);
        assert!(store.higher.len() > 5);
        assert_eq!(store.way_to(7), [0, 1, 4, 7]);
        assert_eq!(store.way_to(0), [0]);
        assert!(store.get(50_000).is_empty());
    }

    /// Batches keep what one record after the other would, though some are in a
    /// batch twice and slots are made anew between them.
    #[test]
    fn batches_keep_the_same() {
        let mut together = Store::new();
        let mut one_by_one = Store::new();
        let mut batch = Batch::default();
        let mut number = 1_u32;
        for _ in 0..300 {
            batch.clear();
            let mut new = Vec::new();
            for parent in 0..100 {
                number = number.wrapping_mul(1_664_525).wrapping_add(1_013_904_223);
                let record = (number >> 18).to_le_bytes();
                let record = record.get(..(1 + parent % 4) as usize).unwrap();
                batch.add(record, parent);
                if let Kept::New(index) = one_by_one.keep(record, parent).unwrap() {
                    new.push((index, record.to_vec()));
                }
            }
            let mut shown = Vec::new();
            let show = |index, record: &[u8]| shown.push((index, record.to_vec()));
            together.keep_batch(&mut batch, show).unwrap();
            assert_eq!(shown, new);
        }
        assert_eq!(together.len(), one_by_one.len());
        for index in together.indexes() {
            assert_eq!(together.get(index), one_by_one.get(index));
            assert_eq!(together.parent(index), one_by_one.parent(index));
            assert_eq!(together.find(one_by_one.get(index)), Some(index));
        }
        assert!(together.len() > 5_000, "{}", together.len());
    }

    #[test]
    fn the_empty_record_is_one_too() {
        let mut store = Store::new();
        assert!(store.is_empty());
        assert_eq!(store.find(&[]), None);
        assert_eq!(store.keep(&[], 0), Ok(Kept::New(0)));
        assert_eq!(store.keep(&[0], 0), Ok(Kept::New(1)));
        assert_eq!(store.keep(&[], 1), Ok(Kept::Known(0)));
    }
}
