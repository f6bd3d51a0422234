//! Numbers by chance.

use crate::table::byte_of;

/// A small generator of numbers (xorshift with a multiplied output).
#[derive(Clone, Debug)]
pub struct Random {
    state: u64,
}

impl Random {
    /// The numbers of this seed.
    pub fn new(seed: u64) -> Random {
        let mut random = Random {
            state: seed.wrapping_mul(0x9E37_79B9_7F4A_7C15) | 1,
        };
        for _ in 0..4 {
            random.number();
        }
        random
    }

    /// The next number, of 48 bits.
    pub fn number(&mut self) -> u64 {
        self.state ^= self.state >> 12;
        self.state ^= self.state << 25;
        self.state ^= self.state >> 27;
        self.state.wrapping_mul(0x2545_F491_4F6C_DD1D) >> 16
    }

    /// A number from 0 to one below the bound, which is not 0.
    ///
    /// # Panics
    ///
    /// On the bound 0.
    pub fn below(&mut self, bound: usize) -> usize {
        let rest = self.number() % bound as u64;
        usize::try_from(rest).expect("a number below a usize")
    }

    /// A number from the first to the last, both included.
    pub fn between(&mut self, first: usize, last: usize) -> usize {
        first + self.below(last - first + 1)
    }

    /// A byte from 0 to one below the bound, which is 1 to 256.
    pub fn byte_below(&mut self, bound: usize) -> u8 {
        byte_of(self.below(bound))
    }

    /// A byte from the first to the last, both included.
    pub fn byte_between(&mut self, first: u8, last: u8) -> u8 {
        byte_of(self.between(usize::from(first), usize::from(last)))
    }

    /// Any byte.
    pub fn byte(&mut self) -> u8 {
        self.byte_below(256)
    }

    /// So many bytes.
    pub fn bytes(&mut self, length: usize) -> Vec<u8> {
        (0..length).map(|_| self.byte()).collect()
    }

    /// True so many times in a hundred.
    pub fn percent(&mut self, percent: usize) -> bool {
        self.below(100) < percent
    }

    /// One of these, or nothing when there are none.
    pub fn pick<T: Copy>(&mut self, items: &[T]) -> Option<T> {
        if items.is_empty() {
            None
        } else {
            Some(items[self.below(items.len())])
        }
    }
}
