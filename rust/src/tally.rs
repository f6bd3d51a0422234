//! What the calls on a hall have counted.

use crate::ffi;

/// How many blocks were committed, how many commits failed, how many attempts
/// ended in retry.
///
/// It is no part of a stored hall: whoever stores a hall stores its tally
/// beside it. The first call may be lent any tally. No counter goes past its top,
/// 4,294,967,295.
#[derive(Clone, Copy, Debug, PartialEq, Eq, Hash)]
pub struct Tally {
    /// Blocks committed.
    pub commits: u32,
    /// Attempts whose commit found too little.
    pub failed: u32,
    /// Attempts that ended in retry.
    pub retries: u32,
}

impl Tally {
    /// The tally of a hall just opened.
    ///
    /// ```
    /// let tally = ruonfidd::Tally::fresh();
    /// assert_eq!((tally.commits, tally.failed, tally.retries), (0, 0, 0));
    /// ```
    #[must_use]
    pub fn fresh() -> Tally {
        Tally::from_words(ffi::fresh_tally())
    }

    /// Commits, failed, retries.
    pub(crate) fn from_words([commits, failed, retries]: [u32; 3]) -> Tally {
        Tally {
            commits,
            failed,
            retries,
        }
    }

    /// The same numbers in the same order.
    pub(crate) fn to_words(self) -> [u32; 3] {
        [self.commits, self.failed, self.retries]
    }
}
