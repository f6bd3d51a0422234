//! The tray that was short.

use std::fmt;
use std::num::NonZeroU8;

/// The lowest tray that had fewer tokens than were to be read from it, and how
/// many were missing: why a commit or a read failed. It displays in the words
/// that the sentence has for it.
///
/// A step tells one where it moved by [`ATFAIL`](crate::Moved::ATFAIL) or by
/// [`ARDF`](crate::Moved::ARDF), then with a tray of 0 to 15 that is short by 1
/// to 16, and nowhere else. A sentence names any.
///
/// ```
/// use ruonfidd::Shortage;
///
/// let shortage = Shortage::new(3, 1).unwrap();
/// assert_eq!((shortage.tray, shortage.by.get()), (3, 1));
/// assert_eq!(shortage.to_string(), "tray 3 short by 1");
/// // A tray that is short by none is not short.
/// assert_eq!(Shortage::new(3, 0), None);
/// ```
#[derive(Clone, Copy, Debug, PartialEq, Eq, Hash)]
pub struct Shortage {
    /// Which tray.
    pub tray: u8,
    /// How many tokens were missing there.
    pub by: NonZeroU8,
}

impl Shortage {
    /// This tray, short by so many; none by 0.
    #[must_use]
    pub fn new(tray: u8, by: u8) -> Option<Shortage> {
        NonZeroU8::new(by).map(|by| Shortage { tray, by })
    }

    /// The two bytes that a step of the library sets.
    pub(crate) fn from_bytes([tray, by]: [u8; 2]) -> Option<Shortage> {
        Shortage::new(tray, by)
    }

    /// The two bytes that the library takes for a sentence: zeros for none.
    pub(crate) fn to_bytes(shortage: Option<Shortage>) -> [u8; 2] {
        shortage.map_or([0, 0], |Shortage { tray, by }| [tray, by.get()])
    }
}

impl fmt::Display for Shortage {
    fn fmt(&self, out: &mut fmt::Formatter<'_>) -> fmt::Result {
        let Shortage { tray, by } = self;
        write!(out, "tray {tray} short by {by}")
    }
}

#[cfg(test)]
mod tests {
    use super::Shortage;

    #[test]
    fn bytes_and_back() {
        for tray in 0..=255 {
            assert_eq!(Shortage::from_bytes([tray, 0]), None);
            for by in 1..=255 {
                let shortage = Shortage::from_bytes([tray, by]);
                let told = shortage.map(|it| (it.tray, it.by.get()));
                assert_eq!(told, Some((tray, by)));
                assert_eq!(Shortage::to_bytes(shortage), [tray, by]);
            }
        }
        assert_eq!(Shortage::to_bytes(None), [0, 0]);
    }
}
