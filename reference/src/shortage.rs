//! What was short (document 02, Q-3): the answer of the test of a log's reads
//! against counts where there are too few tokens. The test itself is
//! [`Log::shortage`](crate::hall::Log::shortage).

/// A tray of which more is read than is there. Trays above 15 and numbers that
/// no log reaches are taken as well where a sentence tells of them.
#[derive(Clone, Copy, Debug, PartialEq, Eq, Hash)]
pub struct Shortage {
    /// Which tray.
    pub tray: u8,
    /// How many more of it are read than are there.
    pub by: u8,
}
