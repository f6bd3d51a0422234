//! A printed run that owns its bytes.

use std::fmt;
use std::str;

use crate::{print_run_into, REPORT_BYTES};

/// The lines of a printed run: what [`print_run`](crate::print_run) gives.
///
/// ```
/// let printed = ruonfidd::print_run(&[1, 13, 0]);
/// assert_eq!(printed.as_bytes(), b"R 0 0 0\nC 0 0 0\n");
/// assert_eq!(printed.to_string(), printed.as_str());
/// assert_eq!(printed.as_str().lines().count(), 2);
/// ```
#[derive(Clone, PartialEq, Eq, Hash)]
pub struct Printed {
    /// Zeros behind the lines.
    bytes: Box<[u8; REPORT_BYTES]>,
    length: usize,
}

impl Printed {
    pub(crate) fn of(input: &[u8]) -> Printed {
        let mut bytes = Box::new([0; REPORT_BYTES]);
        let length = print_run_into(input, &mut bytes);
        Printed { bytes, length }
    }

    /// The lines, each with a newline at its end.
    #[must_use]
    pub fn as_bytes(&self) -> &[u8] {
        &self.bytes[..self.length]
    }

    /// The same as text.
    ///
    /// # Panics
    ///
    /// Never: the lines are capital letters, digits, spaces, minus signs and
    /// newlines, or the word `long`.
    #[must_use]
    pub fn as_str(&self) -> &str {
        str::from_utf8(self.as_bytes()).expect("the lines are ASCII")
    }
}

impl AsRef<[u8]> for Printed {
    fn as_ref(&self) -> &[u8] {
        self.as_bytes()
    }
}

impl fmt::Display for Printed {
    fn fmt(&self, out: &mut fmt::Formatter<'_>) -> fmt::Result {
        out.write_str(self.as_str())
    }
}

impl fmt::Debug for Printed {
    fn fmt(&self, out: &mut fmt::Formatter<'_>) -> fmt::Result {
        out.debug_tuple("Printed").field(&self.as_str()).finish()
    }
}
