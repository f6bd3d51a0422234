//! The sentence of a choice and its answer.

use std::fmt;
use std::str;

use crate::{say_into, Shortage, SENTENCE_BYTES};

/// What came of a choice. Any numbers may stand here, also some that no hall
/// answers, and a shortage at any rule.
#[derive(Clone, Copy, Debug, PartialEq, Eq, Hash)]
pub enum Answer {
    /// It moved.
    Moved {
        /// The number of the rule.
        rule: u8,
        /// What was short, if anything was.
        shortage: Option<Shortage>,
    },
    /// It was refused, with this number.
    Refused(u8),
}

impl Answer {
    /// It moved by the rule of this number, and nothing was short.
    #[must_use]
    pub fn moved(rule: u8) -> Answer {
        Answer::Moved {
            rule,
            shortage: None,
        }
    }

    /// As the library takes it: whether it moved, the number, and the two bytes
    /// of what was short.
    pub(crate) fn to_bytes(self) -> (u8, u8, [u8; 2]) {
        match self {
            Answer::Moved { rule, shortage } => (1, rule, Shortage::to_bytes(shortage)),
            Answer::Refused(number) => (0, number, Shortage::to_bytes(None)),
        }
    }
}

/// A choice and its answer in words: what [`say`](crate::say) gives.
///
/// ```
/// use ruonfidd::{say, Answer, Shortage};
///
/// let shortage = Shortage::new(3, 1);
/// let sentence = say([2, 5, 14], Answer::Moved { rule: 9, shortage });
/// assert_eq!(
///     sentence.as_str(),
///     "Kind 2 at station 5, node 14 moved by rule 9, read failed, tray 3 short by 1."
/// );
/// assert_eq!(sentence.to_string(), sentence.as_str());
/// assert_eq!(sentence.as_bytes(), sentence.as_str().as_bytes());
/// ```
#[derive(Clone, Copy, PartialEq, Eq, Hash)]
pub struct Sentence {
    /// Zeros behind the sentence.
    bytes: [u8; SENTENCE_BYTES],
    length: usize,
}

impl Sentence {
    pub(crate) fn of(choice: [u8; 3], answer: Answer) -> Sentence {
        let mut bytes = [0; SENTENCE_BYTES];
        let length = say_into(choice, answer, &mut bytes).expect("the buffer is long enough");
        Sentence { bytes, length }
    }

    /// The sentence, which ends with its full stop.
    #[must_use]
    pub fn as_bytes(&self) -> &[u8] {
        &self.bytes[..self.length]
    }

    /// The same as text.
    ///
    /// # Panics
    ///
    /// Never: a sentence is letters, digits, spaces, colons, commas and a full
    /// stop.
    #[must_use]
    pub fn as_str(&self) -> &str {
        str::from_utf8(self.as_bytes()).expect("a sentence is ASCII")
    }
}

impl AsRef<[u8]> for Sentence {
    fn as_ref(&self) -> &[u8] {
        self.as_bytes()
    }
}

/// As other text is displayed: a width fills up with spaces.
impl fmt::Display for Sentence {
    fn fmt(&self, out: &mut fmt::Formatter<'_>) -> fmt::Result {
        out.pad(self.as_str())
    }
}

impl fmt::Debug for Sentence {
    fn fmt(&self, out: &mut fmt::Formatter<'_>) -> fmt::Result {
        out.debug_tuple("Sentence").field(&self.as_str()).finish()
    }
}
