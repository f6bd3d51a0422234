//! Why the engine turned a request down.

use std::error::Error;
use std::fmt;

/// Why the engine turned a request down: one number, one place.
///
/// Each number has a name, an associated constant of this type. Further
/// numbers may come. Refusals come from the calls alone: code outside this
/// package reads them and cannot make them.
///
/// ```compile_fail,E0639
/// let refusal = ruonfidd::Refusal { number: 1, place: 0 };
/// ```
///
/// # On a rule table
///
/// The place is the first byte of the record refused, except where said.
///
/// | Number | Name | Reason |
/// |---|---|---|
/// | 1 | [`Refusal::UNKNOWN_KIND`] | the record begins with a byte that is no kind, 1 to 13 |
/// | 2 | [`Refusal::RECORD_CUT_SHORT`] | the bytes end inside the record |
/// | 3 | [`Refusal::TOO_MANY_TERMS`] | it is a term, and there are 200 already |
/// | 4 | [`Refusal::UNKNOWN_TRAY`] | it names a tray above 15 |
/// | 5 | [`Refusal::NOT_EARLIER`] | it refers to a term that has not come yet |
/// | 6 | [`Refusal::WRONG_CLASS`] | it refers to a process for an expression, or to an expression for a process |
/// | 7 | [`Refusal::TERM_TOO_LARGE`] | its term is over 64 wide, over 16 long or has over 8 branches |
/// | 8 | [`Refusal::BAD_TOKENS`] | its tokens are none, or its tray has been given some already |
/// | 9 | [`Refusal::START_NOT_LAST`] | a byte behind the start record (place: that byte), or no start record (place: the length) |
///
/// # On a hall
///
/// The place is 0.
///
/// | Number | Name | Reason |
/// |---|---|---|
/// | 10 | [`Refusal::HALL_LENGTH`] | its length is not 11,344 |
/// | 11 | [`Refusal::HALL_FORM`] | its bytes are no hall of this table |
///
/// # On a choice
///
/// The place is the first byte of the choice refused: 0 for a single one.
///
/// | Number | Name | Reason |
/// |---|---|---|
/// | 12 | [`Refusal::CHOICE_KIND`] | it begins with a byte that is no kind, 1 or 2 |
/// | 13 | [`Refusal::CHOICE_CUT_SHORT`] | the bytes end inside it |
/// | 14 | [`Refusal::NO_STATION`] | no station stands at its position |
/// | 15 | [`Refusal::WRONG_STATION`] | kind 1: an attempt that is not down to one end or retry yet; kind 2: no attempt |
/// | 16 | [`Refusal::NO_NODE`] | the attempt has no node of this number |
/// | 17 | [`Refusal::NO_RULE`] | nothing to do at the node: it has ended, or is a fork whose left side still goes on |
/// | 18 | [`Refusal::EMPTY_TRAY`] | it takes from a tray without tokens |
/// | 19 | [`Refusal::TOO_MANY_STATIONS`] | more than 64 stations would stand after it |
/// | 20 | [`Refusal::FULL_TRAY`] | it puts a token on a tray that holds 255 |
///
/// # On a sentence's buffer
///
/// The place is 0. Of [`say_into`](crate::say_into) alone.
///
/// | Number | Name | Reason |
/// |---|---|---|
/// | 21 | [`Refusal::BUFFER_TOO_SHORT`] | it has fewer than 96 bytes |
#[derive(Clone, Copy, Debug, PartialEq, Eq, Hash)]
#[non_exhaustive]
pub struct Refusal {
    /// Which condition was met; never 0.
    pub number: u8,
    /// Where it was met, as an offset in bytes.
    pub place: usize,
}

/// Rule tables.
impl Refusal {
    /// A record begins with a byte that is no kind.
    pub const UNKNOWN_KIND: u8 = 1;
    /// The bytes end inside a record.
    pub const RECORD_CUT_SHORT: u8 = 2;
    /// A term after 200 terms.
    pub const TOO_MANY_TERMS: u8 = 3;
    /// A tray above 15.
    pub const UNKNOWN_TRAY: u8 = 4;
    /// A reference to a term that has not come yet.
    pub const NOT_EARLIER: u8 = 5;
    /// A reference to a process where an expression belongs, or the other way
    /// round.
    pub const WRONG_CLASS: u8 = 6;
    /// A term over one of the limits of width, branches and length.
    pub const TERM_TOO_LARGE: u8 = 7;
    /// Tokens of no count, or for a tray that has some already.
    pub const BAD_TOKENS: u8 = 8;
    /// The table does not end with its start record.
    pub const START_NOT_LAST: u8 = 9;
}

/// Halls.
impl Refusal {
    /// A hall of another length than [`HALL_BYTES`](crate::HALL_BYTES).
    pub const HALL_LENGTH: u8 = 10;
    /// Bytes that are no hall of the table.
    pub const HALL_FORM: u8 = 11;
}

/// Choices.
impl Refusal {
    /// A choice begins with a byte that is no kind.
    pub const CHOICE_KIND: u8 = 12;
    /// The bytes end inside a choice.
    pub const CHOICE_CUT_SHORT: u8 = 13;
    /// No station at the position.
    pub const NO_STATION: u8 = 14;
    /// A station that takes no choice of this kind as it stands.
    pub const WRONG_STATION: u8 = 15;
    /// No node of this number.
    pub const NO_NODE: u8 = 16;
    /// A node to which no rule applies.
    pub const NO_RULE: u8 = 17;
    /// A take from a tray without tokens.
    pub const EMPTY_TRAY: u8 = 18;
    /// More than 64 stations afterwards.
    pub const TOO_MANY_STATIONS: u8 = 19;
    /// A put on a tray that holds 255 tokens.
    pub const FULL_TRAY: u8 = 20;
}

/// Sentences.
impl Refusal {
    /// A sentence's buffer of fewer bytes than
    /// [`SENTENCE_BYTES`](crate::SENTENCE_BYTES).
    pub const BUFFER_TOO_SHORT: u8 = 21;
}

impl Refusal {
    /// An answer of the library: 0 is no refusal.
    pub(crate) fn unless_zero(number: u8, place: usize) -> Result<(), Refusal> {
        if number == 0 {
            Ok(())
        } else {
            Err(Refusal { number, place })
        }
    }

    /// The condition in words.
    #[must_use]
    pub fn reason(&self) -> &'static str {
        match self.number {
            Self::UNKNOWN_KIND => "a record begins with a byte that is no kind",
            Self::RECORD_CUT_SHORT => "the bytes end inside a record",
            Self::TOO_MANY_TERMS => "more than 200 terms",
            Self::UNKNOWN_TRAY => "a tray above 15",
            Self::NOT_EARLIER => "a reference to a term that has not come yet",
            Self::WRONG_CLASS => "a process where an expression belongs, or the other way round",
            Self::TERM_TOO_LARGE => "a term is too wide, has too many branches or is too long",
            Self::BAD_TOKENS => "tokens of no count, or for a tray that has some already",
            Self::START_NOT_LAST => "no start record, or something behind it",
            Self::HALL_LENGTH => "a hall of another length than 11,344",
            Self::HALL_FORM => "bytes that are no hall of this table",
            Self::CHOICE_KIND => "a choice begins with a byte that is no kind",
            Self::CHOICE_CUT_SHORT => "the bytes end inside a choice",
            Self::NO_STATION => "no station at the position",
            Self::WRONG_STATION => "a station that takes no choice of this kind as it stands",
            Self::NO_NODE => "no node of this number",
            Self::NO_RULE => "a node to which no rule applies",
            Self::EMPTY_TRAY => "a take from a tray without tokens",
            Self::TOO_MANY_STATIONS => "more than 64 stations afterwards",
            Self::FULL_TRAY => "a put on a tray that holds 255 tokens",
            Self::BUFFER_TOO_SHORT => "a sentence's buffer of fewer than 96 bytes",
            _ => "a number without words here",
        }
    }
}

impl fmt::Display for Refusal {
    fn fmt(&self, out: &mut fmt::Formatter<'_>) -> fmt::Result {
        let Refusal { number, place } = self;
        write!(out, "refused {number} at {place}: {}", self.reason())
    }
}

impl Error for Refusal {}

#[cfg(test)]
mod tests {
    use super::Refusal;

    #[test]
    fn zero_is_no_refusal() {
        assert_eq!(Refusal::unless_zero(0, 0), Ok(()));
        for number in 1..=255 {
            let place = 3;
            assert_eq!(
                Refusal::unless_zero(number, place),
                Err(Refusal { number, place })
            );
        }
    }

    #[test]
    fn the_names_in_the_order_of_their_numbers() {
        let names = [
            Refusal::UNKNOWN_KIND,
            Refusal::RECORD_CUT_SHORT,
            Refusal::TOO_MANY_TERMS,
            Refusal::UNKNOWN_TRAY,
            Refusal::NOT_EARLIER,
            Refusal::WRONG_CLASS,
            Refusal::TERM_TOO_LARGE,
            Refusal::BAD_TOKENS,
            Refusal::START_NOT_LAST,
            Refusal::HALL_LENGTH,
            Refusal::HALL_FORM,
            Refusal::CHOICE_KIND,
            Refusal::CHOICE_CUT_SHORT,
            Refusal::NO_STATION,
            Refusal::WRONG_STATION,
            Refusal::NO_NODE,
            Refusal::NO_RULE,
            Refusal::EMPTY_TRAY,
            Refusal::TOO_MANY_STATIONS,
            Refusal::FULL_TRAY,
            Refusal::BUFFER_TOO_SHORT,
        ];
        assert!(names.into_iter().eq(1..=21));
    }

    #[test]
    fn words() {
        let refusal = Refusal {
            number: 2,
            place: 40,
        };
        assert_eq!(
            refusal.to_string(),
            "refused 2 at 40: the bytes end inside a record"
        );
    }

    /// Twenty-one numbers have words of their own, the others share theirs.
    #[test]
    fn no_words_are_used_twice() {
        let words = |number| Refusal { number, place: 0 }.reason();
        for number in 1..=21 {
            for other in number + 1..=22 {
                assert_ne!(words(number), words(other));
            }
        }
        for number in 23..=255 {
            assert_eq!(words(number), words(22));
        }
        assert_eq!(words(0), words(22));
    }
}
