//! The thirteen rules by which an accepted choice moves, and their words.

use ruonfidd::Moved;

/// One rule.
#[derive(Clone, Copy, Debug, PartialEq, Eq)]
pub struct Rule {
    /// Its number in the engine's answers.
    pub number: u8,
    /// Its name in the calculus.
    pub calculus: &'static str,
    /// The word that a lesson expects after `=>`.
    pub word: &'static str,
}

impl Rule {
    /// Whether a put, a take or an attempt is over with it.
    #[must_use]
    pub fn ends_step(self) -> bool {
        matches!(
            self.number,
            Moved::OUT | Moved::IN | Moved::REP | Moved::ATRE | Moved::ATFAIL | Moved::ATOK
        )
    }
}

const fn rule(number: u8, calculus: &'static str, word: &'static str) -> Rule {
    Rule {
        number,
        calculus,
        word,
    }
}

/// All thirteen, by number.
pub const RULES: [Rule; 13] = [
    rule(Moved::OUT, "OUT", "puts"),
    rule(Moved::IN, "IN", "takes"),
    rule(Moved::REP, "REP", "repeats"),
    rule(Moved::ATST, "ATST", "opens"),
    rule(Moved::ATRE, "ATRE", "gives-up"),
    rule(Moved::ATFAIL, "ATFAIL", "fails"),
    rule(Moved::ATOK, "ATOK", "commits"),
    rule(Moved::ARDOK, "ARDOK", "finds"),
    rule(Moved::ARDF, "ARDF", "lacks"),
    rule(Moved::AWR, "AWR", "notes"),
    rule(Moved::AOI, "AOI", "splits"),
    rule(Moved::AOF, "AOF", "falls-back"),
    rule(Moved::AOE, "AOE", "settles"),
];

/// The rule of this number.
#[must_use]
pub fn by_number(number: u8) -> Option<Rule> {
    RULES.into_iter().find(|rule| rule.number == number)
}

/// The rule that a lesson's word means; the calculus's name is taken too.
#[must_use]
pub fn by_word(word: &str) -> Option<Rule> {
    RULES
        .into_iter()
        .find(|rule| rule.word == word || rule.calculus == word)
}
