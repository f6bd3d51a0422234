//! The lines behind `choices`: what is chosen, what is expected, what is shown.

use ruonfidd::Refusal;

use super::source::Span;

/// The words that call a station.
#[derive(Clone, Debug, PartialEq, Eq)]
pub enum Called {
    /// `act 3`: by its position in the hall.
    Position(usize),
    /// `act clerk`, `act clerk 2`, `act put batch`, `act clerk's put batch`: by
    /// its name.
    Name {
        /// Who laid it down, where that is said.
        of: Option<Owner>,
        /// A rule's name, or what the station does.
        label: String,
        /// Which one of that name.
        number: Option<usize>,
    },
}

/// Who laid a station down: the name before `'s`.
#[derive(Clone, Debug, PartialEq, Eq)]
pub struct Owner {
    /// A rule's name.
    pub label: String,
    /// Which one of that name.
    pub number: Option<usize>,
}

/// What a line asks for.
#[derive(Clone, Debug, PartialEq, Eq)]
pub enum Ask {
    /// `act`: a choice of kind 1.
    Act(Called),
    /// `step .. node ..`: a choice of kind 2.
    Step(Called, u8),
    /// `do`: a put, a take or a whole attempt, to its end.
    Do(Called),
    /// `board`: the hall as it stands.
    Board,
    /// `why`: what a station's attempt will come to.
    Why(Called),
}

/// What a lesson expects of a choice.
#[derive(Clone, Copy, Debug, PartialEq, Eq)]
pub enum Expected {
    /// It moves by the rule of this number.
    Rule(u8),
    /// It is refused; with this number where one is given.
    Refused(Option<u8>),
}

/// One line of a lesson. Where lines end in the text means nothing.
#[derive(Clone, Debug, PartialEq, Eq)]
pub struct Line {
    /// What it asks for.
    pub ask: Ask,
    /// What stands behind `=>`.
    pub expected: Option<Expected>,
    /// All of it.
    pub span: Span,
    /// The words that call the station.
    pub called: Span,
}

impl Line {
    /// Whether the lesson expects this refusal.
    #[must_use]
    pub fn expects(&self, refusal: Refusal) -> bool {
        match self.expected {
            Some(Expected::Refused(number)) => number.map_or(true, |it| it == refusal.number),
            _ => false,
        }
    }

    /// Whether it asks for a choice.
    #[must_use]
    pub fn is_choice(&self) -> bool {
        matches!(self.ask, Ask::Act(_) | Ask::Step(..) | Ask::Do(_))
    }
}
