//! Suggestions that are followed.

use std::iter::FusedIterator;

use crate::{Hall, Moved, Refusal, Tally};

/// How far suggestions were followed.
#[derive(Clone, Copy, Debug, PartialEq, Eq, Hash)]
#[non_exhaustive]
pub struct Followed {
    /// How many choices were made.
    pub done: usize,
    /// Whether no choice is accepted any more.
    pub still: bool,
}

/// Steps that are suggested and made, one for each item, which says what it did;
/// from [`Hall::suggested_steps`]. Each is the first accepted choice of the hall
/// that the one before it left.
///
/// They end where the hall is still. A waiting block can always begin, so they
/// may go on for ever: whoever wants an end takes so many of them, or uses
/// [`Hall::follow`]. An item is a refusal, 1 to 9 or 11, where the table is not
/// accepted or the hall is not one of its halls; it is the last one.
#[derive(Debug)]
#[must_use = "a step is made when it is asked for"]
pub struct SuggestedSteps<'a> {
    hall: &'a mut Hall,
    table: &'a [u8],
    tally: &'a mut Tally,
    over: bool,
}

impl<'a> SuggestedSteps<'a> {
    pub(crate) fn new(hall: &'a mut Hall, table: &'a [u8], tally: &'a mut Tally) -> Self {
        SuggestedSteps {
            hall,
            table,
            tally,
            over: false,
        }
    }

    /// The next step, none where the hall is still.
    fn step(&mut self) -> Result<Option<Moved>, Refusal> {
        let Some(choice) = self.hall.suggest(self.table)? else {
            return Ok(None);
        };
        let moved = self.hall.step(self.table, choice, self.tally)?;
        Ok(Some(moved))
    }
}

impl Iterator for SuggestedSteps<'_> {
    type Item = Result<Moved, Refusal>;

    fn next(&mut self) -> Option<Self::Item> {
        if self.over {
            return None;
        }
        let step = self.step().transpose();
        self.over = !matches!(step, Some(Ok(_)));
        step
    }
}

impl FusedIterator for SuggestedSteps<'_> {}
