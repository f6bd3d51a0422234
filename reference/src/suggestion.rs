//! The suggestion: the first accepted choice of a hall (document 02, Q-2).

use crate::choice::Choice;
use crate::hall::Hall;
use crate::moves::accepted_choices;
use crate::table::Table;

/// What is suggested for a hall, or nothing where it is still.
pub fn suggestion(table: &Table, hall: &Hall) -> Option<Choice> {
    first_of(&accepted_choices(table, hall))
}

/// The first of these choices, however they are listed: the one with the
/// lowest position, and of several there the one with the lowest node.
pub fn first_of(choices: &[Choice]) -> Option<Choice> {
    choices.iter().copied().min_by_key(|choice| rank(*choice))
}

/// What decides which of two choices comes first. Kind 1 has no node and stands
/// before every node here, which decides nothing: kind 2 needs an attempt, kind
/// 1 needs it to be a single end or retry leaf, and no node can move there.
fn rank(choice: Choice) -> (u8, Option<u8>) {
    match choice {
        Choice::Act { position } => (position, None),
        Choice::Inside { position, node } => (position, Some(node)),
    }
}
