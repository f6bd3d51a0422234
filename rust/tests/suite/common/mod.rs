//! What the tests share: answers and calls compared, tables by chance, halls by hand,
//! wrong ways that must be noticed.

pub(crate) mod answers;
pub(crate) mod by_chance;
pub(crate) mod by_hand;
pub(crate) mod calls;
pub(crate) mod choices;
pub(crate) mod seeds;
pub(crate) mod shortages;
pub(crate) mod turns;
pub(crate) mod wrong_shortages;
pub(crate) mod wrong_suggestions;
pub(crate) mod wrong_turns;
