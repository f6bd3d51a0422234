//! Running choices, making one and suggesting one: every answer, every byte of
//! the hall, every number of the tally.

mod by_hand;
mod every_choice;
mod owned;
mod refused;
mod rehearsals;
mod sequences;
mod shortages;
mod stored;
mod suggestions;
mod tallies;
mod threads;
mod wide;
