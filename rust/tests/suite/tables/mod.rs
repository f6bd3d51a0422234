//! Checking rule tables: number and place, on every input.

mod accepted;
mod damaged;
mod exhaustive;
mod measures;
mod random;
mod refusals;
mod threads;
