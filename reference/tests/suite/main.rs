//! The second implementation against the papers, and its parts against each
//! other.

mod calculus_match;
mod common;
mod converse;
mod documents;
mod edges;
mod generators;
mod moves;
mod one_step;
mod printed;
mod refusals;
mod rehearsals;
mod sentences;
mod shortages;
mod steps;
mod stored_halls;
mod suggestions;
mod turns;
