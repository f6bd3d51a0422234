//! A second implementation of the hall engine.
//!
//! It was written from the papers and shares no code with the engine. It is
//! there to be compared with it: for the same bytes both must give the same
//! answers, the same shortage, the same hall, the same turns of its opening, the
//! same tally, the same suggestion, the same printed lines and the same
//! sentences.
//!
//! It aims to be easy to read against document 01, the scope, and not to be
//! fast. Comments name the section of that document which a piece of code
//! follows, or the request of document 02, the changes asked for since.
//!
//! | Module | What it holds |
//! |---|---|
//! | [`table`] | reading a rule table, its measures |
//! | [`hall`] | the hall as plain data, and its stored form |
//! | [`turns`] | the opening as a loop, turn by turn |
//! | [`choice`] | one choice and its bytes |
//! | [`shortage`] | the tray that was short, and by how many |
//! | [`moves`] | what one choice does to a hall |
//! | [`run`] | a list of choices, the tally |
//! | [`suggestion`] | the choice that is suggested for a hall |
//! | [`calls`] | the public calls on bytes |
//! | [`print`](mod@print) | the printed run |
//! | [`sentence`] | the sentence for a choice and its answer |
//! | [`edges`] | the list of edges and what each prints |
//! | [`atomic`] | the one-step run and the steps of its converse |
//! | [`calculus`] | `AtCCS` without hiding, from document 004 |
//! | [`stands_for`] | the process that a hall stands for |
//! | [`build`] | a small writer of rule tables |
//! | `generator` | random tables, halls and choices for tests; only with the feature of that name |
//!
//! [`atomic`] and [`calculus`] call none of [`moves`] and [`run`]: they are
//! what those two are tested against.

pub mod atomic;
pub mod build;
pub mod calculus;
pub mod calls;
pub mod choice;
pub mod edges;
#[cfg(feature = "generator")]
pub mod generator;
pub mod hall;
pub mod moves;
pub mod print;
pub mod run;
pub mod sentence;
pub mod shortage;
pub mod stands_for;
pub mod suggestion;
pub mod table;
pub mod turns;
