//! `hall`, the workbench of the hall engine: rules as text, and runs that
//! explain themselves.
//!
//! Whether a table is accepted and what a choice does is the engine's answer,
//! each time; nothing here decides it. What is here reads texts, makes tables of
//! them, tells what happened, and compares: a table with its text, a list of
//! steps with one run.
//!
//! | Module | What it holds |
//! |---|---|
//! | [`text`] | texts: words, grammar, tree, assembly, errors |
//! | [`table`], [`measures`] | an accepted table, read into terms; their sizes |
//! | [`show`] | from a table back to text |
//! | [`stations`], [`ways`] | a hall's stations, read from its bytes; the ways of a block |
//! | [`names`] | names of stations that stay while positions shift |
//! | [`rehearsal`] | a hall under way, with its names |
//! | [`turns`](mod@turns) | an opening turn by turn |
//! | [`lesson`] | choices made one by one, and once more as whole runs |
//! | [`rules`], [`sentences`], [`refusals`] | what a choice did, or why it is refused, in words |
//! | [`steps`] | a run told by steps: who did what, and what the trays became |
//! | [`board`], [`why`](mod@why) | the hall as it stands; what an attempt will come to |
//! | [`explore`] | every way a hall can go: situations, ends, questions, witnesses |
//! | [`input`], [`bytes_told`], [`json`], [`style`] | files, refusals of bytes, objects, colour |
//! | [`system`] | signals that ask for an end, streams that were closed from the start |
//! | [`commands`] | the commands, their streams and exit codes |

pub mod board;
pub mod bytes_told;
pub mod commands;
pub mod explore;
pub mod input;
pub mod json;
pub mod lesson;
pub mod measures;
pub mod names;
pub mod refusals;
pub mod rehearsal;
pub mod rules;
pub mod sentences;
pub mod show;
pub mod stations;
pub mod steps;
pub mod style;
pub mod system;
pub mod table;
pub mod text;
pub mod turns;
pub mod ways;
pub mod why;
