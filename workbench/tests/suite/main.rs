//! The workbench from outside: the program with its streams and exit codes,
//! and the library over random tables and damaged texts.

#![allow(
    clippy::unwrap_used,
    clippy::expect_used,
    clippy::panic,
    clippy::indexing_slicing
)]

mod calls;
mod commands;
mod common;
mod consoles;
mod damaged;
mod described;
mod documents;
mod errors;
mod examples;
mod graphs;
mod json;
mod meaning;
mod openings;
mod pictures;
mod planted;
mod playing;
mod round_trips;
mod runs;
mod screens;
mod signals;
mod spoken;
mod steps;
mod terminals;
