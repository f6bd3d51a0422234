//! Tests of `hall explore` and of what it rests on.
#![allow(
    clippy::unwrap_used,
    clippy::expect_used,
    clippy::panic,
    clippy::indexing_slicing,
    clippy::format_push_string
)]

mod answers;
mod asked;
mod brute;
mod command;
mod common;
mod contradictions;
mod doubts;
mod early;
mod grouped;
mod halls;
mod questions;
mod random;
mod reference_runs;
