//! The engine against the second implementation: every answer and every byte.
//! Where the scope alone settles the answer, it is written down too.

mod common;
/// The bare calls, which are private to the package.
#[path = "../../src/ffi.rs"]
mod ffi;
mod halls;
mod header;
mod printed;
mod runs;
mod sentences;
mod session;
mod tables;
mod turns;

// The file of the bare calls names these from the root.
use ruonfidd::{HALL_BYTES, REPORT_BYTES, SENTENCE_BYTES};
