//! Every reason to turn a request down, with its place and its edges.

mod choices;
mod halls;
mod tables;
