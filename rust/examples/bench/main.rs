//! What the engine costs beside the second implementation, as one table.
//!
//! `cargo run --release --example bench`
//!
//! Both are called on the same bytes in the same run, by turns. One figure is
//! the mean of a batch of calls; each row gives the median of the batches and,
//! as spread, the lower and the upper quartile, in nanoseconds. Nothing is
//! cleared between calls: the same bytes are read again and again, and stay in
//! the caches. What a call sets up for itself is part of its figure.

mod halls;
mod measure;
mod prints;
mod runs;
mod tables;

fn main() {
    measure::print_head();
    tables::print();
    halls::print();
    runs::print();
    prints::print();
}
