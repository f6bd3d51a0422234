//! Seeds of the tests by chance.

use std::env;
use std::io::{self, Write};

/// Names another first seed than the usual one, to look further.
const SEED_VARIABLE: &str = "RUONFIDD_SEED";

/// So many seeds. They are printed, whether the test passes or not.
pub(crate) fn seeds(test: &str, how_many: u64) -> impl Iterator<Item = u64> {
    let first = match env::var(SEED_VARIABLE) {
        Ok(seed) => seed.parse().expect("a seed is a number"),
        Err(_) => 1,
    };
    say(&format!(
        "{test}: seeds {first} to {}",
        first + how_many - 1
    ));
    first..first + how_many
}

/// A line that the test runner does not hold back.
pub(crate) fn say(line: &str) {
    let mut out = io::stderr().lock();
    writeln!(out, "{line}").expect("a line on standard error");
}
