//! Random tables, halls and choices for tests. The same seed always gives the
//! same things.

mod choices;
mod halls;
mod inputs;
mod random;
mod tables;

pub use choices::choices;
pub use halls::{damaged_hall, hall, hall_with};
pub use inputs::input;
pub use random::Random;
pub use tables::{
    accepted_table, contended_table, damaged_table, nearly_full_table, record_of, record_starts,
    Shape,
};
