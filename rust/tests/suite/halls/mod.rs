//! Opening a hall and checking a stored one: every answer and every byte.

mod damaged;
mod form; // 11
mod hostile;
mod length; // 10
mod openings;
mod owned;
mod stored;
mod threads;
