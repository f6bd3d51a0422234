//! Refusal 11: the hall is not well formed. One condition after the other, on
//! halls written out by hand.

mod ends;
mod leaves;
mod stations;
mod trees;

use crate::common::answers::{hall_gives, ACCEPTED};
use crate::common::by_hand::{attempt, each_kind, hall};

/// Whether a hall of these stations is well formed for the table with a term of
/// each kind.
#[track_caller]
fn stations_are(stations: &[u8], well_formed: bool) {
    let answer = if well_formed { ACCEPTED } else { (11, 0) };
    hall_gives(&each_kind::table(), &hall(stations), answer);
}

/// The same for one attempt with these nodes.
#[track_caller]
fn nodes_are(nodes: &[u8], well_formed: bool) {
    stations_are(&attempt(each_kind::BLOCK, nodes), well_formed);
}
