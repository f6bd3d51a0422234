//! Choices by chance.

use reference::choice::Choice;
use reference::generator::Random;
use reference::hall::Hall;
use reference::moves::{accepted_choices, make_move, Outcome};
use reference::table::Table;

/// Three bytes for a step.
pub(crate) fn step_bytes(choice: Choice, node: u8) -> [u8; 3] {
    match choice {
        Choice::Act { position } => [1, position, node],
        Choice::Inside { position, node } => [2, position, node],
    }
}

/// Accepted choices that lead to this rule as often as they can: where one of
/// them does it, mostly that one is taken.
pub(crate) fn steered(
    random: &mut Random,
    table: &Table,
    hall: &Hall,
    rule: u8,
    how_many: usize,
) -> Vec<u8> {
    let mut bytes = Vec::new();
    let mut hall = hall.clone();
    for _ in 0..how_many {
        let mut moves = Vec::new();
        for choice in accepted_choices(table, &hall) {
            if let Outcome::Moved { rule, hall, .. } = make_move(table, &hall, choice) {
                moves.push((choice, rule, hall));
            }
        }
        if random.percent(80) && moves.iter().any(|(_, made, _)| *made == rule) {
            moves.retain(|(_, made, _)| *made == rule);
        }
        if moves.is_empty() {
            break;
        }
        let (choice, _, next) = moves.swap_remove(random.below(moves.len()));
        bytes.extend(choice.bytes());
        hall = next;
    }
    bytes
}
