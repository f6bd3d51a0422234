//! Refused choices in words, and what could be chosen instead.

use ruonfidd::{Choice, Refusal};

use crate::board::doing;
use crate::lesson::choice_words;
use crate::rehearsal::{position_of, Rehearsal};
use crate::stations::Station;

/// Why a choice is refused.
#[must_use]
pub fn reason(hall: &Rehearsal<'_>, choice: Choice, refusal: Refusal) -> String {
    let position = position_of(choice);
    let now = hall.now();
    let name = now.names.name_and_origin(position);
    let station = now.stations.get(position);
    let doing = station.map_or(String::new(), |it| doing(hall.table(), hall.program(), it));
    let doing = doing.strip_prefix("repeatedly ").unwrap_or(&doing);
    match refusal.number {
        Refusal::CHOICE_KIND => "a choice begins with 1 or 2".to_owned(),
        Refusal::CHOICE_CUT_SHORT => "the choice is cut short".to_owned(),
        Refusal::NO_STATION => format!("no station stands at position {position}"),
        Refusal::WRONG_STATION | Refusal::NO_NODE => match station {
            Some(Station::Attempt(attempt)) if refusal.number == Refusal::NO_NODE => {
                let last = attempt.nodes.len().saturating_sub(1);
                format!("the attempt of {name} has nodes 0 to {last}")
            }
            Some(Station::Attempt(_)) => {
                format!("{name} is in the middle of its block: its moves are steps")
            }
            _ => format!("{name} has no open attempt"),
        },
        Refusal::NO_RULE => format!("{name} has nothing to do at this node"),
        Refusal::EMPTY_TRAY => format!("{name} is about to {doing}, and the tray is empty"),
        Refusal::TOO_MANY_STATIONS => {
            format!("after {name} more than 64 stations would stand in the hall")
        }
        Refusal::FULL_TRAY => {
            format!("{name} is about to {doing}, and the tray has 255, the most there can be")
        }
        _ => refusal.reason().to_owned(),
    }
}

/// What the same station could do instead, as the engine says; in the words of
/// a lesson.
#[must_use]
pub fn instead(hall: &Rehearsal<'_>, choice: Choice, refusal: Refusal) -> Option<String> {
    let misdirected = matches!(
        refusal.number,
        Refusal::WRONG_STATION | Refusal::NO_NODE | Refusal::NO_RULE
    );
    if !misdirected {
        return None;
    }
    let position = position_of(choice);
    let accepted = hall.accepted();
    let (other, rule) = accepted
        .iter()
        .find(|(other, _)| position_of(*other) == position)?;
    let words = choice_words(hall.now(), *other);
    Some(match other {
        Choice::Act { .. } => format!("now '{words}' {}", rule.word),
        _ => format!("its next step is '{words}'"),
    })
}
