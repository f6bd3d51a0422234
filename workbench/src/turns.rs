//! An opening turn by turn: what each turn opens, as the engine shows it, and in
//! words.

use ruonfidd::{opening_turns, Station as Laid};

use crate::board::doing;
use crate::rehearsal::{Moment, Rehearsal};
use crate::stations::Station;

/// What a turn opened.
#[derive(Clone, Copy, Debug, PartialEq, Eq)]
pub enum Opened {
    /// Two beside each other: they gave way to their sides.
    Beside,
    /// `nothing`, which has no station.
    Nothing,
    /// What is laid down as the station at this position.
    Station(usize),
}

/// One turn.
#[derive(Clone, Copy, Debug, PartialEq, Eq)]
pub struct Turn {
    /// What it opened.
    pub opened: Opened,
    /// How many terms are left to open after it.
    pub left: usize,
}

/// The turns that opened a hall in which no choice was made yet; none where the
/// engine's turns lay down other stations than the engine's hall has.
#[must_use]
pub fn turns(hall: &Rehearsal<'_>) -> Option<Vec<Turn>> {
    let standing = &hall.now().stations;
    let mut turns = Vec::new();
    let mut laid_down = 0;
    // The start term waits alone at first.
    let mut before = 1;
    for turn in opening_turns(hall.table().bytes()).ok()? {
        let opened = match turn.laid {
            Some(laid) if standing.get(laid_down) == station(laid).as_ref() => {
                laid_down += 1;
                Opened::Station(laid_down - 1)
            }
            Some(_) => return None,
            None if turn.left > before => Opened::Beside,
            None => Opened::Nothing,
        };
        before = turn.left;
        turns.push(Turn {
            opened,
            left: turn.left,
        });
    }
    (laid_down == standing.len()).then_some(turns)
}

/// A station that was just laid down, as one of a hall.
fn station(laid: Laid) -> Option<Station> {
    match laid {
        Laid::Waiting { term } => Some(Station::Waiting(term)),
        Laid::Putting { tray } => Some(Station::Putting(tray)),
        _ => None,
    }
}

/// A turn in a sentence; where a station is laid down, its name comes first.
#[must_use]
pub fn sentence(hall: &Rehearsal<'_>, turn: Turn) -> String {
    let what = match turn.opened {
        Opened::Beside => {
            "two beside each other give way to the left one, then the right one".to_owned()
        }
        Opened::Nothing => "'nothing' lays down no station".to_owned(),
        Opened::Station(position) => {
            let who = name_and_doing(hall, position);
            format!("{who} is laid down as station {position}")
        }
    };
    match turn.left {
        0 => format!("{what}. None left to open."),
        left => format!("{what}. {left} left to open."),
    }
}

/// What the station at a position does next, in the words of a text.
#[must_use]
pub fn does(hall: &Rehearsal<'_>, position: usize) -> String {
    let Moment { stations, .. } = hall.now();
    stations.get(position).map_or_else(String::new, |station| {
        doing(hall.table(), hall.program(), station)
    })
}

/// The name, and behind it what the station does, where its name does not say so.
fn name_and_doing(hall: &Rehearsal<'_>, position: usize) -> String {
    let name = hall.now().names.name(position);
    let does = does(hall, position);
    let says_so = name
        .strip_prefix(&does)
        .is_some_and(|number| number.is_empty() || number.starts_with(' '));
    if says_so {
        name
    } else {
        format!("{name} ({does})")
    }
}

#[cfg(test)]
#[allow(clippy::unwrap_used)]
mod tests {
    use super::{sentence, turns, Opened, Turn};
    use crate::rehearsal::Rehearsal;
    use crate::text::source::Source;
    use crate::text::{understand, Understood};
    use ruonfidd::Choice;

    fn of_text(text: &str) -> Understood {
        understand(&Source::new("", text)).unwrap()
    }

    fn sentences(text: &str) -> Vec<String> {
        let understood = of_text(text);
        let hall = Rehearsal::open(&understood.table, &understood.program).unwrap();
        let all = turns(&hall).unwrap();
        all.iter().map(|turn| sentence(&hall, *turn)).collect()
    }

    const BESIDE: &str = "two beside each other give way to the left one, then the right one.";

    #[test]
    fn each_sort_of_station() {
        let text = "tray a tray b\nrule blocker is block (end)\n\
            rule again is repeatedly take a then nothing\n\
            start blocker beside again beside block (end) beside nothing beside put b";
        assert_eq!(
            sentences(text),
            [
                format!("{BESIDE} 2 left to open."),
                "blocker (block) is laid down as station 0. 1 left to open.".to_owned(),
                format!("{BESIDE} 2 left to open."),
                "again (repeatedly take a) is laid down as station 1. 1 left to open.".to_owned(),
                format!("{BESIDE} 2 left to open."),
                "block is laid down as station 2. 1 left to open.".to_owned(),
                format!("{BESIDE} 2 left to open."),
                "'nothing' lays down no station. 1 left to open.".to_owned(),
                "put b is laid down as station 3. None left to open.".to_owned(),
            ]
        );
    }

    /// A pair on the left leaves more than it found before a station is laid down.
    #[test]
    fn pairs_on_the_left() {
        let text = "tray a\nrule two is put a beside put a\nstart two beside nothing";
        let understood = of_text(text);
        let hall = Rehearsal::open(&understood.table, &understood.program).unwrap();
        let turn = |opened, left| Turn { opened, left };
        assert_eq!(
            turns(&hall).unwrap(),
            [
                turn(Opened::Beside, 2),
                turn(Opened::Beside, 3),
                turn(Opened::Station(0), 2),
                turn(Opened::Station(1), 1),
                turn(Opened::Nothing, 0),
            ]
        );
    }

    /// Stations of another hall than the one that opens are noticed: too few,
    /// and others.
    #[test]
    fn turns_that_do_not_fit_the_hall() {
        let understood = of_text("tray a has 1 start (take a then put a) beside put a");
        let mut hall = Rehearsal::open(&understood.table, &understood.program).unwrap();
        assert!(turns(&hall).is_some());
        let mut shorter = hall.clone();
        shorter.make(Choice::Act { position: 1 }).unwrap();
        assert_eq!(turns(&shorter), None);
        hall.make(Choice::Act { position: 0 }).unwrap();
        assert_eq!(turns(&hall), None);
    }
}
