//! `hall opening`

use super::check::refused;
use super::load;
use super::{Args, Exit, Failure, Outcome, Streams};
use crate::explore::report::counted;
use crate::json::{self, Object};
use crate::lesson::Lesson;
use crate::rehearsal::Rehearsal;
use crate::style::wrapped;
use crate::turns::{does, sentence, turns, Opened, Turn};

/// The opening of a hall, turn by turn.
pub(super) fn opening(args: &Args, streams: &mut Streams<'_>) -> Outcome {
    let name = args.file(0).unwrap_or("-");
    let json = args.has("--json");
    let loaded = match load::load(name, args.has("--binary"), streams) {
        Ok(loaded) => loaded,
        Err(unloaded) => return refused(name, unloaded, json, streams),
    };
    let lesson = Lesson::open(&loaded.table, &loaded.program)?;
    let hall = lesson.rehearsal();
    let turns = turns(hall).ok_or_else(|| {
        let words = "the turns of an opening lay down other stations than its hall has";
        Failure::Contradiction(words.to_owned())
    })?;
    for (number, turn) in turns.iter().enumerate() {
        if json {
            writeln!(streams.out, "{}", turn_object(hall, number, *turn))?;
        } else {
            told(hall, number, *turn, streams)?;
        }
    }
    if json {
        writeln!(streams.out, "{}", last_object(hall, turns.len()))?;
    } else {
        let made = counted(turns.len() as u64, "turn");
        let standing = counted(hall.now().stations.len() as u64, "station");
        writeln!(streams.out, "\n{made}, {standing} laid down.")?;
    }
    Ok(Exit::Good)
}

/// One turn for people. The name of its station, which comes first, is painted.
fn told(
    hall: &Rehearsal<'_>,
    number: usize,
    turn: Turn,
    streams: &mut Streams<'_>,
) -> Result<(), Failure> {
    let mut lines = wrapped(&format!("{number:>4}  "), &sentence(hall, turn));
    if let (Opened::Station(position), Some(first)) = (turn.opened, lines.first_mut()) {
        let name = hall.now().names.name(position);
        *first = first.replacen(&name, &streams.style.bold(&name), 1);
    }
    for line in lines {
        writeln!(streams.out, "{line}")?;
    }
    Ok(())
}

/// One turn for programs.
fn turn_object(hall: &Rehearsal<'_>, number: usize, turn: Turn) -> String {
    let object = Object::new().count("turn", number);
    let object = match turn.opened {
        Opened::Beside => object.string("opened", "beside"),
        Opened::Nothing => object.string("opened", "nothing"),
        Opened::Station(position) => object
            .string("opened", "station")
            .count("position", position)
            .string("station", hall.now().names.name(position))
            .string("does", does(hall, position)),
    };
    object
        .count("left", turn.left)
        .string("sentence", sentence(hall, turn))
        .written()
}

/// The end of an opening.
fn last_object(hall: &Rehearsal<'_>, turns: usize) -> String {
    let names = &hall.now().names;
    let stations = (0..names.len()).map(|position| json::string(&names.name(position)));
    Object::new()
        .count("turns", turns)
        .raw("stations", json::list(stations))
        .written()
}
