//! Runs for programs: one object a line.

use ruonfidd::{say, Answer, Choice, Refusal, Shortage};

use super::still;
use crate::commands::Failure;
use crate::json::{self, Object};
use crate::lesson::Lesson;
use crate::names::Names;
use crate::rehearsal::{position_of, Happened};
use crate::text::tree::Program;
use crate::ways::count_of;

/// The bytes of a choice.
fn bytes_of(choice: Choice) -> String {
    let mut bytes = Vec::new();
    choice.write_to(&mut bytes);
    json::list(bytes.iter().map(u8::to_string))
}

/// A choice that moved.
pub(crate) fn moved_object(lesson: &Lesson<'_>, happened: &Happened, sentence: &str) -> String {
    let program = lesson.rehearsal().program();
    let trays = program.trays.iter().fold(Object::new(), |object, tray| {
        object.number(&tray.name, count_of(&happened.after.counts, tray.number))
    });
    let answer = Answer::Moved {
        rule: happened.rule.number,
        shortage: happened.shortage,
    };
    let object = Object::new()
        .raw("choice", bytes_of(happened.choice))
        .string("station", happened.before.names.name(happened.position()))
        .count("position", happened.position())
        .number("moved", happened.rule.number)
        .string("rule", happened.rule.calculus)
        .string("word", happened.rule.word);
    with_shortage(object, program, happened.shortage)
        .string("sentence", sentence)
        .string("engine", by_engine(happened.choice, answer))
        .raw("trays", trays.written())
        .raw("stations", names_of(&happened.after.names))
        .written()
}

/// The names of those that stand there, by their positions.
fn names_of(names: &Names) -> String {
    json::list((0..names.len()).map(|position| json::string(&names.name(position))))
}

/// With the tray that was short and by how many, where the engine told one.
fn with_shortage(object: Object, program: &Program, shortage: Option<Shortage>) -> Object {
    let Some(Shortage { tray, by }) = shortage else {
        return object;
    };
    let short = Object::new()
        .string("tray", program.tray_name(tray))
        .number("by", by.get());
    object.raw("short", short.written())
}

/// A choice that was refused, as the lesson expects.
pub(crate) fn refused_object(
    lesson: &Lesson<'_>,
    choice: Choice,
    refusal: Refusal,
    sentence: &str,
) -> String {
    Object::new()
        .raw("choice", bytes_of(choice))
        .string("station", lesson.now().names.name(position_of(choice)))
        .count("position", position_of(choice))
        .number("refused", refusal.number)
        .string("sentence", sentence)
        .string("engine", by_engine(choice, Answer::Refused(refusal.number)))
        .written()
}

/// The engine's own sentence, which has numbers where the other one has names.
fn by_engine(choice: Choice, answer: Answer) -> String {
    say(choice.to_bytes(), answer).to_string()
}

/// The end of a run.
pub(crate) fn last_object(lesson: &Lesson<'_>) -> Result<String, Failure> {
    let hall = lesson.rehearsal();
    let first = hall.table().counts();
    let trays = hall
        .program()
        .trays
        .iter()
        .fold(Object::new(), |object, tray| {
            let counts = [
                count_of(&first, tray.number).to_string(),
                count_of(&hall.now().counts, tray.number).to_string(),
            ];
            object.raw(&tray.name, json::list(counts))
        });
    // A call that a refusal ended, with nothing behind it.
    let ended = match lesson.calls() {
        [.., refused, open] if open.choices.is_empty() => refused.refused,
        _ => None,
    };
    let tally = hall.tally();
    Ok(Object::new()
        .count("done", lesson.done())
        .count("refused", lesson.refused())
        .number("ended", ended.unwrap_or(0))
        .number("commits", tally.commits)
        .number("failed", tally.failed)
        .number("retries", tally.retries)
        .truth("still", still(lesson)?)
        .raw("trays", trays.written())
        .raw("stations", names_of(&hall.now().names))
        .written())
}
