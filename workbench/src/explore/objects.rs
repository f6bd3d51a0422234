//! An exploration for programs: one object.

use crate::json::{list, string, Object};
use crate::text::tree::Program;

use super::facts::{Answer, End, Facts, ForEver, LastRound, Verdict};
use super::investigate::Explored;
use super::replay::Witness;
use super::report::{cut_words, exact_words};
use super::search::Cut;
use super::waiting::{InRound, Left};

/// The object of an exploration.
#[must_use]
pub fn object(program: &Program, explored: &Explored, facts: &Facts, seconds: f64) -> Object {
    let found = &explored.found;
    let trays = facts.trays.iter().fold(Object::new(), |trays, tray| {
        let (name, least, most) = tray;
        trays.raw(name, format!("[{least}, {most}]"))
    });
    let taken = facts.never_taken.iter().map(|(block, way, words)| {
        Object::new()
            .string("block", block)
            .count("way", *way)
            .string("steps", words)
            .written()
    });
    Object::new()
        .number("situations", found.situations)
        .number("steps", found.marks.steps)
        .truth("complete", explored.complete())
        .truth("exact", explored.exact.yes())
        .string("exact_by", exact_words(explored.exact))
        .raw("seconds", format!("{seconds:.2}"))
        .count("memory", found.memory())
        .count("end_situations", found.ends.len())
        .count("end_sorts", facts.sorts)
        .raw("ends_cut_by", option(facts.ends_cut))
        .raw(
            "ends",
            list(
                facts
                    .ends
                    .iter()
                    .map(|end| end_object(program, explored, end)),
            ),
        )
        .raw("rounds", rounds(program, explored, facts))
        .raw("round_sorts", round_sorts(explored))
        .raw("rounds_cut_by", option(facts.rounds_cut))
        .raw("trays", trays.written())
        .raw("never_act", strings(&facts.never_act))
        .raw("never_open", strings(&facts.never_open))
        .raw("never_taken", list(taken))
        .raw("for_ever", for_ever(&facts.for_ever))
        .raw(
            "for_ever_without_commit",
            for_ever(&facts.for_ever_no_commit),
        )
        .raw("met_19", witness_or_null(facts.full_hall.as_ref()))
        .raw("met_20", witness_or_null(facts.full_tray.as_ref()))
        .raw("answers", list(facts.answers.iter().map(answer)))
}

/// Null where they are not known.
fn rounds(program: &Program, explored: &Explored, facts: &Facts) -> String {
    facts.rounds.as_ref().map_or("null".to_owned(), |rounds| {
        let rounds = rounds.iter();
        list(rounds.map(|round| round_object(program, explored, round)))
    })
}

fn round_sorts(explored: &Explored) -> String {
    let rounds = explored.rounds.as_ref();
    rounds.map_or("null".to_owned(), |rounds| rounds.sorts.len().to_string())
}

fn end_object(program: &Program, explored: &Explored, end: &End) -> String {
    let counts = explored.model.trays().iter().zip(&end.counts);
    let trays = counts.fold(Object::new(), |trays, (tray, count)| {
        trays.number(&program.tray_name(*tray), *count)
    });
    with_witness(
        Object::new()
            .raw("trays", trays.written())
            .count("situations", end.situations)
            .raw("left", list(standing(&end.left))),
        &end.witness,
    )
    .written()
}

fn round_object(program: &Program, explored: &Explored, round: &LastRound) -> String {
    let extremes = explored.model.trays().iter().zip(&round.extremes);
    let trays = extremes.fold(Object::new(), |trays, (tray, (least, most))| {
        trays.raw(&program.tray_name(*tray), format!("[{least}, {most}]"))
    });
    with_witness(
        Object::new()
            .raw("trays", trays.written())
            .count("rounds", round.rounds)
            .number("situations", round.situations)
            .raw("who", in_round(&round.who)),
        &round.witness,
    )
    .written()
}

fn in_round(who: &InRound) -> String {
    Object::new()
        .raw("go_on", strings(&who.go_on))
        .raw("never_again", strings(&who.never_again))
        .written()
}

/// Who is left and should not be.
fn standing(stations: &[Left]) -> impl Iterator<Item = String> + '_ {
    stations.iter().filter(|one| !one.may_stay).map(left)
}

fn left(left: &Left) -> String {
    Object::new()
        .string("station", &left.name)
        .string("state", left.state.word())
        .string("sentence", format!("{} {}", left.name, left.words))
        .written()
}

/// The answer to a question.
#[must_use]
pub fn answer(answer: &Answer) -> String {
    let object = Object::new()
        .string("asked", answer.asked.word())
        .string("question", &answer.question)
        .string("expected", if answer.breaks { "broken" } else { "holds" })
        .raw("cost", answer.cost.map_or("null".to_owned(), cost));
    match &answer.verdict {
        Verdict::Holds => object.string("verdict", "holds"),
        Verdict::Open => object.string("verdict", "not known"),
        Verdict::Broken(witness, stations) => with_witness(
            object
                .string("verdict", "broken")
                .raw("left", list(standing(stations)))
                .raw(
                    "round",
                    answer.round.as_ref().map_or("null".to_owned(), in_round),
                )
                .raw(
                    "round_from",
                    answer
                        .again
                        .map_or("null".to_owned(), |again| again.before.to_string()),
                ),
            witness,
        ),
    }
    .written()
}

fn cost((situations, steps, bytes): (usize, usize, usize)) -> String {
    Object::new()
        .count("situations", situations)
        .count("steps", steps)
        .count("memory", bytes)
        .written()
}

fn with_witness(object: Object, witness: &Witness) -> Object {
    let bytes = witness
        .bytes()
        .iter()
        .map(u8::to_string)
        .collect::<Vec<_>>();
    object
        .count("steps", witness.steps)
        .raw("choices", list(witness.words().map(string)))
        .raw("made_by", list(witness.called().map(made_by)))
        .raw("bytes", list(bytes))
}

fn made_by((station, position): (String, usize)) -> String {
    Object::new()
        .string("station", station)
        .count("position", position)
        .written()
}

fn witness_or_null(witness: Option<&Witness>) -> String {
    witness.map_or("null".to_owned(), |witness| {
        with_witness(Object::new(), witness).written()
    })
}

/// A round begins behind so many of its choices.
fn for_ever(for_ever: &ForEver) -> String {
    match for_ever {
        ForEver::No => "false".to_owned(),
        ForEver::Unknown => "null".to_owned(),
        ForEver::Yes(witness, before) => {
            with_witness(Object::new().count("round_from", *before), witness).written()
        }
    }
}

/// The option that cut something short, or what else did.
fn option(cut: Option<Cut>) -> String {
    cut.map_or("null".to_owned(), |cut| string(cut_words(cut)))
}

fn strings(words: &[String]) -> String {
    list(words.iter().map(|word| string(word)))
}
