//! `hall check`

use super::load::{self, Loaded, Unloaded};
use super::questions::{self, Asking};
use super::{Args, Exit, Failure, Outcome, Streams};
use crate::bytes_told;
use crate::explore::question::Binder;
use crate::input::{self, Material};
use crate::json::{self, Object};
use crate::measures::measures;
use crate::stations;
use crate::table::Table;
use crate::text::problems::{Answered, Problem};
use crate::text::source::Source;
use ruonfidd::{check_hall, Hall, Refusal};

/// Whether a file is accepted.
pub(super) fn check(args: &Args, streams: &mut Streams<'_>) -> Outcome {
    let name = args.file(0).unwrap_or("-");
    let material = load::material_of(name, args.has("--binary"), streams)?;
    if args.file(1).is_some() && !matches!(material, Material::Bytes(_)) {
        return Err(Failure::Usage(
            "check: a stored hall belongs to a table of bytes, not to a text: build the table \
             once and keep it beside the hall"
                .to_owned(),
        ));
    }
    let loaded = load::of_material(material);
    let json = args.has("--json");
    match loaded {
        Err(unloaded) => refused(name, unloaded, json, streams),
        Ok(loaded) => match args.file(1) {
            None => match questions::of_text(&Binder::new(&loaded.table, &loaded.program), &loaded)
            {
                Asking::Asked(_) => accepted(name, &loaded, json, streams),
                Asking::Wrong(source, problems) => {
                    refused(name, Unloaded::Text(source, problems), json, streams)
                }
            },
            Some(hall) => stored_hall(hall, &loaded.table, json, streams),
        },
    }
}

/// How much of each limit a table uses.
struct Used {
    terms: usize,
    trays: usize,
    stations: usize,
    longest_way: u64,
    most_ways: u64,
}

fn used(table: &Table) -> Result<Used, Failure> {
    let contradiction =
        || Failure::Contradiction("an accepted table opens no hall that can be read".to_owned());
    let (hall, _) = Hall::open(table.bytes()).map_err(|_| contradiction())?;
    let stations = stations::stations(&hall).ok_or_else(contradiction)?;
    let measures = measures(table.terms());
    Ok(Used {
        terms: table.terms().len(),
        trays: table.trays_in_use().len(),
        stations: stations.len(),
        longest_way: measures.iter().map(|it| it.length).max().unwrap_or(0),
        most_ways: measures.iter().map(|it| it.branches).max().unwrap_or(0),
    })
}

fn accepted(name: &str, loaded: &Loaded, json: bool, streams: &mut Streams<'_>) -> Outcome {
    let Used {
        terms,
        trays,
        stations,
        longest_way,
        most_ways,
    } = used(&loaded.table)?;
    if json {
        let nowhere = Source::new("", "");
        let source = loaded.source.as_ref().unwrap_or(&nowhere);
        let notes = loaded.notes.iter().map(|note| problem_object(source, note));
        let object = Object::new()
            .truth("accepted", true)
            .count("terms", terms)
            .count("trays", trays)
            .count("stations", stations)
            .number("longest_way", longest_way)
            .number("most_ways", most_ways)
            .raw("problems", json::list(notes));
        writeln!(streams.out, "{}", object.written())?;
        return Ok(Exit::Good);
    }
    if let Some(source) = &loaded.source {
        load::tell(source, &loaded.notes, streams)?;
    }
    writeln!(
        streams.out,
        "{}: {}. {terms} of 200 terms, {trays} of 16 trays, {stations} of 64 stations, \
         longest way {longest_way} of 16, most ways {most_ways} of 8.",
        input::shown_name(name),
        streams.style.good("accepted")
    )?;
    Ok(Exit::Good)
}

/// Tells why a file gave no table.
///
/// # Errors
///
/// Failures that are no refusals are handed on.
pub(super) fn refused(
    name: &str,
    unloaded: Unloaded,
    json: bool,
    streams: &mut Streams<'_>,
) -> Outcome {
    match unloaded {
        Unloaded::Failed(failure) => return Err(failure),
        Unloaded::Text(source, problems) if json => {
            let problems = problems.iter().map(|it| problem_object(&source, it));
            refused_object(json::list(problems), streams)?;
        }
        Unloaded::Text(source, problems) => load::tell(&source, &problems, streams)?,
        Unloaded::Table(bytes, refusal) if json => {
            let problem = refusal_object(refusal, bytes_told::words(&bytes, refusal));
            refused_object(json::list([problem]), streams)?;
        }
        Unloaded::Table(bytes, refusal) => {
            let words =
                bytes_told::told(input::shown_name(name), &bytes, refusal, streams.err_style);
            streams.err.write_all(words.as_bytes())?;
        }
    }
    Ok(Exit::Refused)
}

fn refused_object(problems: String, streams: &mut Streams<'_>) -> Result<(), Failure> {
    let object = Object::new()
        .truth("accepted", false)
        .raw("problems", problems);
    writeln!(streams.out, "{}", object.written())?;
    Ok(())
}

fn refusal_object(refusal: Refusal, message: &str) -> String {
    Object::new()
        .string("level", "error")
        .string("code", "engine")
        .string("message", message)
        .number("refusal", refusal.number)
        .count("place", refusal.place)
        .written()
}

/// A problem of a text for programs.
pub(super) fn problem_object(source: &Source, problem: &Problem) -> String {
    let at = source.position(problem.span.start);
    let length = source.piece(problem.span).chars().count().max(1);
    let help = problem.help.iter().map(|line| json::string(line));
    let mut object = Object::new()
        .string("level", problem.level.word())
        .string("code", problem.code)
        .count("line", at.line)
        .count("column", at.column)
        .count("length", length)
        .string("message", &problem.message)
        .string("label", &problem.label)
        .raw("help", json::list(help));
    if let Some(Answered { number, place }) = problem.refusal {
        object = object.number("refusal", number);
        if let Some(place) = place {
            object = object.count("place", place);
        }
    }
    object.written()
}

fn stored_hall(name: &str, table: &Table, json: bool, streams: &mut Streams<'_>) -> Outcome {
    let bytes = load::bytes_of(name, streams)?;
    match check_hall(table.bytes(), &bytes) {
        Ok(()) if json => {
            let object = Object::new().truth("accepted", true);
            writeln!(streams.out, "{}", object.written())?;
            Ok(Exit::Good)
        }
        Ok(()) => {
            let accepted = streams.style.good("accepted");
            let name = input::shown_name(name);
            writeln!(streams.out, "{name}: {accepted}: a hall of this table.")?;
            Ok(Exit::Good)
        }
        Err(refusal) if json => {
            let problem = refusal_object(refusal, bytes_told::words(&bytes, refusal));
            refused_object(json::list([problem]), streams)?;
            Ok(Exit::Refused)
        }
        Err(refusal) => {
            let words =
                bytes_told::hall_told(input::shown_name(name), &bytes, refusal, streams.err_style);
            streams.err.write_all(words.as_bytes())?;
            Ok(Exit::Refused)
        }
    }
}
