//! `hall build`

use super::check::refused;
use super::files::{not_over, write_whole};
use super::load::{self, Loaded};
use super::run::problems::{lost_problem, missed, unexpected};
use super::run::script::{script, Script};
use super::{Args, Exit, Failure, Outcome, Streams};
use crate::lesson::Lesson;
use crate::refusals;
use crate::text::choices::Line;
use crate::text::problems::Problem;
use crate::text::source::Source;

/// The bytes of a text's table.
pub(super) fn build(args: &Args, streams: &mut Streams<'_>) -> Outcome {
    let name = args.file(0).unwrap_or("-");
    if args.output.is_none() && streams.out_is_terminal {
        return Err(Failure::Usage(
            "build: bytes do not belong on a terminal: add -o FILE".to_owned(),
        ));
    }
    if let Some(file) = &args.output {
        not_over(name, file)?;
    }
    // Bytes behind a table are choices, or they do not belong there.
    let loaded = if args.has("--choices") {
        load::load(name, args.has("--binary"), streams)
    } else {
        load::of_material(load::material_of(name, args.has("--binary"), streams)?)
    };
    let mut loaded = match loaded {
        Ok(loaded) => loaded,
        Err(unloaded) => return refused(name, unloaded, false, streams),
    };
    if let Some(source) = &loaded.source {
        load::tell(source, &loaded.notes, streams)?;
    }
    let mut bytes = loaded.table.bytes().to_vec();
    if args.has("--choices") {
        match choices(name, &mut loaded, streams)? {
            Some(choices) => bytes.extend(choices),
            None => return Ok(Exit::Refused),
        }
    }
    match &args.output {
        None => streams.out.write_all(&bytes)?,
        Some(file) => write_whole(file, &bytes)?,
    }
    Ok(Exit::Good)
}

/// The lesson's choices as one list: names are turned into positions by making
/// them. None where the lesson goes wrong, which has been told then.
fn choices(
    name: &str,
    loaded: &mut Loaded,
    streams: &mut Streams<'_>,
) -> Result<Option<Vec<u8>>, Failure> {
    let Ok(Some(script)) = script(name, None, loaded, streams) else {
        return Ok(Some(Vec::new()));
    };
    let Script {
        source,
        lines,
        leftover,
    } = script;
    let mut lesson = Lesson::open(&loaded.table, &loaded.program)?;
    for (index, line) in lines.iter().enumerate() {
        if let Some(problem) = made(&mut lesson, &source, line)? {
            load::tell(&source, &[problem], streams)?;
            return Ok(None);
        }
        if lesson.refused() > 0 {
            left_out(&source, &lines, index, streams)?;
            break;
        }
    }
    let mut list: Vec<u8> = lesson
        .calls()
        .iter()
        .flat_map(|call| call.choices.iter().copied())
        .collect();
    list.extend(leftover);
    Ok(Some(list))
}

/// Makes one line's choices; the problem where the lesson ends there.
fn made(lesson: &mut Lesson<'_>, source: &Source, line: &Line) -> Result<Option<Problem>, Failure> {
    let choice = match lesson.choice(&line.ask) {
        Ok(Some(choice)) => choice,
        Ok(None) => return Ok(None),
        Err(lost) => return Ok(Some(lost_problem(source, lesson, line.called, &lost))),
    };
    let whole = lesson.make_line(line, choice)?;
    Ok(match whole.refused {
        None => whole.moved.last().and_then(|it| missed(line, it.rule)),
        Some((_, refusal)) if line.expects(refusal) => None,
        Some((choice, refusal)) => {
            // What was refused has changed nothing.
            let reason = refusals::reason(lesson.rehearsal(), choice, refusal);
            Some(unexpected(line, refusal, reason, None))
        }
    })
}

/// A list ends with its refused choice: what the lesson does behind it is said
/// to be missing.
fn left_out(
    source: &Source,
    lines: &[Line],
    index: usize,
    streams: &mut Streams<'_>,
) -> Result<(), Failure> {
    let behind = lines.iter().skip(index + 1);
    let left = behind.filter(|line| line.is_choice()).count();
    let Some(line) = lines.get(index).filter(|_| left > 0) else {
        return Ok(());
    };
    let problem = Problem::note(line.span, "a refused choice ends a list of choices")
        .label(format!("{left} behind it left out"));
    load::tell(source, &[problem], streams)
}
