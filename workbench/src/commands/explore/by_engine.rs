//! `hall explore --engine`

use super::engine_watch::{Foretold, Watch};
use super::progress::Progress;
use super::{exit, wrong, Job};
use crate::commands::{Args, Failure, Outcome, Streams};
use crate::explore::engine::{engine_search, EngineFound, Failed};
use crate::explore::facts::{Answer, Verdict};
use crate::explore::investigate::{investigate, Explored};
use crate::explore::objects;
use crate::explore::report::{choice_lines, counted, verdict};
use crate::explore::search::{Limits, Questions};
use crate::json::{list, Object};
use crate::style::{width, wrapped, Style};

/// What the rules lead to is looked up first, if that takes no more memory: some
/// hundred thousand situations, of which the engine makes far more halls.
const SMALL: usize = 20_000_000;

impl From<Failed> for Failure {
    fn from(failed: Failed) -> Failure {
        Failure::Contradiction(match failed {
            Failed::Refused(refusal) => format!("the engine refuses a hall of its own: {refusal}"),
            Failed::NoSituation => "a hall of the engine has a station of no table".to_owned(),
        })
    }
}

pub(super) fn by_engine(job: &Job<'_>, args: &Args, streams: &mut Streams<'_>) -> Outcome {
    if args
        .values("--dot")
        .chain(args.values("--save"))
        .chain(args.values("--svg"))
        .next()
        .is_some()
    {
        return Err(wrong("--dot, --svg and --save are not for --engine"));
    }
    // What the text asks can't be left out of the call; it is not asked.
    let mut leads = job.questions.leads.iter();
    if let Some(question) = leads.find(|it| it.place >= job.loaded.program.questions.len()) {
        let words = format!("--engine does not answer '{}'", question.text);
        return Err(wrong(&words));
    }
    let mut progress = Progress::new();
    let small = Limits {
        memory: job.limits.memory.min(SMALL),
        ..job.limits
    };
    let before = Some(by_rules(job, small, &mut progress)).filter(Explored::ends_known);
    let foretold = before.as_ref().map(Foretold::of);
    let mut watch = Watch::new(job, foretold.as_ref());
    let used = before.as_ref().map_or(0, |before| before.found.memory());
    let left = Limits {
        memory: job.limits.memory.saturating_sub(used),
        ..job.limits
    };
    let found = engine_search(&job.loaded.table, left, &mut |found, done| {
        progress.tell(found.halls.len(), usize::try_from(done).unwrap_or(0));
        watch.look(found, &mut progress, streams)
    })?;
    watch.at_odds()?;
    let answers = watch.answers(&found)?;
    watch.at_odds()?;
    let compared = match (&foretold, found.cut) {
        (_, Some(_)) => false,
        (Some(foretold), None) => foretold.compare(&found).map(|()| true)?,
        (None, None) => {
            watch.look(&found, &mut progress, streams);
            let behind = by_rules(job, job.limits, &mut progress);
            let known = behind.ends_known();
            if known {
                Foretold::of(&behind).compare(&found)?;
            }
            known
        }
    };
    drop(progress);
    if job.json {
        writeln!(streams.out, "{}", object(&found, compared, &answers))?;
    } else {
        let text = text(job, &found, compared, &answers, streams.style);
        streams.out.write_all(text.as_bytes())?;
    }
    let all_hold = answers.iter().all(Answer::as_expected);
    Ok(exit(compared && all_hold))
}

/// The situations that the rules lead to.
fn by_rules(job: &Job<'_>, limits: Limits, progress: &mut Progress) -> Explored {
    let (table, questions) = (&job.loaded.table, Questions::default());
    investigate(table, &questions, limits, &mut |so_far, done| {
        progress.tell(so_far.found.store.len(), done);
    })
}

fn object(found: &EngineFound, compared: bool, answers: &[Answer]) -> String {
    Object::new()
        .count("halls", found.halls.len())
        .number("steps", found.steps)
        .count("situations", found.situations.len())
        .count("ends", found.ends.len())
        .count("rounds", found.rounds.len())
        .truth("complete", found.cut.is_none())
        .truth("compared", compared)
        .truth("met_19", found.full_hall)
        .truth("met_20", found.full_tray)
        .raw("answers", list(answers.iter().map(objects::answer)))
        .written()
}

fn text(
    job: &Job<'_>,
    found: &EngineFound,
    compared: bool,
    answers: &[Answer],
    style: Style,
) -> String {
    let number = |count: usize| u64::try_from(count).unwrap_or(u64::MAX);
    let mut lines = wrapped(
        "",
        &format!(
            "{}: by the engine's own steps {}, {} between them, {}, {} and {} never left; {}.",
            style.bold(job.name),
            counted(number(found.halls.len()), "hall"),
            counted(found.steps, "step"),
            counted(number(found.situations.len()), "situation"),
            counted(number(found.ends.len()), "end"),
            counted(number(found.rounds.len()), "round"),
            if found.cut.is_none() {
                "all of them seen"
            } else {
                "cut short, there may be more"
            }
        ),
    );
    lines.push(
        if compared {
            "compared with the rules: the same situations, the same ends and the same rounds"
        } else {
            "not compared with the rules: not all is known"
        }
        .to_owned(),
    );
    let met: Vec<&str> = [(found.full_hall, "19"), (found.full_tray, "20")]
        .into_iter()
        .filter(|(met, _)| *met)
        .map(|(_, number)| number)
        .collect();
    let so_far = if found.cut.is_none() {
        ""
    } else {
        ", as far as seen"
    };
    let met = match met.as_slice() {
        [] => "none".to_owned(),
        numbers => numbers.join(", "),
    };
    lines.push(format!("limits of the engine met{so_far}: {met}"));
    for answer in answers {
        lines.extend(answer_lines(answer, style));
    }
    for question in &job.questions.leads {
        let words = format!("{}: not asked of the engine's own steps", question.text);
        lines.extend(wrapped("", &words));
    }
    let mut text = lines.join("\n");
    text.push('\n');
    text
}

/// A step of the engine is a choice.
fn answer_lines(answer: &Answer, style: Style) -> Vec<String> {
    let words = format!("{}: {}", answer.told(), verdict(answer, style));
    let mut lines = wrapped("", &words);
    if let Verdict::Broken(witness, _) = &answer.verdict {
        let words: Vec<&str> = witness.words().collect();
        if !words.is_empty() {
            lines.push("  choices".to_owned());
            lines.extend(choice_lines(&words, 4, width()));
        }
    }
    lines
}
