//! `hall explore`

mod by_engine;
mod by_groups;
mod engine_watch;
mod faults;
mod progress;

use std::time::{Duration, Instant};

use super::check::refused;
use super::files::{not_over, write_whole};
use super::load::{self, Loaded, Unloaded};
use super::questions::{of_text, Asking};
use super::{Args, Exit, Failure, Outcome, Streams};
use crate::explore::dot::{picture, MOST_DRAWN};
use crate::explore::facts::{Collector, Facts, ForEver, Verdict};
use crate::explore::graph::{Graph, MOST_NODES};
use crate::explore::investigate::{investigate, Explored};
use crate::explore::labels::Labels;
use crate::explore::objects;
use crate::explore::question::Binder;
use crate::explore::replay::{Contradiction, Witness};
use crate::explore::report::{choice_lines, when, Report};
use crate::explore::search::{Limits, Questions};
use crate::lesson::Lesson;
use crate::steps::lanes::Drawn;
use crate::system;
use crate::text::asking::{self, Asked, Mistake};
use faults::Faults;
use progress::Progress;

/// Megabytes that are used where nothing else is said.
const USUAL_MEMORY: usize = 2000;
/// Sorts of ends that are told where not all are wanted.
const USUAL_ENDS: usize = 12;
/// The same for `--json`.
const USUAL_ENDS_FOR_PROGRAMS: usize = 1000;
/// A file that is kept does not depend on the terminal.
const SAVED_WIDTH: usize = 80;

impl From<Contradiction> for Failure {
    fn from(contradiction: Contradiction) -> Failure {
        Failure::Contradiction(contradiction.what)
    }
}

/// What is to be explored, and how.
struct Job<'a> {
    name: &'a str,
    loaded: &'a Loaded,
    questions: Questions,
    limits: Limits,
    began: Instant,
    /// How large a graph for programs may be, where one is wanted.
    most_nodes: Option<usize>,
    json: bool,
    quiet: bool,
    /// Whether ways are told choice by choice.
    moves: bool,
}

/// Tries every way a hall can go.
pub(super) fn explore(args: &Args, streams: &mut Streams<'_>) -> Outcome {
    let name = args.file(0).unwrap_or("-");
    let json = args.has("--json");
    for file in args.values("--dot").chain(args.values("--svg")) {
        not_over(name, file)?;
    }
    let loaded = match load::load(name, args.has("--binary"), streams) {
        Ok(loaded) => loaded,
        Err(unloaded) => return refused(name, unloaded, json, streams),
    };
    // The search looks for signals; whoever is still to write the text must be
    // able to end the program too.
    system::listen();
    let began = Instant::now();
    let quiet = args.has("--quiet");
    let questions = match questions(args, &loaded)? {
        Asking::Asked(questions) => questions,
        Asking::Wrong(source, problems) => {
            return refused(name, Unloaded::Text(source, problems), json, streams)
        }
    };
    if quiet && (json || args.has("--groups") || args.has("--engine") || questions.is_empty()) {
        return Err(wrong(
            "--quiet tells the answers to questions alone, and not with --json, --groups or --engine",
        ));
    }
    let job = Job {
        name: if name == "-" { "standard input" } else { name },
        loaded: &loaded,
        questions,
        limits: limits("explore", args, began)?,
        began,
        most_nodes: most_nodes(args)?,
        json,
        quiet,
        moves: args.has("--moves"),
    };
    match (args.has("--groups"), args.has("--engine")) {
        (true, true) => Err(wrong("one of --groups and --engine at most")),
        (true, false) => by_groups::by_groups(&job, args, streams),
        (false, true) => by_engine::by_engine(&job, args, streams),
        (false, false) => by_steps(&job, args, streams),
    }
}

fn by_steps(job: &Job<'_>, args: &Args, streams: &mut Streams<'_>) -> Outcome {
    let Loaded { table, program, .. } = job.loaded;
    let mut progress = Progress::new();
    let mut faults = Faults::new(job);
    let explored = investigate(table, &job.questions, job.limits, &mut |so_far, done| {
        let found = if job.quiet {
            Vec::new()
        } else {
            faults.found(so_far, streams.style)
        };
        for words in found {
            progress.wipe();
            tell_early(&words, job.json, streams);
        }
        progress.tell(so_far.found.store.len(), done);
    });
    drop(progress);
    let most_ends = match (args.has("--all"), job.json) {
        (true, _) => usize::MAX,
        (false, true) => USUAL_ENDS_FOR_PROGRAMS,
        (false, false) => USUAL_ENDS,
    };
    let facts = Collector {
        table,
        program,
        explored: &explored,
        questions: &job.questions,
        limits: job.limits,
        most_ends,
    }
    .collect()?;
    let seconds = job.began.elapsed().as_secs_f64();
    if job.json {
        let mut object = objects::object(program, &explored, &facts, seconds);
        if let Some(most) = job.most_nodes {
            let labels = Labels::of(table, program, &explored.model);
            let graph = Graph::of(&explored, most, job.limits);
            object = object.raw("graph", graph.object(program, &labels));
        }
        writeln!(streams.out, "{}", object.written())?;
    } else {
        let report = Report {
            name: job.name,
            table,
            program,
            explored: &explored,
            facts: &facts,
            seconds,
            style: streams.style,
            moves: job.moves,
        };
        let text = if job.quiet {
            report.answers()
        } else {
            report.text()
        };
        streams.out.write_all(text.as_bytes())?;
    }
    let prefixes = args.values("--save");
    let saved: Vec<Saved<'_>> = prefixes.flat_map(|prefix| saved(prefix, &facts)).collect();
    for way in &saved {
        not_over(args.file(0).unwrap_or("-"), &way.file)?;
    }
    for file in args.values("--dot") {
        draw(file, job, &explored)?;
    }
    for file in args.values("--svg") {
        draw_ways(file, job, &facts)?;
    }
    for way in &saved {
        way.write(job.name)?;
    }
    Ok(exit(facts.all_hold()))
}

/// Every way that is told, in one picture.
fn draw_ways(file: &str, job: &Job<'_>, facts: &Facts) -> Result<(), Failure> {
    let Loaded { table, program, .. } = job.loaded;
    let opening = Lesson::open(table, program)?.now().names.clone();
    let mut ways = Vec::new();
    for way in saved(job.name, facts) {
        let told = way.witness.told(table, program);
        let when = when(way.witness);
        ways.extend(told.map(|told| (format!("{}, {when}", way.what), told)));
    }
    let drawn: Vec<Drawn<'_>> = ways
        .iter()
        .map(|(title, entries)| Drawn {
            title: format!("{}: {title}", job.name),
            opening: &opening,
            entries,
        })
        .collect();
    super::run::draw(file, program, &drawn)
}

/// Tells something before the end. For programs standard output has one object
/// and nothing else. Where it can't be written, that shows at the end too.
fn tell_early(words: &str, json: bool, streams: &mut Streams<'_>) {
    let stream = if json {
        &mut *streams.err
    } else {
        &mut *streams.out
    };
    let _ = stream
        .write_all(words.as_bytes())
        .and_then(|()| stream.flush());
}

/// Nothing but "it holds" is good; and what a signal cut short is not done.
fn exit(all_hold: bool) -> Exit {
    match system::signal() {
        Some(signal) => Exit::Signal(signal),
        None if all_hold => Exit::Good,
        None => Exit::Refused,
    }
}

fn wrong(words: &str) -> Failure {
    Failure::Usage(format!("explore: {words}"))
}

/// What is asked: by the text first, then by the call.
fn questions(args: &Args, loaded: &Loaded) -> Result<Asking, Failure> {
    let binder = Binder::new(&loaded.table, &loaded.program);
    let mut questions = match of_text(&binder, loaded) {
        Asking::Asked(questions) => questions,
        wrong @ Asking::Wrong(..) => return Ok(wrong),
    };
    questions.only_first = args.has("--first");
    for option in ["--never", "--ends", "--ask"] {
        for text in args.values(option) {
            let read = match option {
                "--never" => binder.read(Asked::Never, text),
                "--ends" => binder.read(Asked::Ends, text),
                _ => asking::read(text, &loaded.program).and_then(|asking| binder.bind(&asking)),
            };
            let question = read.map_err(|mistake| wrong(&mistaken(option, text, &mistake)))?;
            questions.add(question);
        }
    }
    Ok(Asking::Asked(questions))
}

/// The mistake, the question, and carets below.
fn mistaken(option: &str, text: &str, mistake: &Mistake) -> String {
    let shown: String = text
        .chars()
        .map(|letter| if letter.is_control() { ' ' } else { letter })
        .collect();
    let margin = " ".repeat(mistake.column - 1);
    let carets = "^".repeat(mistake.length);
    format!("{option}, {mistake}\n    {shown}\n    {margin}{carets}")
}

/// What an exploration may cost.
pub(super) fn limits(command: &str, args: &Args, began: Instant) -> Result<Limits, Failure> {
    let wrong = |words: &str| Failure::Usage(format!("{command}: {words}"));
    let mut limits = Limits::memory(USUAL_MEMORY * 1_000_000);
    for words in args.values("--memory") {
        let megabytes: Option<usize> = words.parse().ok().filter(|number| *number > 0);
        limits.memory = megabytes
            .and_then(|number| number.checked_mul(1_000_000))
            .ok_or_else(|| wrong(&format!("--memory wants megabytes, and '{words}' is none")))?;
    }
    for words in args.values("--seconds") {
        let seconds = words.parse().ok();
        let duration = seconds.and_then(|seconds| Duration::try_from_secs_f64(seconds).ok());
        let until = duration.and_then(|duration| began.checked_add(duration));
        limits.until =
            Some(until.ok_or_else(|| {
                wrong(&format!("--seconds wants a number, and '{words}' is none"))
            })?);
    }
    Ok(limits)
}

/// How many situations a graph for programs may have, where one is wanted.
fn most_nodes(args: &Args) -> Result<Option<usize>, Failure> {
    let Some(words) = args.values("--graph").last() else {
        return Ok(None);
    };
    if !args.has("--json") {
        return Err(wrong("--graph is a part of --json; --dot draws a picture"));
    }
    if args.has("--groups") || args.has("--engine") {
        return Err(wrong("--graph is not for --groups and --engine"));
    }
    let number = words.parse().ok();
    let number = number.filter(|number| (1..=MOST_NODES).contains(number));
    number.map(Some).ok_or_else(|| {
        wrong(&format!(
            "--graph wants a number of situations, 1 to {MOST_NODES}, and '{words}' is none"
        ))
    })
}

fn draw(file: &str, job: &Job<'_>, explored: &Explored) -> Result<(), Failure> {
    let Loaded { table, program, .. } = job.loaded;
    let labels = Labels::of(table, program, &explored.model);
    let Some(picture) = picture(program, explored, &labels) else {
        return Err(Failure::File(format!(
            "no picture in {file}: there are more than {MOST_DRAWN} situations"
        )));
    };
    write_whole(file, picture.as_bytes())
}

/// A way that gets a file of its own.
struct Saved<'a> {
    file: String,
    what: String,
    witness: &'a Witness,
}

/// Each way as a file of its own, whole.
fn saved<'a>(prefix: &str, facts: &'a Facts) -> Vec<Saved<'a>> {
    let mut ways: Vec<(String, &Witness)> = Vec::new();
    for (number, end) in (1..).zip(&facts.ends) {
        ways.push((format!("end-{number}"), &end.witness));
    }
    for (number, round) in (1..).zip(facts.rounds.iter().flatten()) {
        ways.push((format!("round-{number}"), &round.witness));
    }
    for (what, for_ever) in [
        ("for-ever", &facts.for_ever),
        ("no-commit", &facts.for_ever_no_commit),
    ] {
        if let ForEver::Yes(witness, _) = for_ever {
            ways.push((what.to_owned(), witness));
        }
    }
    for (what, witness) in [
        ("refused-19", &facts.full_hall),
        ("refused-20", &facts.full_tray),
    ] {
        if let Some(witness) = witness {
            ways.push((what.to_owned(), witness));
        }
    }
    for (number, answer) in (1..).zip(&facts.answers) {
        if let Verdict::Broken(witness, _) = &answer.verdict {
            ways.push((format!("{}-{number}", answer.asked.word()), witness));
        }
    }
    let named = ways.into_iter().map(|(what, witness)| Saved {
        file: format!("{prefix}-{what}.choices"),
        what,
        witness,
    });
    named.collect()
}

impl Saved<'_> {
    fn write(&self, name: &str) -> Result<(), Failure> {
        let words: Vec<&str> = self.witness.words().collect();
        let what = &self.what;
        let mut text = format!("# {what}: hall run {name} with these choices\nchoices\n");
        for line in choice_lines(&words, 2, SAVED_WIDTH) {
            text.push_str(&line);
            text.push('\n');
        }
        write_whole(&self.file, text.as_bytes())
    }
}
