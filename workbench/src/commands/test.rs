//! `hall test`

use std::fs;
use std::io;
use std::path::Path;
use std::time::Instant;

use super::explore::limits;
use super::load::{self, Loaded, Unloaded};
use super::questions::{of_text, Asking};
use super::{run, Args, Exit, Failure, Outcome, Streams};
use crate::explore::facts::Collector;
use crate::explore::investigate::investigate;
use crate::explore::question::Binder;
use crate::explore::report::{counted, verdict};
use crate::style::Style;
use crate::text::problems::Problem;
use crate::text::source::Source;

/// Texts below a folder of this name have to be refused.
const REFUSED: &str = "refused";

/// Runs every lesson and asks every question of the texts below folders.
pub(super) fn test(args: &Args, streams: &mut Streams<'_>) -> Outcome {
    // Whether the limits can be read has to be known before anything is said.
    limits("test", args, Instant::now())?;
    let mut texts = Vec::new();
    for name in &args.files {
        let found = texts_below(Path::new(name))
            .map_err(|error| Failure::File(format!("cannot read {name}: {error}")))?;
        if found.is_empty() {
            let words = format!("there is no text below {name}: their names end in .hall");
            return Err(Failure::File(words));
        }
        texts.extend(found);
    }
    let mut tester = Tester {
        args,
        streams,
        quiet: args.has("--quiet"),
        tested: Tested::default(),
    };
    for text in &texts {
        tester.text(text)?;
    }
    tester.last_line(texts.len())?;
    Ok(match tester.tested.broken {
        0 => Exit::Good,
        _ => Exit::Refused,
    })
}

/// The texts below a folder by their paths, or the one file. Links to folders are
/// not followed, since they may lead round.
fn texts_below(path: &Path) -> io::Result<Vec<String>> {
    if !fs::metadata(path)?.is_dir() {
        return Ok(vec![shown(path)]);
    }
    let mut entries: Vec<_> = fs::read_dir(path)?.collect::<io::Result<_>>()?;
    entries.sort_by_key(fs::DirEntry::file_name);
    let mut texts = Vec::new();
    for entry in entries {
        let path = entry.path();
        if entry.file_type()?.is_dir() {
            texts.extend(texts_below(&path)?);
        } else if path.extension().is_some_and(|ending| ending == "hall") && path.is_file() {
            texts.push(shown(&path));
        }
    }
    Ok(texts)
}

fn shown(path: &Path) -> String {
    path.to_string_lossy().into_owned()
}

/// Whether a text stands below a folder of those that have to be refused.
fn to_be_refused(name: &str) -> bool {
    let folder = Path::new(name).parent();
    let mut folders = folder.into_iter().flat_map(Path::components);
    folders.any(|folder| folder.as_os_str() == REFUSED)
}

/// What was tested so far.
#[derive(Default)]
struct Tested {
    lessons: u64,
    questions: u64,
    /// Of these, and of the texts themselves.
    broken: u64,
}

struct Tester<'a, 's, 't> {
    args: &'a Args,
    streams: &'t mut Streams<'s>,
    quiet: bool,
    tested: Tested,
}

impl Tester<'_, '_, '_> {
    fn text(&mut self, name: &str) -> Result<(), Failure> {
        let loaded = match load::load(name, false, self.streams) {
            Ok(loaded) => loaded,
            Err(Unloaded::Failed(failure)) => return Err(failure),
            Err(unloaded) => return self.refused(name, &unloaded),
        };
        if to_be_refused(name) {
            let words = format!("{name}: accepted, and it has to be refused");
            return self.line(false, &words);
        }
        let lesson = self.lesson(name, &loaded)?;
        let questions = self.questions(name, &loaded)?;
        if !lesson && !questions {
            self.line(true, &format!("{name}: no lesson and no question"))?;
        }
        Ok(())
    }

    fn refused(&mut self, name: &str, unloaded: &Unloaded) -> Result<(), Failure> {
        if to_be_refused(name) {
            return self.line(true, &format!("{name}: refused, as it has to be"));
        }
        match unloaded {
            Unloaded::Text(source, problems) => {
                for problem in problems.iter().take(1) {
                    self.line(false, &on_text(source, problem, "refused"))?;
                }
                Ok(())
            }
            _ => self.line(false, &format!("{name}: refused")),
        }
    }

    /// Runs the lesson of a text; whether there is one.
    fn lesson(&mut self, name: &str, loaded: &Loaded) -> Result<bool, Failure> {
        let lines = loaded.program.choices.as_ref();
        if lines.map_or(true, Vec::is_empty) && loaded.choice_bytes.is_empty() {
            return Ok(false);
        }
        self.tested.lessons += 1;
        let (mut out, mut err) = (Vec::new(), Vec::new());
        let args = Args::read("run", &["--quiet", "--", name].map(str::to_owned))?;
        let exit = run::run(
            &args,
            &mut Streams {
                input: &mut io::empty(),
                out: &mut out,
                err: &mut err,
                style: Style::PLAIN,
                err_style: Style::PLAIN,
                out_is_terminal: false,
                input_is_terminal: false,
            },
        )?;
        let first = |bytes: &[u8]| {
            let words = String::from_utf8_lossy(bytes);
            words.lines().next().unwrap_or("").to_owned()
        };
        match exit {
            Exit::Good => {
                let last = first(&out);
                let done = last.split(':').next().unwrap_or("");
                self.line(true, &format!("{name}: lesson: {done}, as expected"))?;
            }
            Exit::Refused | Exit::Signal(_) => {
                let words = first(&err).replacen(": error: ", ": lesson: broken: ", 1);
                self.line(false, &words)?;
            }
        }
        Ok(true)
    }

    /// Asks the questions of a text; whether there are some.
    fn questions(&mut self, name: &str, loaded: &Loaded) -> Result<bool, Failure> {
        let Loaded { table, program, .. } = loaded;
        let questions = match of_text(&Binder::new(table, program), loaded) {
            Asking::Asked(questions) if questions.is_empty() => return Ok(false),
            Asking::Asked(questions) => questions,
            Asking::Wrong(source, problems) => {
                for problem in &problems {
                    self.tested.questions += 1;
                    self.line(false, &on_text(&source, problem, "refused"))?;
                }
                return Ok(true);
            }
        };
        let limits = limits("test", self.args, Instant::now())?;
        let explored = investigate(table, &questions, limits, &mut |_, _| {});
        let answers = Collector {
            table,
            program,
            explored: &explored,
            questions: &questions,
            limits,
            most_ends: 0,
        }
        .answers()?;
        for answer in &answers {
            self.tested.questions += 1;
            let verdict = verdict(answer, self.streams.style);
            self.line(
                answer.as_expected(),
                &format!("{name}: {}: {verdict}", answer.told()),
            )?;
        }
        Ok(true)
    }

    /// A line for each thing tested; only those that are broken where it is quiet.
    fn line(&mut self, good: bool, words: &str) -> Result<(), Failure> {
        self.tested.broken += u64::from(!good);
        if !good || !self.quiet {
            writeln!(self.streams.out, "{words}")?;
            self.streams.out.flush()?;
        }
        Ok(())
    }

    fn last_line(&mut self, texts: usize) -> Result<(), Failure> {
        let Tested {
            lessons,
            questions,
            broken,
        } = self.tested;
        let verdict = match broken {
            0 => self.streams.style.good("all as they should be"),
            _ => self.streams.style.bad(&format!("{broken} broken")),
        };
        let texts = u64::try_from(texts).unwrap_or(u64::MAX);
        writeln!(
            self.streams.out,
            "{}, {}, {}: {verdict}",
            counted(texts, "text"),
            counted(lessons, "lesson"),
            counted(questions, "question")
        )?;
        Ok(())
    }
}

/// A problem of a text in one line.
fn on_text(source: &Source, problem: &Problem, what: &str) -> String {
    let at = source.position(problem.span.start);
    let message = &problem.message;
    format!(
        "{}:{}:{}: {what}: {message}",
        source.name, at.line, at.column
    )
}
