//! `hall run`

mod objects;
pub(super) mod problems;
pub(super) mod script;

use ruonfidd::{Choice, Moved, Refusal};

use super::check::{problem_object, refused};
use super::files::{not_over, write_whole};
use super::load;
use super::{Args, Exit, Failure, Outcome, Streams};
use crate::board::Board;
use crate::explore::report::counted;
use crate::input::shown_name;
use crate::json::Object;
use crate::lesson::{Answer, Contradiction, Lesson};
use crate::names::Lost;
use crate::refusals;
use crate::rehearsal::{position_of, Happened};
use crate::rules::Rule;
use crate::sentences::Teller;
use crate::steps::lanes::{self, Drawn, MOST_DRAWN};
use crate::steps::layout::Layout;
use crate::steps::{fold, Steps};
use crate::style::{indented, width, wrapped};
use crate::text::choices::{Ask, Line};
use crate::text::problems::Problem;
use crate::text::source::{Source, Span};
use crate::text::tree::Program;
use crate::why::why;
use objects::{last_object, moved_object, refused_object};
use problems::{ends_here, lost_problem, missed, unexpected};
use script::{script, Script};

/// How much is said of a run.
#[derive(Clone, Copy, PartialEq, Eq)]
enum Told {
    /// A line for each step.
    Steps,
    /// A sentence for each choice.
    Moves,
    /// The last line alone.
    Quiet,
    /// Objects for programs.
    Json,
}

struct Run<'a, 's, 't> {
    lesson: Lesson<'a>,
    teller: Teller<'a>,
    steps: Steps<'a>,
    source: &'a Source,
    told: Told,
    /// Whether the hall is drawn behind every choice or step.
    boards: bool,
    streams: &'t mut Streams<'s>,
    number: usize,
    /// Whether the last line printed is an empty one.
    after_gap: bool,
    /// The name of the station that the choice calls.
    acting: String,
    /// Whether the steps are drawn, however they are told.
    draws: bool,
}

impl From<Contradiction> for Failure {
    fn from(contradiction: Contradiction) -> Failure {
        Failure::Contradiction(contradiction.0.to_owned())
    }
}

/// Makes the choices of a lesson and says what each did.
pub(super) fn run(args: &Args, streams: &mut Streams<'_>) -> Outcome {
    let name = args.file(0).unwrap_or("-");
    let told = match (args.has("--json"), args.has("--quiet"), args.has("--moves")) {
        (true, false, false) => Told::Json,
        (false, true, false) => Told::Quiet,
        (false, false, true) => Told::Moves,
        (false, false, false) => Told::Steps,
        _ => {
            return Err(Failure::Usage(
                "run: one of --json, --quiet and --moves at most".to_owned(),
            ))
        }
    };
    let boards = args.has("--board");
    if boards && !matches!(told, Told::Steps | Told::Moves) {
        return Err(Failure::Usage(
            "run: one of --json, --quiet and --board at most".to_owned(),
        ));
    }
    let json = told == Told::Json;
    for file in args.values("--svg") {
        not_over(name, file)?;
        if let Some(choices) = args.file(1) {
            not_over(choices, file)?;
        }
    }
    let mut loaded = match load::load(name, args.has("--binary"), streams) {
        Ok(loaded) => loaded,
        Err(unloaded) => return refused(name, unloaded, json, streams),
    };
    let script = match script(name, args.file(1), &mut loaded, streams) {
        Ok(script) => script,
        Err(unloaded) => return refused(name, unloaded, json, streams),
    };
    let lesson = Lesson::open(&loaded.table, &loaded.program)?;
    let Some(script) = script.filter(|it| !it.lines.is_empty() || !it.leftover.is_empty()) else {
        let note = match args.file(1) {
            Some(file) => format!("{}: note: there are no choices in it", shown_name(file)),
            None => no_choices_in(name, loaded.source.is_some()),
        };
        return no_choices(&note, &lesson, told, streams);
    };
    let opening = lesson.now().names.clone();
    let mut run = Run {
        lesson,
        teller: Teller::new(&loaded.table, &loaded.program),
        steps: Steps::new(&loaded.table, &loaded.program),
        source: &script.source,
        told,
        boards,
        streams,
        number: 0,
        after_gap: true,
        acting: String::new(),
        draws: args.values("--svg").next().is_some(),
    };
    let exit = run.all(&script)?;
    for file in args.values("--svg") {
        let drawn = Drawn {
            title: shown_name(name).to_owned(),
            opening: &opening,
            entries: run.steps.entries(),
        };
        draw(file, &loaded.program, &[drawn])?;
    }
    Ok(exit)
}

/// Writes the picture of some runs.
pub(super) fn draw(file: &str, program: &Program, runs: &[Drawn<'_>]) -> Result<(), Failure> {
    let Some(picture) = lanes::picture(program, runs) else {
        return Err(Failure::File(format!(
            "no picture in {file}: there are more than {MOST_DRAWN} steps"
        )));
    };
    write_whole(file, picture.as_bytes())
}

/// What to do about a text or a table without choices.
fn no_choices_in(name: &str, text: bool) -> String {
    let play = match name {
        "-" => String::new(),
        _ => format!("try hall play {name}, or "),
    };
    let add = if text {
        "write 'choices' behind 'start'"
    } else {
        "name a file of choices"
    };
    let name = shown_name(name);
    format!("{name}: note: there are no choices to make: {play}{add}")
}

fn no_choices(note: &str, lesson: &Lesson<'_>, told: Told, streams: &mut Streams<'_>) -> Outcome {
    if told == Told::Json {
        let last = last_object(lesson)?;
        writeln!(streams.out, "{last}")?;
        return Ok(Exit::Good);
    }
    for line in board(lesson, streams).lines(lesson.now(), 0) {
        writeln!(streams.out, "{line}")?;
    }
    streams.out.flush()?;
    writeln!(streams.err, "{note}")?;
    Ok(Exit::Good)
}

fn board<'a>(lesson: &Lesson<'a>, streams: &Streams<'_>) -> Board<'a> {
    Board {
        table: lesson.rehearsal().table(),
        program: lesson.rehearsal().program(),
        style: streams.style,
        folds: false,
    }
}

impl Run<'_, '_, '_> {
    fn all(&mut self, script: &Script) -> Outcome {
        let mut stopped = false;
        for (index, line) in script.lines.iter().enumerate() {
            if let Some(problem) = self.line(line)? {
                let left = script
                    .lines
                    .iter()
                    .skip(index + 1)
                    .filter(|it| it.is_choice())
                    .count();
                self.complain(problem, left)?;
                stopped = true;
                break;
            }
        }
        if !stopped && !script.leftover.is_empty() {
            stopped = true;
            self.leftover(&script.leftover)?;
        }
        if !stopped {
            self.tell_steps()?;
        }
        self.lesson.agrees()?;
        self.last_line()?;
        Ok(if stopped { Exit::Refused } else { Exit::Good })
    }

    /// One line; a problem where the lesson ends there.
    fn line(&mut self, line: &Line) -> Result<Option<Problem>, Failure> {
        if !line.is_choice() {
            // However a run is told, the same is drawn.
            self.steps.show();
        }
        if let Ask::Why(called) = &line.ask {
            return match self.lesson.position(called) {
                Ok(position) => self.why(position.into()).map(|()| None),
                Err(lost) => Ok(Some(self.lost(line, &lost))),
            };
        }
        let choice = match self.lesson.choice(&line.ask) {
            Ok(Some(choice)) => choice,
            Ok(None) => return self.board().map(|()| None),
            Err(lost) => return Ok(Some(self.lost(line, &lost))),
        };
        loop {
            let choice = match line.ask {
                // Each choice of a step follows from the hall behind the last one.
                Ask::Do(_) => self.next_of(choice),
                _ => choice,
            };
            let (over, problem) = self.choice(line, choice)?;
            if over || problem.is_some() {
                return Ok(problem);
            }
        }
    }

    fn next_of(&self, choice: Choice) -> Choice {
        let position = u8::try_from(position_of(choice)).unwrap_or(u8::MAX);
        self.lesson.rehearsal().next_of(position)
    }

    /// Makes one choice of a line: whether the line is over, and a problem where
    /// the lesson ends there.
    fn choice(&mut self, line: &Line, choice: Choice) -> Result<(bool, Option<Problem>), Failure> {
        let before = self.lesson.rehearsal().clone();
        self.acting = before.now().names.name(position_of(choice));
        match self.lesson.make(choice)? {
            Answer::Moved(happened) => {
                self.moved(&happened)?;
                let over = !matches!(line.ask, Ask::Do(_)) || happened.rule.ends_step();
                Ok((over, over.then(|| missed(line, happened.rule)).flatten()))
            }
            Answer::Refused(refusal) => {
                let reason = refusals::reason(&before, choice, refusal);
                if !line.expects(refusal) {
                    let instead = refusals::instead(&before, choice, refusal);
                    return Ok((true, Some(unexpected(line, refusal, reason, instead))));
                }
                self.refused(choice, refusal, &reason)?;
                Ok((true, None))
            }
        }
    }

    fn moved(&mut self, happened: &Happened) -> Result<(), Failure> {
        self.number += 1;
        if self.draws && self.told != Told::Steps {
            self.steps.moved(happened);
        }
        match self.told {
            Told::Quiet => {}
            Told::Json => {
                let sentence = self.teller.tell(happened);
                let object = moved_object(&self.lesson, happened, &sentence);
                writeln!(self.streams.out, "{object}")?;
            }
            Told::Moves => {
                let sentence = self.teller.tell(happened);
                self.numbered(happened.rule.calculus, Some(happened.rule), &sentence)?;
                if self.boards {
                    self.set_apart(&self.drawn())?;
                }
            }
            Told::Steps => {
                self.steps.moved(happened);
                if self.boards && happened.rule.ends_step() {
                    self.steps.apart(self.drawn());
                }
            }
        }
        Ok(())
    }

    /// All steps, where they are what is told. Only the end of an attempt shows
    /// how it is told, so this comes last.
    fn tell_steps(&mut self) -> Result<(), Failure> {
        if self.told != Told::Steps {
            return Ok(());
        }
        let told = fold::told(self.steps.entries());
        let layout = Layout {
            program: self.lesson.rehearsal().program(),
            style: self.streams.style,
            width: width(),
            indent: 0,
        };
        for line in layout.lines(&told) {
            writeln!(self.streams.out, "{line}")?;
            self.after_gap = line.is_empty();
        }
        Ok(())
    }

    fn numbered(&mut self, word: &str, rule: Option<Rule>, sentence: &str) -> Result<(), Failure> {
        let first = format!("{:>4}  {word:<6}  ", self.number);
        let name = self.acting.clone();
        for (index, line) in wrapped(&first, sentence).into_iter().enumerate() {
            let line = if index == 0 {
                let named = line.replacen(&name, &self.streams.style.bold(&name), 1);
                match painted(rule, word, self.streams) {
                    Some(paint) => named.replacen(word, &paint, 1),
                    None => named,
                }
            } else {
                line
            };
            writeln!(self.streams.out, "{line}")?;
        }
        self.after_gap = false;
        Ok(())
    }

    /// A refusal that the lesson expects.
    fn refused(&mut self, choice: Choice, refusal: Refusal, reason: &str) -> Result<(), Failure> {
        self.number += 1;
        let sentence = format!("refused {}, as expected: {reason}.", refusal.number);
        if self.told == Told::Steps || self.draws {
            let reason = format!("as expected: {reason}");
            let name = self.acting.clone();
            self.steps.refused(name, refusal.number, &reason);
        }
        match self.told {
            Told::Quiet | Told::Steps => {}
            Told::Json => {
                let object = refused_object(&self.lesson, choice, refusal, &sentence);
                writeln!(self.streams.out, "{object}")?;
            }
            Told::Moves => self.numbered("-", None, &sentence)?,
        }
        Ok(())
    }

    /// The hall, where the lesson wants to see it.
    fn board(&mut self) -> Result<(), Failure> {
        // With --board every choice is followed by one already.
        if self.boards && self.number > 0 {
            return Ok(());
        }
        match self.told {
            Told::Quiet | Told::Json => Ok(()),
            Told::Moves => self.set_apart(&self.drawn()),
            Told::Steps => {
                self.steps.apart(self.drawn());
                Ok(())
            }
        }
    }

    fn drawn(&self) -> Vec<String> {
        board(&self.lesson, self.streams).lines(self.lesson.now(), 6)
    }

    fn why(&mut self, position: usize) -> Result<(), Failure> {
        let hall = self.lesson.rehearsal();
        let lines = why(hall.table(), hall.program(), hall.now(), position);
        let lines: Vec<String> = lines
            .into_iter()
            .flat_map(|line| indented(&line, 6))
            .collect();
        match self.told {
            Told::Quiet | Told::Json => {}
            Told::Moves => self.set_apart(&lines)?,
            Told::Steps => self.steps.apart(lines),
        }
        Ok(())
    }

    fn set_apart(&mut self, lines: &[String]) -> Result<(), Failure> {
        self.gap()?;
        for line in lines {
            writeln!(self.streams.out, "{line}")?;
        }
        self.after_gap = false;
        self.gap()
    }

    /// An empty line, unless there is one already.
    fn gap(&mut self) -> Result<(), Failure> {
        if !std::mem::replace(&mut self.after_gap, true) {
            writeln!(self.streams.out)?;
        }
        Ok(())
    }

    fn lost(&self, line: &Line, lost: &Lost) -> Problem {
        lost_problem(self.source, &self.lesson, line.called, lost)
    }

    /// Bytes behind the choices that are none.
    fn leftover(&mut self, bytes: &[u8]) -> Result<(), Failure> {
        let Answer::Refused(refusal) = self.lesson.make_bytes(bytes)? else {
            return Ok(());
        };
        let end = self.source.text.len();
        let start = self.source.text.rfind('\n').map_or(0, |at| at + 1);
        let reason = if refusal.number == Refusal::CHOICE_CUT_SHORT {
            "the choice is cut short"
        } else {
            "a choice begins with 1 or 2"
        };
        let problem = Problem::error(Span::new(start, end), ends_here(refusal))
            .code("lesson")
            .label(reason);
        self.complain(problem, 0)
    }

    fn complain(&mut self, problem: Problem, left: usize) -> Result<(), Failure> {
        let problem = match left {
            0 => problem,
            1 => problem.help("1 choice below was not made"),
            _ => problem.help(format!("{left} choices below were not made")),
        };
        self.tell_steps()?;
        self.streams.out.flush()?;
        if self.told == Told::Json {
            let object = Object::new().raw("problem", problem_object(self.source, &problem));
            writeln!(self.streams.out, "{}", object.written())?;
            return Ok(());
        }
        load::tell(self.source, &[problem], self.streams)
    }

    fn last_line(&mut self) -> Result<(), Failure> {
        if self.told == Told::Json {
            let last = last_object(&self.lesson)?;
            writeln!(self.streams.out, "{last}")?;
            return Ok(());
        }
        let tally = self.lesson.rehearsal().tally();
        let still = still(&self.lesson)?;
        self.gap()?;
        let refused = match self.lesson.refused() {
            0 => String::new(),
            refused => format!(", {refused} refused"),
        };
        let words = format!(
            "{} done{refused}: {}, {} failed at commit, {} gave up. The hall is {}still.",
            counted(
                u64::try_from(self.lesson.done()).unwrap_or(u64::MAX),
                "choice"
            ),
            counted(tally.commits.into(), "commit"),
            counted(tally.failed.into(), "attempt"),
            counted(tally.retries.into(), "attempt"),
            if still { "" } else { "not " }
        );
        for line in wrapped("", &words) {
            writeln!(self.streams.out, "{line}")?;
        }
        Ok(())
    }
}

fn painted(rule: Option<Rule>, word: &str, streams: &Streams<'_>) -> Option<String> {
    Some(match rule?.number {
        Moved::ATOK => streams.style.good(word),
        Moved::ATFAIL | Moved::ARDF | Moved::ATRE => streams.style.bad(word),
        Moved::AOF | Moved::AOE => streams.style.dim(word),
        _ => return None,
    })
}

fn still(lesson: &Lesson<'_>) -> Result<bool, Failure> {
    let suggestion = lesson.rehearsal().suggestion();
    suggestion
        .map(|choice| choice.is_none())
        .map_err(|_| Failure::Contradiction("the engine refuses its own hall".to_owned()))
}
