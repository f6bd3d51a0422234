//! `hall play`: a prompt, not a screen.

mod editor;
mod keep;
mod menu;
mod terminal;

use std::io;

use ruonfidd::{Choice, Refusal};

use super::check::refused;
use super::load;
use super::run::problems::{lost_problem, missed, unexpected};
use super::run::script::{script, Script};
use super::{Args, Exit, Failure, Outcome, Streams};
use crate::board::Board;
use crate::lesson::{choice_words, Answer, Lesson};
use crate::names::Lost;
use crate::refusals;
use crate::rehearsal::Happened;
use crate::sentences::Teller;
use crate::steps::layout::Layout;
use crate::steps::{fold, Steps};
use crate::style::{hung, indented, width, wrapped};
use crate::system;
use crate::table::Table;
use crate::text::choices::{Ask, Line};
use crate::text::grammar::read_choices;
use crate::text::problems::Problem;
use crate::text::source::Source;
use crate::text::tree::{Class, Definition, Program};
use crate::text::words::nearest;
use crate::why::why;
use editor::{Edited, Editor, Keys};
use keep::Kept;
use terminal::Raw;

const PROMPT: &str = "> ";

/// What can be typed, and what it does.
const HELP: [(&str, &str); 10] = [
    ("a number", "does that"),
    ("Enter", "does what is suggested, which is number 1"),
    ("go, go desk, go 2", "a put, a take or a whole attempt"),
    (
        "act ..., step ... node ...",
        "one move, as a lesson says it",
    ),
    ("u, r", "undo takes it back, redo does it again"),
    ("b", "the hall once more (board)"),
    ("w desk", "why: what its attempt will come to"),
    (
        "moves, steps",
        "lists and tells single moves, or whole steps",
    ),
    ("save FILE", "keeps what was done, as a lesson's text"),
    ("q", "leaves"),
];

/// The words that a line may begin with.
const WORDS: [&str; 21] = [
    "act", "b", "board", "do", "exit", "go", "h", "help", "moves", "q", "quit", "r", "redo",
    "save", "save!", "step", "steps", "u", "undo", "w", "why",
];

/// Choices that were made at once, and are taken back at once.
#[derive(Clone, Debug)]
struct Unit {
    choices: Vec<Choice>,
    /// Whether they are a step from its beginning to its end.
    whole: bool,
}

/// What has become of the choices so far.
#[derive(Clone, Debug)]
struct State<'a> {
    lesson: Lesson<'a>,
    teller: Teller<'a>,
    steps: Steps<'a>,
    /// What was chosen and answered, as a lesson says it.
    said: Vec<String>,
}

/// A hall at play.
struct Playing<'a, 's, 't> {
    table: &'a Table,
    program: &'a Program,
    state: State<'a>,
    done: Vec<Unit>,
    /// What was taken back, the last first.
    undone: Vec<Unit>,
    /// Whether single moves are listed and told.
    moves: bool,
    kept: Kept<'t>,
    editor: Editor,
    keys: Keys,
    /// The terminal that hands over keys, if it does.
    raw: Option<Raw>,
    streams: &'t mut Streams<'s>,
}

/// What comes of a line of input.
enum Next {
    /// The hall changed: show it.
    Board,
    /// Ask again, with the choices.
    Menu,
    /// Leave.
    Leave,
}

/// What is read.
enum Byte {
    Next(u8),
    /// Nothing more comes.
    End,
    /// Somebody asks for an end.
    Interrupted,
}

/// What was typed.
enum Input {
    Line(String),
    /// Ctrl-C, or a signal that asks for an end.
    Interrupted,
    /// Nothing more comes.
    Ended,
}

/// A hall by hand.
pub(super) fn play(args: &Args, streams: &mut Streams<'_>) -> Outcome {
    let name = args.file(0).unwrap_or("-");
    if name == "-" || args.file(1) == Some("-") {
        return Err(Failure::Usage(
            "play: standard input is for what you choose; name a file".to_owned(),
        ));
    }
    let mut loaded = match load::load(name, args.has("--binary"), streams) {
        Ok(loaded) => loaded,
        Err(unloaded) => return refused(name, unloaded, false, streams),
    };
    let first = match args.file(1) {
        None => None,
        file => match script(name, file, &mut loaded, streams) {
            Ok(script) => script,
            Err(unloaded) => return refused(name, unloaded, false, streams),
        },
    };
    let (table, program) = (&loaded.table, &loaded.program);
    let mut playing = Playing {
        table,
        program,
        state: State::open(table, program)?,
        done: Vec::new(),
        undone: Vec::new(),
        moves: args.has("--moves"),
        kept: Kept::of(name),
        editor: Editor::default(),
        keys: Keys::default(),
        raw: None,
        streams,
    };
    if let Some(script) = first {
        if !playing.made_first(&script)? {
            return Ok(Exit::Refused);
        }
    }
    system::listen();
    playing.prompt()
}

impl<'a> State<'a> {
    fn open(table: &'a Table, program: &'a Program) -> Result<State<'a>, Failure> {
        Ok(State {
            lesson: Lesson::open(table, program)?,
            teller: Teller::new(table, program),
            steps: Steps::new(table, program),
            said: Vec::new(),
        })
    }

    /// Keeps what the choices of a unit did; the sentences for it.
    fn follow(&mut self, moved: &[Happened], whole: bool) -> Vec<String> {
        let mut sentences = Vec::new();
        for happened in moved {
            sentences.push(self.teller.tell(happened));
            self.steps.moved(happened);
            if !whole {
                let words = choice_words(&happened.before, happened.choice);
                self.said.push(format!("{words} => {}", happened.rule.word));
            }
        }
        if let (true, [first, ..], Some(last)) = (whole, moved, moved.last()) {
            let name = first.before.names.name(first.position());
            self.said.push(format!("do {name} => {}", last.rule.word));
        }
        // Now the hall is seen.
        self.steps.show();
        sentences
    }

    /// Makes a unit once more.
    fn again(&mut self, unit: &Unit) -> Result<(), Failure> {
        let mut moved = Vec::new();
        for choice in &unit.choices {
            match self.lesson.make(*choice)? {
                Answer::Moved(happened) => moved.push(*happened),
                Answer::Refused(_) => {
                    return Err(Failure::Contradiction(
                        "the engine refuses what it has done before".to_owned(),
                    ))
                }
            }
        }
        self.follow(&moved, unit.whole);
        Ok(())
    }
}

impl Playing<'_, '_, '_> {
    /// The choices that are made first; whether they went as they say.
    fn made_first(&mut self, script: &Script) -> Result<bool, Failure> {
        for line in &script.lines {
            let problem = match self.state.lesson.choice(&line.ask) {
                Ok(None) => None,
                Err(lost) => Some(self.lost_problem(&script.source, line, &lost)),
                Ok(Some(choice)) => self.made(line, choice)?,
            };
            if let Some(problem) = problem {
                load::tell(&script.source, &[problem], self.streams)?;
                return Ok(false);
            }
        }
        Ok(true)
    }

    /// Makes a line of the choices that are made first.
    fn made(&mut self, line: &Line, choice: Choice) -> Result<Option<Problem>, Failure> {
        let mut lesson = self.state.lesson.clone();
        let made = lesson.make_line(line, choice)?;
        let problem = match made.refused {
            None => made.moved.last().and_then(|it| missed(line, it.rule)),
            Some((choice, refusal)) => {
                let reason = refusals::reason(lesson.rehearsal(), choice, refusal);
                let expected = line.expects(refusal);
                (!expected).then(|| unexpected(line, refusal, reason, None))
            }
        };
        let whole = matches!(line.ask, Ask::Do(_)) && made.refused.is_none();
        self.keep(&made.moved, whole)?;
        Ok(problem)
    }

    fn prompt(&mut self) -> Outcome {
        if self.streams.input_is_terminal && self.streams.out_is_terminal {
            self.streams.out.flush()?;
            self.raw = Raw::begin();
        }
        self.board()?;
        self.menu()?;
        loop {
            match self.input()? {
                Input::Ended => break,
                Input::Interrupted => {
                    self.interrupted()?;
                    break;
                }
                Input::Line(line) => match self.answer(line.trim())? {
                    Next::Leave => break,
                    Next::Menu => self.menu()?,
                    Next::Board => {
                        self.board()?;
                        self.menu()?;
                    }
                },
            }
        }
        self.state.lesson.agrees()?;
        Ok(Exit::Good)
    }

    /// A line of input, behind the prompt. It is echoed where it does not come
    /// from a terminal.
    fn input(&mut self) -> Result<Input, Failure> {
        write!(self.streams.out, "{PROMPT}")?;
        self.streams.out.flush()?;
        let mut line = Vec::new();
        loop {
            match (self.byte()?, &self.raw) {
                (Byte::Interrupted, _) => return Ok(Input::Interrupted),
                (byte, Some(_)) => {
                    if let Some(input) = self.typed(&byte)? {
                        return Ok(input);
                    }
                }
                (Byte::End, None) if line.is_empty() => {
                    self.echo("")?;
                    return Ok(Input::Ended);
                }
                (Byte::End | Byte::Next(b'\n'), None) => {
                    let line = String::from_utf8_lossy(&line).into_owned();
                    self.echo(line.trim_end())?;
                    return Ok(Input::Line(line));
                }
                (Byte::Next(byte), None) => line.push(byte),
            }
        }
    }

    fn echo(&mut self, line: &str) -> Result<(), Failure> {
        if !self.streams.input_is_terminal {
            writeln!(self.streams.out, "{line}")?;
        }
        Ok(())
    }

    /// The next byte.
    fn byte(&mut self) -> Result<Byte, Failure> {
        loop {
            if system::interrupted() {
                return Ok(Byte::Interrupted);
            }
            let first = self.streams.input.fill_buf().map(|it| it.first().copied());
            match first {
                Ok(byte) => {
                    self.streams.input.consume(usize::from(byte.is_some()));
                    return Ok(byte.map_or(Byte::End, Byte::Next));
                }
                Err(error) if error.kind() == io::ErrorKind::Interrupted => {}
                Err(error) => return Err(Failure::File(format!("cannot read: {error}"))),
            }
        }
    }

    /// A byte of a terminal that hands over keys; what was typed, where it is
    /// complete.
    fn typed(&mut self, byte: &Byte) -> Result<Option<Input>, Failure> {
        let edited = match byte {
            Byte::End => Edited::Ended,
            Byte::Interrupted => Edited::Interrupted,
            Byte::Next(byte) => match self.keys.feed(*byte) {
                None => return Ok(None),
                Some(key) => self.editor.key(key),
            },
        };
        let input = match edited {
            Edited::Going => {
                let drawn = self.editor.drawn(PROMPT, width());
                write!(self.streams.out, "{drawn}")?;
                self.streams.out.flush()?;
                return Ok(None);
            }
            Edited::Line(line) => Input::Line(line),
            Edited::Interrupted => Input::Interrupted,
            Edited::Ended => Input::Ended,
        };
        writeln!(self.streams.out)?;
        Ok(Some(input))
    }

    /// What was done is kept, and where is told.
    fn interrupted(&mut self) -> Result<(), Failure> {
        if self.raw.is_none() {
            writeln!(self.streams.out)?;
        }
        if let Some(words) = self.kept.at_the_end(&self.state.said)? {
            self.say(&words)?;
        }
        Ok(())
    }

    fn answer(&mut self, input: &str) -> Result<Next, Failure> {
        let (word, rest) = input.split_once(' ').unwrap_or((input, ""));
        let rest = rest.trim();
        match word {
            "" => self.numbered(1),
            "q" | "quit" | "exit" => Ok(Next::Leave),
            "u" | "undo" => self.undo(),
            "r" | "redo" => self.redo(),
            "h" | "help" | "?" => self.help(),
            "moves" | "steps" if rest.is_empty() => {
                self.moves = word == "moves";
                Ok(Next::Menu)
            }
            "b" | "board" if rest.is_empty() => Ok(Next::Board),
            "go" => self.go(rest),
            "w" => self.line(&format!("why {rest}")),
            "save" | "save!" => {
                let words = self.kept.save(rest, word == "save!", &self.state.said)?;
                self.say(&words)?;
                Ok(Next::Menu)
            }
            "act" | "step" | "why" | "do" => self.line(input),
            number => match number.parse::<usize>() {
                Ok(number) if rest.is_empty() => self.numbered(number),
                _ => self.unknown(word),
            },
        }
    }

    fn help(&mut self) -> Result<Next, Failure> {
        for (word, what) in HELP {
            for line in hung(
                &format!("  {word:<26}  "),
                30.min(width() / 2),
                what,
                width(),
            ) {
                writeln!(self.streams.out, "{line}")?;
            }
        }
        Ok(Next::Menu)
    }

    /// What was wrong with a word that is none.
    fn unknown(&mut self, word: &str) -> Result<Next, Failure> {
        let names = &self.state.lesson.now().names;
        let labels: Vec<String> = (0..names.len()).map(|at| names.label(at)).collect();
        let near = nearest(word, WORDS)
            .filter(|_| word.len() > 2)
            .or_else(|| nearest(word, labels.iter().map(String::as_str)));
        let rule = |it: &Definition| it.name == word && it.class == Class::Rule;
        let hint = if self.program.definitions.iter().any(rule) {
            format!("to let it go on, type 'go {word}'")
        } else if let Some(near) = near {
            format!("did you mean '{near}'?")
        } else {
            "h tells what can be typed".to_owned()
        };
        self.say(&format!("'{word}' is no word here: {hint}"))?;
        Ok(Next::Menu)
    }

    /// `go`: a whole step of a station, or of a number of the list.
    fn go(&mut self, rest: &str) -> Result<Next, Failure> {
        let number = if rest.is_empty() { Ok(1) } else { rest.parse() };
        match number {
            Ok(number) => match self.listed().get(usize::wrapping_sub(number, 1)) {
                Some(item) => {
                    let position = item.position();
                    self.whole(position)
                }
                None => self.no_number(number),
            },
            Err(_) => self.line(&format!("do {rest}")),
        }
    }

    fn numbered(&mut self, number: usize) -> Result<Next, Failure> {
        let listed = self.listed();
        match listed.get(usize::wrapping_sub(number, 1)) {
            Some(item) if self.moves => self.choose(item.choice),
            Some(item) => {
                let position = item.position();
                self.whole(position)
            }
            None => self.no_number(number),
        }
    }

    fn no_number(&mut self, number: usize) -> Result<Next, Failure> {
        let words = match self.listed().len() {
            0 => "nothing can be chosen: u takes the last step back, q leaves".to_owned(),
            1 => format!("there is no number {number}: 1 is the only one"),
            last => format!("there is no number {number}: they go from 1 to {last}"),
        };
        self.say(&words)?;
        Ok(Next::Menu)
    }

    /// A line in the words of a lesson.
    fn line(&mut self, words: &str) -> Result<Next, Failure> {
        let source = Source::new("here", words);
        let lines = match read_choices(&source, self.program) {
            Ok(lines) => lines,
            Err(problems) => {
                self.streams.out.flush()?;
                load::tell(&source, &problems, self.streams)?;
                return Ok(Next::Menu);
            }
        };
        let mut next = Next::Menu;
        for line in lines {
            let choice = match (&line.ask, self.state.lesson.choice(&line.ask)) {
                (_, Err(lost)) => return self.lost(&source, &line, &lost),
                (Ask::Why(called), _) => {
                    match self.state.lesson.position(called) {
                        Ok(position) => self.why(position.into())?,
                        Err(lost) => return self.lost(&source, &line, &lost),
                    }
                    continue;
                }
                (_, Ok(None)) => {
                    next = Next::Board;
                    continue;
                }
                (_, Ok(Some(choice))) => choice,
            };
            next = match line.ask {
                Ask::Do(_) => self.whole(menu::position(choice))?,
                _ => self.choose(choice)?,
            };
        }
        Ok(next)
    }

    fn lost(&mut self, source: &Source, line: &Line, lost: &Lost) -> Result<Next, Failure> {
        let problem = self.lost_problem(source, line, lost);
        self.streams.out.flush()?;
        load::tell(source, &[problem], self.streams)?;
        Ok(Next::Menu)
    }

    fn lost_problem(&self, source: &Source, line: &Line, lost: &Lost) -> Problem {
        lost_problem(source, &self.state.lesson, line.called, lost)
    }

    /// One choice.
    fn choose(&mut self, choice: Choice) -> Result<Next, Failure> {
        let mut lesson = self.state.lesson.clone();
        match lesson.make(choice)? {
            Answer::Moved(happened) => self.tell(&[*happened], false),
            Answer::Refused(refusal) => self.refused(choice, refusal),
        }
    }

    /// A put, a take or an attempt to its end. Where that is refused, nothing was
    /// done.
    fn whole(&mut self, position: u8) -> Result<Next, Failure> {
        let mut lesson = self.state.lesson.clone();
        let whole = lesson.make_whole(position)?;
        match whole.refused {
            None => self.tell(&whole.moved, true),
            Some((choice, refusal)) if whole.moved.is_empty() => self.refused(choice, refusal),
            Some((_, refusal)) => {
                let act = Choice::Act { position };
                self.refused(act, refusal)?;
                self.say("its attempt would not end: nothing was done")?;
                Ok(Next::Menu)
            }
        }
    }

    /// Keeps what was made on a copy, and tells it.
    fn tell(&mut self, moved: &[Happened], whole: bool) -> Result<Next, Failure> {
        let told = self.state.steps.entries().len();
        let sentences = self.keep(moved, whole)?;
        let rows = fold::unfolded(self.state.steps.entries(), told);
        if self.moves || rows.is_empty() {
            for sentence in sentences {
                self.say(&sentence)?;
            }
            return Ok(Next::Board);
        }
        let layout = Layout {
            program: self.program,
            style: self.streams.style,
            width: width(),
            indent: 2,
        };
        for line in layout.lines(&rows) {
            writeln!(self.streams.out, "{line}")?;
        }
        Ok(Next::Board)
    }

    /// Keeps what was made on a copy; the sentences for it.
    fn keep(&mut self, moved: &[Happened], whole: bool) -> Result<Vec<String>, Failure> {
        let choices: Vec<Choice> = moved.iter().map(|it| it.choice).collect();
        for choice in &choices {
            self.state.lesson.make(*choice)?;
        }
        if !choices.is_empty() {
            self.done.push(Unit { choices, whole });
            self.undone.clear();
        }
        Ok(self.state.follow(moved, whole))
    }

    fn refused(&mut self, choice: Choice, refusal: Refusal) -> Result<Next, Failure> {
        let hall = self.state.lesson.rehearsal();
        let reason = refusals::reason(hall, choice, refusal);
        let instead = refusals::instead(hall, choice, refusal);
        let word = self.streams.style.bad("refused");
        self.say(&format!("{word} {}: {reason}.", refusal.number))?;
        if let Some(words) = instead {
            self.say(&words)?;
        }
        Ok(Next::Menu)
    }

    fn undo(&mut self) -> Result<Next, Failure> {
        let Some(last) = self.done.pop() else {
            self.say("nothing to take back")?;
            return Ok(Next::Menu);
        };
        self.undone.push(last);
        // The hall is made again from its opening: what was told once is told as
        // it was told then.
        let mut state = State::open(self.table, self.program)?;
        for unit in &self.done {
            state.again(unit)?;
        }
        self.state = state;
        Ok(Next::Board)
    }

    fn redo(&mut self) -> Result<Next, Failure> {
        let Some(unit) = self.undone.pop() else {
            self.say("nothing to do again")?;
            return Ok(Next::Menu);
        };
        let undone = std::mem::take(&mut self.undone);
        let mut lesson = self.state.lesson.clone();
        let mut moved = Vec::new();
        for choice in &unit.choices {
            if let Answer::Moved(happened) = lesson.make(*choice)? {
                moved.push(*happened);
            }
        }
        let next = self.tell(&moved, unit.whole);
        self.undone = undone;
        next
    }

    fn why(&mut self, position: usize) -> Result<(), Failure> {
        let hall = self.state.lesson.rehearsal();
        for line in why(hall.table(), hall.program(), hall.now(), position) {
            for line in indented(&line, 0) {
                writeln!(self.streams.out, "{line}")?;
            }
        }
        Ok(())
    }

    /// An answer of the prompt.
    fn say(&mut self, words: &str) -> Result<(), Failure> {
        for line in wrapped("      ", words) {
            writeln!(self.streams.out, "{line}")?;
        }
        Ok(())
    }

    fn board(&mut self) -> Result<(), Failure> {
        let board = Board {
            table: self.table,
            program: self.program,
            style: self.streams.style,
            folds: true,
        };
        writeln!(self.streams.out)?;
        for line in board.lines(self.state.lesson.now(), 0) {
            writeln!(self.streams.out, "{line}")?;
        }
        writeln!(self.streams.out)?;
        Ok(())
    }
}
