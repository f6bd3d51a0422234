//! Reading a whole text: trays, rules, plans, the start and the choices.

use super::exact;
use super::lexer::{Kind, Token};
use super::problems::{Level, Problem, MOST_PROBLEMS};
use super::reader::{Read, Reader, Stop};
use super::source::{Source, Span};
use super::tree::{Class, Definition, PartId, PartKind, Program, Tray};
use super::words;
use crate::table::TRAYS;

/// What a text says.
#[derive(Clone, Debug, PartialEq, Eq)]
pub enum Said {
    /// Rules in their readable form.
    Rules(Program),
    /// One record a line, in place: the records, and where each stands.
    Exact(exact::Records),
}

const MADE_OF: &str = "a text is made of tray, rule, plan, start, ask and choices";

/// Reads a text.
///
/// # Errors
///
/// What is wrong with it, in the order of the text.
pub fn read(source: &Source) -> Result<Said, Vec<Problem>> {
    let mut reader = Reader::new(source, Program::default());
    if reader.accept("exact") {
        let records = exact::read(&mut reader);
        return reader.done().map(|_| Said::Exact(records));
    }
    reader.items();
    reader.done().map(Said::Rules)
}

/// Reads choices that stand in a text of their own, with or without the word
/// `choices` before them. They call stations by the names of this program.
///
/// # Errors
///
/// What is wrong with them.
pub fn read_choices(
    source: &Source,
    program: &Program,
) -> Result<Vec<super::choices::Line>, Vec<Problem>> {
    let mut names = program.clone();
    names.choices = None;
    let mut reader = Reader::new(source, names);
    reader.accept("choices");
    let lines = reader.lesson();
    if reader.peek().kind != Kind::End {
        let problem = Problem::error(reader.peek().span, "here only choices may stand")
            .label("'do', 'act', 'step', 'board' or 'why'");
        reader.report(problem);
    }
    reader.done().map(|_| lines)
}

impl Reader<'_> {
    /// What was read, if nothing was wrong.
    fn done(mut self) -> Result<Program, Vec<Problem>> {
        self.problems.sort_by_key(|problem| problem.span.start);
        if self.problems.iter().any(|it| it.level == Level::Error) {
            if let Some(more) = self.problems.get(MOST_PROBLEMS).map(|it| it.span) {
                self.problems.truncate(MOST_PROBLEMS);
                let message = format!("here is one more error: {MOST_PROBLEMS} at most are told");
                self.problems.push(Problem::note(more, message));
            }
            Err(self.problems)
        } else {
            Ok(self.program)
        }
    }

    fn items(&mut self) {
        if self.only_choices() {
            let name = &self.source.name;
            let problem = Problem::error(
                self.peek().span,
                "these are choices, and there are no rules",
            )
            .label("choices in a file of their own go with the file of the rules")
            .help(format!("as 'hall run RULES {name}'"));
            return self.report(problem);
        }
        let mut start = None;
        while self.peek().kind != Kind::End && !self.full() {
            let first = self.peek().span;
            if self.item(start).is_err() {
                self.skip_to_item();
            }
            if start.is_none() && self.source.piece(first) == "start" {
                start = Some(first);
            }
        }
        if start.is_none() && !self.full() {
            let problem = Problem::error(self.peek().span, "the text has no 'start'")
                .label("say here which stations stand in the hall, as 'start clerk beside porter'")
                .would_be(9);
            self.report(problem);
        }
    }

    /// Whether the text has lines of a lesson and nothing else.
    fn only_choices(&self) -> bool {
        let first = self.text();
        let lesson =
            self.peek().kind == Kind::Word && (first == "choices" || words::begins_line(first));
        lesson && !self.has_another_item()
    }

    /// One item; the start that came before it, if one did.
    fn item(&mut self, start: Option<Span>) -> Read<()> {
        let token = self.peek();
        let word = self.text();
        if token.kind != Kind::Word || !words::begins_item(word) {
            return self.fail(self.no_item());
        }
        self.advance();
        if let Some(start) = start {
            return self.after_start(token, start);
        }
        match word {
            "tray" => self.tray_item()?,
            "rule" => self.definition_item(Class::Rule)?,
            "plan" => self.definition_item(Class::Plan)?,
            "ask" => return self.ask_item(),
            "choices" => return self.early_choices(token.span),
            _ => self.program.start = self.process()?,
        }
        self.end_of_item()
    }

    /// Choices before there are stations: which ones the lines call can't be
    /// known yet.
    fn early_choices(&mut self, span: Span) -> Read<()> {
        let told = self.problems.len();
        self.lesson();
        self.problems.truncate(told);
        let problem = Problem::error(span, "'choices' comes before 'start'")
            .label("first the stations, then what they do");
        self.fail(problem)
    }

    /// An item behind the start, which may be the choices alone.
    fn after_start(&mut self, token: Token, start: Span) -> Read<()> {
        let word = self.source.piece(token.span);
        let problem = match word {
            "choices" => {
                let lines = self.lesson();
                if self.program.choices.is_none() {
                    self.program.choices = Some(lines);
                    return Ok(());
                }
                Problem::error(token.span, "a second 'choices'").label("go on behind the first")
            }
            "ask" => return self.ask_item(),
            "start" => {
                let line = self.line_of(start);
                Problem::error(token.span, "a second 'start'")
                    .label(format!("the first is on line {line}"))
                    .help("one 'start' names all stations, parted by 'beside'")
                    .would_be(9)
            }
            _ => Problem::error(token.span, format!("'{word}' comes after 'start'"))
                .label("'start' closes the rules: write it last")
                .help("after 'start' only 'ask' and 'choices' may follow")
                .would_be(9),
        };
        self.fail(problem)
    }

    fn no_item(&self) -> Problem {
        let token = self.peek();
        let text = self.text();
        match token.kind {
            Kind::Word => {
                let problem = Problem::error(token.span, format!("'{text}' begins nothing here"));
                match words::item_meant(text) {
                    Some(word) => problem.label(format!("write '{word}'")),
                    None => problem.label(MADE_OF),
                }
            }
            Kind::Sign | Kind::HalfNumber | Kind::ForeignWord => self.bad_piece(),
            _ => Problem::error(token.span, format!("'{text}' begins nothing here")).label(MADE_OF),
        }
    }

    /// Behind an item another one begins, or the text ends.
    fn end_of_item(&mut self) -> Read<()> {
        if self.at_item() {
            return Ok(());
        }
        let token = self.peek();
        let text = self.text();
        let problem = match token.kind {
            Kind::Close => {
                Problem::error(token.span, "')' closes nothing").label("no bracket is open here")
            }
            Kind::Sign | Kind::HalfNumber | Kind::ForeignWord => self.bad_piece(),
            Kind::Word if matches!(text, "or" | "else") => {
                Problem::error(token.span, "'or else' parts the ways of a block")
                    .label("stations have no 'or else': use block ( ... or else ... )")
            }
            Kind::Word if self.on_new_line() && words::item_meant(text).is_some() => self.no_item(),
            Kind::Word if words::instead_of(text).is_some() => {
                let instead = words::instead_of(text).unwrap_or_default();
                Problem::error(
                    token.span,
                    format!("'{text}' is not a word of this language"),
                )
                .label(format!("write '{instead}'"))
            }
            _ => Problem::error(token.span, format!("'{text}' does not follow here"))
                .label("between two stations stands 'beside'")
                .help("a new item begins with tray, rule, plan, start, ask or choices"),
        };
        self.fail(problem)
    }

    /// `rule NAME is P`, `plan NAME is M`. A name whose body is wrong, or missing,
    /// is kept: its uses are no further errors.
    fn definition_item(&mut self, class: Class) -> Read<()> {
        let (name, span) = self.new_name(class.word())?;
        let twice = self.already(&name, span);
        let Ok(may_stay) = self.rule_may_stay(class) else {
            if twice.is_none() {
                self.define(class, name, span, None);
            }
            return Err(Stop);
        };
        if !self.accept("is") {
            let problem = self.no_is(class, &name);
            if twice.is_none() {
                self.define(class, name, span, None);
            }
            return self.fail(problem);
        }
        self.defining = Some(name.clone());
        let body = match class {
            Class::Rule => self.process(),
            Class::Plan => self.ways(),
        };
        self.defining = None;
        self.depth = 0;
        if let Some(problem) = twice {
            self.report(problem);
        } else {
            self.define(class, name, span, body.ok());
            if let Some(definition) = self.program.definitions.last_mut() {
                definition.may_stay = may_stay;
            }
        }
        body.map(|_| ())
    }

    /// A rule or plan; one without a body gets a part of its own that does
    /// nothing, so that names can be followed to their end.
    fn define(&mut self, class: Class, name: String, span: Span, body: Option<PartId>) {
        let body = body.unwrap_or_else(|| {
            let kind = match class {
                Class::Rule => PartKind::Nothing,
                Class::Plan => PartKind::End,
            };
            self.program.add(kind, span)
        });
        self.add_definition(Definition {
            class,
            name,
            body,
            span,
            may_stay: false,
        });
    }

    fn no_is(&self, class: Class, name: &str) -> Problem {
        let word = class.word();
        if self.peek().kind == Kind::Word && !words::reserved(self.text()) {
            return Problem::error(self.peek().span, "a name has no space in it")
                .label(format!("write '{name}-{}'", self.text()));
        }
        Problem::error(self.here(), "'is' is missing here")
            .label(format!("write '{word} {name} is ...'"))
    }

    /// The error of a name that stands above.
    fn already(&self, name: &str, span: Span) -> Option<Problem> {
        let (what, first) = if let Some(tray) = self.tray_named(name) {
            ("tray", tray.span)
        } else {
            let definition = self.program.definitions.get(self.definition(name)?)?;
            (definition.class.word(), definition.span)
        };
        let line = self.line_of(first);
        Some(
            Problem::error(span, format!("the name '{name}' is taken"))
                .label(format!("{what} '{name}' is on line {line}")),
        )
    }

    /// `tray [number] NAME [has number]`. A tray whose count is wrong is kept.
    fn tray_item(&mut self) -> Read<()> {
        let number_at = self.peek().span;
        let given = self.number();
        if given.is_some() {
            self.advance();
        }
        let (name, span) = self.new_name("tray")?;
        let above = self.program.trays.last();
        let number = given.unwrap_or_else(|| above.map_or(0, |tray| u32::from(tray.number) + 1));
        let problem = self.bad_tray(&name, span, number, given.map(|_| number_at));
        // One tray too many makes all that follow it too many.
        let again = self.told_too_many && problem.as_ref().is_some_and(is_too_many);
        self.told_too_many |= problem.as_ref().is_some_and(is_too_many);
        let wrong = problem.is_some();
        if let Some(problem) = problem.filter(|_| !again) {
            self.report(problem);
        }
        let count = self.has(&name);
        let may_stay = if count.is_ok() {
            self.may_stay()
        } else {
            Ok(false)
        };
        if !wrong || self.tray_named(&name).is_none() {
            self.add_tray(Tray {
                number: u8::try_from(number).unwrap_or(u8::MAX).min(15),
                name,
                count: count.unwrap_or(1),
                span,
                may_stay: may_stay.unwrap_or(false),
            });
        }
        count.and(may_stay).map(|_| ())
    }

    fn bad_tray(
        &self,
        name: &str,
        span: Span,
        number: u32,
        given: Option<Span>,
    ) -> Option<Problem> {
        if let Some(first) = self.tray_named(name) {
            let line = self.line_of(first.span);
            return Some(
                Problem::error(span, format!("tray '{name}' is written twice"))
                    .label(format!("the first is on line {line}"))
                    .help("one line names the tray and says what it has")
                    .would_be(8),
            );
        }
        if let Some(problem) = self.already(name, span) {
            return Some(problem);
        }
        let at = given.unwrap_or(span);
        if usize::try_from(number).map_or(true, |number| number >= TRAYS) {
            return Some(
                Problem::error(at, "a hall has 16 trays")
                    .label(format!("this would be tray {number}, and 15 is the last"))
                    .would_be(4),
            );
        }
        let same = |tray: &&Tray| u32::from(tray.number) == number;
        let other = self.program.trays.iter().find(same)?;
        Some(
            Problem::error(at, format!("tray {number} is '{}' already", other.name))
                .label(format!("it is on line {}", self.line_of(other.span))),
        )
    }

    /// What a tray has at the opening.
    fn has(&mut self, name: &str) -> Read<u8> {
        if !self.accept("has") {
            return self.no_has(name).map(|()| 0);
        }
        let span = self.here();
        match (self.number(), self.peek().kind) {
            (Some(0), _) => {
                self.advance();
                let problem = Problem::error(span, "a tray that has none is written without 'has'")
                    .label(format!("write 'tray {name}'"))
                    .would_be(8);
                self.fail(problem)
            }
            (Some(number), _) => {
                self.advance();
                let message = "what a tray has is a number from 1 to 255";
                let written = self.source.piece(span);
                let problem = Problem::error(span, message).label(format!("{written} is not"));
                u8::try_from(number).or_else(|_| self.fail(problem))
            }
            (None, Kind::Word) if !self.at_item() => {
                let problem =
                    Problem::error(span, "a number is written in digits").label("as 'has 3'");
                self.fail(problem)
            }
            _ => self.fail(Problem::error(span, "'has' wants a number").label("as 'has 3'")),
        }
    }

    /// Behind a tray's name, where `has` does not stand.
    fn no_has(&mut self, name: &str) -> Read<()> {
        let token = self.peek();
        let text = self.text();
        if self.at_item() || self.is("may") {
            return Ok(());
        }
        let problem = match (token.kind, text) {
            _ if self.on_new_line() => self.no_item(),
            (Kind::Word, word) if words::instead_of(word) == Some("has") => Problem::error(
                token.span,
                format!("'{word}' is not a word of this language"),
            )
            .label("write 'has': how many tokens it has at the opening"),
            (Kind::Word, word) if !words::reserved(word) => {
                Problem::error(token.span, "a name has no space in it")
                    .label(format!("write '{name}-{word}'"))
            }
            (Kind::Number(_), number) => Problem::error(token.span, "'has' is missing here")
                .label(format!("write 'tray {name} has {number}'")),
            _ => return self.end_of_item(),
        };
        self.fail(problem)
    }
}

fn is_too_many(problem: &Problem) -> bool {
    problem.refusal.is_some_and(|answer| answer.number == 4)
}
