//! Names where they are used: trays, rules and plans that stand above.

use super::lexer::Kind;
use super::problems::Problem;
use super::reader::{Read, Reader};
use super::source::Span;
use super::tree::{Class, PartId, PartKind};
use super::words;

impl Reader<'_> {
    /// The tray that comes next; `after` is the word before it.
    ///
    /// # Errors
    ///
    /// Where no tray of this name stands above.
    pub fn tray(&mut self, after: &str, part_with: &str) -> Read<u8> {
        let token = self.peek();
        let name = self.text();
        if token.kind == Kind::Word {
            if let Some(tray) = self.tray_named(name) {
                let number = tray.number;
                self.advance();
                return Ok(number);
            }
        }
        let problem = match token.kind {
            Kind::Number(_) => self.several_at_once(after, part_with),
            Kind::Word if words::counts_several(name) && self.tray_behind().is_some() => {
                self.several_at_once(after, part_with)
            }
            Kind::Word if !words::reserved(name) => match self.tray_behind() {
                Some(tray) => {
                    Problem::error(token.span, "tokens go one at a time, without 'a' or 'one'")
                        .label(format!("write '{after} {tray}'"))
                }
                None => self.no_tray(token.span, name),
            },
            Kind::Sign | Kind::HalfNumber | Kind::ForeignWord => self.bad_piece(),
            _ => Problem::error(self.here(), format!("'{after}' wants a tray"))
                .label("the name of a tray that stands above"),
        };
        self.fail(problem)
    }

    /// The tray that is named behind the next word, on the same line.
    fn tray_behind(&self) -> Option<&str> {
        let behind = self.ahead(1).span;
        let between = Span::new(self.peek().span.end, behind.start);
        if self.source.piece(between).contains('\n') {
            return None;
        }
        let tray = self.tray_named(self.source.piece(behind))?;
        Some(tray.name.as_str())
    }

    /// What is wrong where words behind a tray say where it stands.
    #[must_use]
    pub fn says_where(&self, verb: &str) -> Option<Problem> {
        let word = self.text();
        if self.peek().kind != Kind::Word || !words::says_where(word) || self.on_new_line() {
            return None;
        }
        let behind = self.ahead(1);
        let rest = match behind.kind {
            Kind::Word if !words::reserved(self.source.piece(behind.span)) => {
                self.peek().span.to(behind.span)
            }
            _ => self.peek().span,
        };
        Some(
            Problem::error(rest, format!("a {verb} names its tray and nothing else"))
                .label(format!("leave out '{}'", self.source.piece(rest)))
                .help("a token lies in its tray and nowhere else"),
        )
    }

    fn several_at_once(&self, after: &str, part_with: &str) -> Problem {
        let behind = self.source.piece(self.ahead(1).span);
        let tray = self
            .tray_named(behind)
            .map_or("batch", |tray| tray.name.as_str());
        Problem::error(self.peek().span, "tokens go one at a time")
            .label(format!("write '{after} {tray}{part_with} {after} {tray}'"))
    }

    fn no_tray(&self, span: Span, name: &str) -> Problem {
        if let Some(index) = self.definition(name) {
            let class = self.class_of(index).word();
            return Problem::error(
                span,
                format!("'{name}' is a {class}, and a tray is wanted here"),
            );
        }
        if let Some((_, below)) = self.written_below(name).filter(|(word, _)| *word == "tray") {
            let line = self.line_of(below);
            return Problem::error(span, format!("tray '{name}' is used before it is written"))
                .label(format!("it is on line {line}: move it up"));
        }
        let problem = Problem::error(span, format!("no tray is called '{name}'"));
        let trays = self.program.trays.iter().map(|tray| tray.name.as_str());
        match words::nearest(name, trays) {
            Some(near) => problem.label(format!("did you mean '{near}'?")),
            None => problem.label(format!("write 'tray {name}' above")),
        }
    }

    /// Whether a word may be the name of a rule or plan. One of the language is
    /// where it was written as a name, which is told there.
    #[must_use]
    pub fn may_be_named(&self, word: &str) -> bool {
        !words::reserved(word) || self.definition(word).is_some()
    }

    fn class_of(&self, index: usize) -> Class {
        self.program
            .definitions
            .get(index)
            .map_or(Class::Rule, |definition| definition.class)
    }

    /// The rule or plan whose name comes next, as a part.
    ///
    /// # Errors
    ///
    /// Where no such name stands above, or one of the other class.
    pub fn named(&mut self, class: Class) -> Read<PartId> {
        let span = self.peek().span;
        let name = self.text();
        match self.definition(name) {
            Some(index) if self.class_of(index) == class => {
                self.advance();
                Ok(self.program.add(PartKind::Named(index), span))
            }
            Some(_) => self.fail(other_class(span, name, class)),
            None => self.fail(self.no_definition(span, name, class)),
        }
    }

    fn no_definition(&self, span: Span, name: &str, class: Class) -> Problem {
        let word = class.word();
        if self.tray_named(name).is_some() {
            return Problem::error(span, format!("'{name}' is a tray")).label(match class {
                Class::Rule => format!("write 'put {name}' or 'take {name} then ...'"),
                Class::Plan => format!("write 'take {name},' or 'put {name},'"),
            });
        }
        if self.defining.as_deref() == Some(name) {
            return uses_itself(span, name, class);
        }
        if let Some((what, below)) = self.written_below(name).filter(|(word, _)| *word != "tray") {
            let line = self.line_of(below);
            return Problem::error(
                span,
                format!("{what} '{name}' is used before it is written"),
            )
            .label(format!("it is on line {line}: move it above this one"))
            .would_be(5);
        }
        if let Some(instead) = words::instead_of(name) {
            return Problem::error(span, format!("'{name}' is not a word of this language"))
                .label(format!("write '{instead}'"));
        }
        let advice = words::advice_for(name);
        if !advice.is_empty() {
            let problem = Problem::error(span, format!("'{name}' is not a word of this language"));
            return advice
                .iter()
                .fold(problem, |problem, line| problem.help(*line));
        }
        let names = self.program.definitions.iter();
        let alike = names
            .filter(|definition| definition.class == class)
            .map(|definition| definition.name.as_str());
        let problem = Problem::error(span, format!("no {word} is called '{name}'"));
        match words::nearest(name, alike) {
            Some(near) => problem.label(format!("did you mean '{near}'?")),
            None => problem.label(format!("write '{word} {name} is ...' above")),
        }
    }
}

fn other_class(span: Span, name: &str, wanted: Class) -> Problem {
    match wanted {
        Class::Rule => Problem::error(
            span,
            format!("'{name}' is a plan, and a station is wanted here"),
        )
        .label(format!("write 'block ({name})'")),
        Class::Plan => Problem::error(
            span,
            format!("'{name}' is a rule, and inside a block a plan is wanted"),
        )
        .label(format!(
            "a block cannot hold stations: 'plan {name} is ...' names ways"
        )),
    }
    .would_be(6)
}

fn uses_itself(span: Span, name: &str, class: Class) -> Problem {
    let problem = Problem::error(span, format!("{} '{name}' uses itself", class.word()));
    match class {
        Class::Rule => {
            problem.label("a station that goes on for ever is 'repeatedly take ... then ...'")
        }
        Class::Plan => problem.label("a block is tried again by itself when it gives up"),
    }
    .would_be(5)
}
