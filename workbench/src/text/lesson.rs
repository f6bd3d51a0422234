//! Reading the lines behind `choices`.

use super::choices::{Ask, Called, Expected, Line, Owner};
use super::lexer::Kind;
use super::problems::Problem;
use super::reader::{Read, Reader};
use super::source::Span;
use super::tree::Class;
use super::words;
use crate::rules::{self, RULES};

impl Reader<'_> {
    /// All lines up to the next item.
    pub fn lesson(&mut self) -> Vec<Line> {
        let mut lines = Vec::new();
        while !self.at_item() && !self.full() {
            match self.lesson_line() {
                Ok(line) => lines.push(line),
                Err(_) => self.skip_to_line(),
            }
        }
        lines
    }

    fn skip_to_line(&mut self) {
        while !self.at_item() && !self.at_line() {
            self.advance();
        }
    }

    fn at_line(&self) -> bool {
        self.peek().kind == Kind::Word && words::begins_line(self.text())
    }

    fn lesson_line(&mut self) -> Read<Line> {
        let first = self.peek();
        let word = self.text();
        if !self.at_line() {
            return self.fail_line();
        }
        self.advance();
        let called_from = self.peek().span;
        let ask = match word {
            "act" => Ask::Act(self.called()?),
            "do" => Ask::Do(self.called()?),
            "why" => Ask::Why(self.called()?),
            "step" => Ask::Step(self.called()?, 0),
            _ => Ask::Board,
        };
        let called = match ask {
            Ask::Board => first.span,
            _ => called_from.to(self.last()),
        };
        let ask = self.node(ask)?;
        let expected = self.expected(&ask)?;
        Ok(Line {
            ask,
            expected,
            span: first.span.to(self.last()),
            called,
        })
    }

    /// `node 2` behind a step.
    fn node(&mut self, ask: Ask) -> Read<Ask> {
        if !self.is("node") {
            return Ok(ask);
        }
        let Ask::Step(called, _) = ask else {
            let problem = Problem::error(self.peek().span, "only a step has a node")
                .label("a move inside an attempt is 'step ... node ...'");
            return self.fail(problem);
        };
        self.advance();
        let Some(number) = self.number() else {
            let problem = Problem::error(self.here(), "'node' wants a number").label("as 'node 1'");
            return self.fail(problem);
        };
        Ok(Ask::Step(called, self.small_number(number)?))
    }

    /// A position or a node, whose number comes next.
    fn small_number(&mut self, number: u32) -> Read<u8> {
        let span = self.advance().span;
        let problem = Problem::error(span, "positions and nodes are numbers from 0 to 255")
            .label(format!("{} is not", self.source.piece(span)));
        u8::try_from(number).or_else(|_| self.fail(problem))
    }

    /// The words that call a station.
    fn called(&mut self) -> Read<Called> {
        let token = self.peek();
        if let Kind::Number(number) = token.kind {
            let position = self.small_number(number)?;
            return Ok(Called::Position(position.into()));
        }
        let text = self.text();
        if let Some(label) = self.what_it_does()? {
            let number = self.which();
            return Ok(Called::Name {
                of: None,
                label,
                number,
            });
        }
        if token.kind != Kind::Word || words::reserved(text) {
            return self.fail(self.no_one_called());
        }
        let label = self.rule_called(token.span, text)?;
        let number = self.which();
        if !self.owns() {
            return Ok(Called::Name {
                of: None,
                label,
                number,
            });
        }
        self.laid_down_by(Owner { label, number })
    }

    /// What stands behind `desk's`.
    fn laid_down_by(&mut self, owner: Owner) -> Read<Called> {
        self.advance();
        self.advance();
        let Some(label) = self.what_it_does()? else {
            let problem =
                Problem::error(self.here(), format!("what of '{}' is meant?", owner.label))
                    .label("what it laid down, as 'put batch', 'take batch' or 'block'");
            return self.fail(problem);
        };
        let number = self.which();
        Ok(Called::Name {
            of: Some(owner),
            label,
            number,
        })
    }

    /// Whether `'s` comes next, straight behind the piece before it.
    fn owns(&self) -> bool {
        let (sign, letter) = (self.ahead(0), self.ahead(1));
        sign.kind == Kind::Sign
            && matches!(self.text(), "'" | "\u{2019}")
            && self.source.piece(letter.span) == "s"
            && self.last().end == sign.span.start
            && sign.span.end == letter.span.start
    }

    /// A station without a rule, by what it does; none where the next word is
    /// not one for that.
    fn what_it_does(&mut self) -> Read<Option<String>> {
        let text = self.text();
        if self.peek().kind != Kind::Word {
            return Ok(None);
        }
        Ok(Some(match text {
            "put" | "take" => {
                self.advance();
                let tray = self.tray(text, "")?;
                format!("{text} {}", self.program.tray_name(tray))
            }
            "repeatedly" => {
                self.advance();
                if !self.accept("take") {
                    let problem = Problem::error(self.here(), "'repeatedly' is followed by 'take'")
                        .label("as 'repeatedly take batch'");
                    return self.fail(problem);
                }
                let tray = self.tray("take", "")?;
                format!("repeatedly take {}", self.program.tray_name(tray))
            }
            "block" => {
                self.advance();
                text.to_owned()
            }
            _ => return Ok(None),
        }))
    }

    fn no_one_called(&self) -> Problem {
        if matches!(
            self.peek().kind,
            Kind::Sign | Kind::HalfNumber | Kind::ForeignWord
        ) {
            return self.bad_piece();
        }
        let verb = self.source.piece(self.last());
        Problem::error(self.here(), format!("'{verb}' wants a station"))
            .label("its name, as 'clerk' or 'put batch 2', or its position")
    }

    /// The number behind a name.
    fn which(&mut self) -> Option<usize> {
        let number = self.number()?;
        self.advance();
        Some(usize::try_from(number).unwrap_or(usize::MAX))
    }

    fn rule_called(&mut self, span: Span, name: &str) -> Read<String> {
        let definition = self
            .definition(name)
            .and_then(|index| self.program.definitions.get(index));
        let problem = match definition.map(|definition| definition.class) {
            Some(Class::Rule) => {
                self.advance();
                return Ok(name.to_owned());
            }
            Some(Class::Plan) => Problem::error(
                span,
                format!("'{name}' is a plan, and no station is called so"),
            )
            .label("stations are called after rules"),
            None if self.tray_named(name).is_some() => {
                Problem::error(span, format!("'{name}' is a tray"))
                    .label(format!("a station is 'put {name}' or 'take {name}'"))
            }
            None if self.definition(&self.joined(name)).is_some() => {
                Problem::error(span, "a name has no space in it")
                    .label(format!("write '{}'", self.joined(name)))
            }
            None => {
                let rules = self.program.definitions.iter();
                let names = rules
                    .filter(|definition| definition.class == Class::Rule)
                    .map(|definition| definition.name.as_str());
                let problem = Problem::error(span, format!("no rule is called '{name}'"));
                match words::nearest(name, names) {
                    Some(near) => problem.label(format!("did you mean '{near}'?")),
                    None => problem.label("a station is called after its rule, or by what it does"),
                }
            }
        };
        self.fail(problem)
    }

    /// A name with the word behind it, as one.
    fn joined(&self, name: &str) -> String {
        format!("{name}-{}", self.source.piece(self.ahead(1).span))
    }

    /// What stands behind `=>`.
    fn expected(&mut self, ask: &Ask) -> Read<Option<Expected>> {
        if self.peek().kind == Kind::Sign && matches!(self.text(), "->" | "=" | ":" | ":=") {
            let sign = self.text();
            let problem = Problem::error(self.peek().span, format!("'{sign}' is not used here"))
                .label("write '=>' for what a choice answers");
            return self.fail(problem);
        }
        if self.peek().kind != Kind::Gives {
            return Ok(None);
        }
        let gives = self.advance().span;
        if matches!(ask, Ask::Board | Ask::Why(_)) {
            let problem = Problem::error(gives, "nothing is answered here")
                .label("'=>' stands behind 'do', 'act' and 'step'");
            return self.fail(problem);
        }
        if self.accept("refused") {
            return self.refusal_number();
        }
        let word = self.text();
        let Some(rule) = rules::by_word(word).filter(|_| self.peek().kind == Kind::Word) else {
            return self.fail(self.no_answer());
        };
        self.advance();
        Ok(Some(Expected::Rule(rule.number)))
    }

    fn refusal_number(&mut self) -> Read<Option<Expected>> {
        let Some(number) = self.number() else {
            return Ok(Some(Expected::Refused(None)));
        };
        let span = self.advance().span;
        match u8::try_from(number) {
            Ok(number) if (12..=20).contains(&number) => Ok(Some(Expected::Refused(Some(number)))),
            _ => self.fail(
                Problem::error(span, "a choice is refused by a number from 12 to 20")
                    .label(format!("{} is not", self.source.piece(span))),
            ),
        }
    }

    fn no_answer(&self) -> Problem {
        let words: Vec<&str> = RULES.iter().map(|rule| rule.word).collect();
        let problem = Problem::error(self.here(), "'=>' wants an answer");
        let meant = match self.text() {
            "reads" | "read" | "takes-note" => Some("finds"),
            "writes" | "write" => Some("notes"),
            "restarts" | "retries" | "retry" => Some("gives-up"),
            "refuses" => Some("refused"),
            text => words::nearest(text, words.iter().copied()),
        };
        let problem = match meant {
            Some(word) if self.peek().kind == Kind::Word && !self.on_new_line() => {
                problem.label(format!("did you mean '{word}'?"))
            }
            _ => problem,
        };
        problem.help(format!("one of {}, or refused", words.join(", ")))
    }

    /// The station that the words behind the next one seem to call.
    fn called_behind(&self) -> &str {
        let (first, second) = (self.ahead(1), self.ahead(2));
        let name = match first.kind {
            Kind::Word => self.source.piece(first.span),
            _ => "",
        };
        if name.is_empty() || words::reserved(name) {
            return "clerk";
        }
        match second.kind {
            Kind::Number(_) => self.source.piece(first.span.to(second.span)),
            _ => name,
        }
    }

    /// A line that begins with something else.
    fn fail_line<T>(&mut self) -> Read<T> {
        let token = self.peek();
        let text = self.text();
        let rest = self.called_behind();
        let problem = match (token.kind, text) {
            (Kind::Comma, _)
            | (Kind::Sign, ";" | "." | "&" | "+")
            | (Kind::Word, "then" | "and") => {
                Problem::error(token.span, "nothing stands between two choices")
                    .label(format!("leave out '{text}'"))
            }
            (Kind::Sign | Kind::HalfNumber | Kind::ForeignWord, _) => self.bad_piece(),
            (
                Kind::Word,
                "commit" | "commits" | "open" | "opens" | "put" | "take" | "run" | "go",
            ) => Problem::error(token.span, format!("'{text}' is no word for a choice")).label(
                format!("write 'do {rest}': the engine answers what that does"),
            ),
            (Kind::Word, "read" | "write" | "split" | "note" | "settle" | "move") => {
                Problem::error(token.span, format!("'{text}' is no word for a choice"))
                    .label(format!("write 'step {rest}': a move inside an attempt"))
            }
            (Kind::Word, "deliver") => Problem::error(
                token.span,
                "'deliver' is kept for a later version of the engine",
            ),
            (Kind::Word, word) if self.definition(word).is_some() => {
                Problem::error(token.span, format!("'{text}' begins no line of a lesson"))
                    .label(format!("write 'do {text}', or 'act {text}' for one move"))
            }
            _ => Problem::error(token.span, format!("'{text}' begins no line of a lesson"))
                .label("'do', 'act', 'step', 'board' or 'why'"),
        };
        self.fail(problem)
    }
}
