//! What all readers of texts share: the next piece, and the errors found.

use std::collections::HashMap;

use super::lexer::{self, Kind, Token, LONGEST_NAME};
use super::problems::{Problem, MOST_PROBLEMS};
use super::source::{Source, Span};
use super::tree::{Definition, PartId, Program, Tray};
use super::words;

/// Brackets nest at most so deep.
pub const DEEPEST: usize = 64;

/// An item can't be read on: its problem has been told.
#[derive(Clone, Copy, Debug, PartialEq, Eq)]
pub struct Stop;

/// What an item gives, or that it was given up.
pub type Read<T> = Result<T, Stop>;

/// A text being read.
#[derive(Debug)]
pub struct Reader<'a> {
    /// The text.
    pub source: &'a Source,
    /// What it has said so far.
    pub program: Program,
    /// What is wrong so far.
    pub problems: Vec<Problem>,
    /// How many brackets are open.
    pub depth: usize,
    /// The rule or plan whose body is being read.
    pub defining: Option<String>,
    /// Whether it was told that there are too many trays.
    pub told_too_many: bool,
    tokens: Vec<Token>,
    at: usize,
    /// Where the names of the text stand in the program.
    names: HashMap<String, Name>,
}

/// What a name is the name of: an index into the program's lists.
#[derive(Clone, Copy, Debug, PartialEq, Eq)]
enum Name {
    Tray(usize),
    Definition(usize),
}

impl<'a> Reader<'a> {
    /// A text from its beginning.
    #[must_use]
    pub fn new(source: &'a Source, program: Program) -> Reader<'a> {
        let trays = program.trays.iter().enumerate();
        let trays = trays.map(|(index, tray)| (tray.name.clone(), Name::Tray(index)));
        let definitions = program.definitions.iter().enumerate();
        let names = definitions
            .map(|(index, definition)| (definition.name.clone(), Name::Definition(index)))
            .chain(trays)
            .collect();
        Reader {
            source,
            program,
            problems: lexer::hidden_character(source).into_iter().collect(),
            depth: 0,
            defining: None,
            told_too_many: false,
            tokens: lexer::tokens(source),
            at: 0,
            names,
        }
    }

    /// The tray of this name.
    #[must_use]
    pub fn tray_named(&self, name: &str) -> Option<&Tray> {
        match self.names.get(name)? {
            Name::Tray(index) => self.program.trays.get(*index),
            Name::Definition(_) => None,
        }
    }

    /// The rule or plan of this name that stands above.
    #[must_use]
    pub fn definition(&self, name: &str) -> Option<usize> {
        match self.names.get(name)? {
            Name::Tray(_) => None,
            Name::Definition(index) => Some(*index),
        }
    }

    /// One more tray; of two with one name the first keeps it.
    pub fn add_tray(&mut self, tray: Tray) {
        let index = self.program.trays.len();
        self.names
            .entry(tray.name.clone())
            .or_insert(Name::Tray(index));
        self.program.trays.push(tray);
    }

    /// One more rule or plan; of two with one name the first keeps it.
    pub fn add_definition(&mut self, definition: Definition) {
        let index = self.program.definitions.len();
        self.names
            .entry(definition.name.clone())
            .or_insert(Name::Definition(index));
        self.program.definitions.push(definition);
    }

    /// The next piece.
    #[must_use]
    pub fn peek(&self) -> Token {
        self.ahead(0)
    }

    /// The piece so many behind the next one.
    #[must_use]
    pub fn ahead(&self, by: usize) -> Token {
        self.tokens
            .get(self.at + by)
            .or(self.tokens.last())
            .copied()
            .unwrap_or(Token {
                kind: Kind::End,
                span: Span::default(),
            })
    }

    /// The piece before the next one; an empty one at the beginning.
    #[must_use]
    pub fn last(&self) -> Span {
        self.at
            .checked_sub(1)
            .and_then(|at| self.tokens.get(at))
            .map_or(Span::default(), |token| token.span)
    }

    /// Takes the next piece.
    pub fn advance(&mut self) -> Token {
        let token = self.peek();
        if token.kind != Kind::End {
            self.at += 1;
        }
        token
    }

    /// What the next piece says.
    #[must_use]
    pub fn text(&self) -> &'a str {
        self.source.piece(self.peek().span)
    }

    /// Whether the next piece is this word.
    #[must_use]
    pub fn is(&self, word: &str) -> bool {
        self.peek().kind == Kind::Word && self.text() == word
    }

    /// Takes the next piece if it is this word.
    pub fn accept(&mut self, word: &str) -> bool {
        let found = self.is(word);
        if found {
            self.advance();
        }
        found
    }

    /// The number that comes next.
    #[must_use]
    pub fn number(&self) -> Option<u32> {
        match self.peek().kind {
            Kind::Number(number) => Some(number),
            _ => None,
        }
    }

    /// Whether the next piece begins an item, or is the end of the text.
    #[must_use]
    pub fn at_item(&self) -> bool {
        match self.peek().kind {
            Kind::End => true,
            Kind::Word => words::begins_item(self.text()),
            _ => false,
        }
    }

    /// Whether an item begins anywhere behind the next piece.
    #[must_use]
    pub fn has_another_item(&self) -> bool {
        let behind = self.tokens.iter().skip(self.at + 1);
        let mut words = behind.filter(|token| token.kind == Kind::Word);
        words.any(|token| words::begins_item(self.source.piece(token.span)))
    }

    /// Goes on to the next item.
    pub fn skip_to_item(&mut self) {
        while !self.at_item() {
            self.advance();
        }
    }

    /// Whether no more problems are to be looked for: one more than are told is
    /// enough to say that there are more.
    #[must_use]
    pub fn full(&self) -> bool {
        self.problems.len() > MOST_PROBLEMS
    }

    /// Tells a problem and gives the item up.
    ///
    /// # Errors
    ///
    /// Always.
    pub fn fail<T>(&mut self, problem: Problem) -> Read<T> {
        self.report(problem);
        Err(Stop)
    }

    /// Tells a problem and reads on.
    pub fn report(&mut self, problem: Problem) {
        if !self.full() {
            self.problems.push(problem);
        }
    }

    /// Whether the next piece stands on another line than the one before.
    #[must_use]
    pub fn on_new_line(&self) -> bool {
        let between = Span::new(self.last().end, self.peek().span.start);
        self.source.piece(between).contains('\n')
    }

    /// A place for a problem at the next piece: where that is on another line,
    /// or begins another item, the place behind the piece before.
    #[must_use]
    pub fn here(&self) -> Span {
        if self.at_item() || self.on_new_line() {
            self.last().behind()
        } else {
            self.peek().span
        }
    }

    /// A new name for a `tray`, `rule` or `plan`. A word of the language can't be
    /// one, but is kept: its uses are no further errors.
    ///
    /// # Errors
    ///
    /// Where there is none, or it can't be one.
    pub fn new_name(&mut self, what: &str) -> Read<(String, Span)> {
        let token = self.peek();
        let text = self.text();
        let problem = match token.kind {
            Kind::Word if words::reserved(text) && !self.forgotten_name() => {
                let message =
                    format!("'{text}' is a word of the language and cannot name a {what}");
                let problem = Problem::error(token.span, message);
                self.report(problem.label(format!("for example '{text}-1'")));
                self.advance();
                return Ok((text.to_owned(), token.span));
            }
            Kind::Word if !words::reserved(text) && text.len() <= LONGEST_NAME => {
                self.advance();
                return Ok((text.to_owned(), token.span));
            }
            Kind::Word if !words::reserved(text) => {
                Problem::error(token.span, "this name is too long")
                    .label(format!("at most {LONGEST_NAME} letters"))
            }
            Kind::HalfNumber | Kind::ForeignWord => self.bad_piece(),
            _ => Problem::error(self.here(), format!("the {what} has no name"))
                .label("a name begins with a letter, as 'batch' or 'desk-2'"),
        };
        self.fail(problem)
    }

    /// Whether the word that stands where a name belongs begins something else:
    /// then the name was left out. The first word of an item does, unless it
    /// stands on the same line and what follows a name follows it.
    fn forgotten_name(&self) -> bool {
        if !self.at_item() || self.on_new_line() {
            return self.at_item() || self.is("is") || self.is("has");
        }
        let behind = self.ahead(1);
        let word = self.source.piece(behind.span);
        let between = Span::new(self.peek().span.end, behind.span.start);
        let named = behind.kind == Kind::End
            || self.source.piece(between).contains('\n')
            || matches!(word, "is" | "has")
            || words::begins_item(word);
        !named
    }

    /// What is wrong with a piece that no text has anywhere.
    #[must_use]
    pub fn bad_piece(&self) -> Problem {
        let token = self.peek();
        let text = self.text();
        match token.kind {
            Kind::HalfNumber => Problem::error(
                token.span,
                format!("'{text}' is neither a number nor a name"),
            )
            .label("a name begins with a letter"),
            Kind::ForeignWord => Problem::error(
                token.span,
                "names are written with the letters a to z and A to Z",
            )
            .help("a comment, behind #, may have any letters"),
            _ => bad_sign(token.span, text),
        }
    }

    /// What to do about a comma that stands here: a last one is one too many.
    #[must_use]
    pub fn comma_label(&self, otherwise: &str) -> String {
        let behind = self.ahead(1);
        let word = self.source.piece(behind.span);
        let last = match behind.kind {
            Kind::Close | Kind::End => true,
            Kind::Word => word == "or" || words::begins_item(word),
            _ => false,
        };
        if last { "leave it out" } else { otherwise }.to_owned()
    }

    /// Opens a bracket; gives its place.
    ///
    /// # Errors
    ///
    /// Where brackets nest too deep, or there is none.
    pub fn open_bracket(&mut self) -> Read<Span> {
        let token = self.peek();
        if token.kind == Kind::Sign {
            return self.fail(self.bad_piece());
        }
        if token.kind != Kind::Open {
            let problem = Problem::error(self.here(), "'(' is missing here")
                .label("the ways of a block stand in brackets");
            return self.fail(problem);
        }
        if self.depth == DEEPEST {
            let problem = Problem::error(token.span, "brackets nest too deep")
                .label(format!("at most {DEEPEST} may be open"))
                .help("give the inner part a name: rule ... is ..., plan ... is ...");
            return self.fail(problem);
        }
        self.depth += 1;
        self.advance();
        Ok(token.span)
    }

    /// Closes a bracket that was opened there.
    ///
    /// # Errors
    ///
    /// Where it is not closed here.
    pub fn close_bracket(&mut self, opened: Span) -> Read<()> {
        self.depth = self.depth.saturating_sub(1);
        if self.peek().kind == Kind::Close {
            self.advance();
            return Ok(());
        }
        if matches!(
            self.peek().kind,
            Kind::Sign | Kind::HalfNumber | Kind::ForeignWord
        ) {
            return self.fail(self.bad_piece());
        }
        if self.is("else") {
            let problem = Problem::error(self.peek().span, "one way comes after the other")
                .label("write 'or else'");
            return self.fail(problem);
        }
        let at = self.source.position(opened.start);
        let which = format!("for the bracket at {}:{}", at.line, at.column);
        let mut problem = Problem::error(self.here(), "')' is missing here").label(which);
        if let Some(word) = words::instead_of(self.text()) {
            problem = problem.help(format!("for '{}' write '{word}'", self.text()));
        }
        self.fail(problem)
    }

    /// Where a name is written further down, and by which word: for the errors
    /// about names that are used too early.
    #[must_use]
    pub fn written_below(&self, name: &str) -> Option<(&'a str, Span)> {
        let word = |token: &Token| match token.kind {
            Kind::Word => self.source.piece(token.span),
            _ => "",
        };
        let below = self.tokens.get(self.at..)?;
        below.windows(3).find_map(|tokens| {
            let [first, second, third] = tokens else {
                return None;
            };
            let name_at = match (word(first), second.kind) {
                ("tray", Kind::Number(_)) => third,
                ("tray" | "rule" | "plan", _) => second,
                _ => return None,
            };
            (word(name_at) == name).then_some((word(first), name_at.span))
        })
    }

    /// The line on which something stands.
    #[must_use]
    pub fn line_of(&self, span: Span) -> usize {
        self.source.position(span.start).line
    }

    /// Folds parts to the right: `a beside (b beside c)`.
    pub fn to_the_right(
        &mut self,
        mut parts: Vec<PartId>,
        mut joints: Vec<Span>,
        join: impl Fn(PartId, PartId) -> super::tree::PartKind,
    ) -> PartId {
        let mut whole = parts.pop().unwrap_or(0);
        while let (Some(part), Some(joint)) = (parts.pop(), joints.pop()) {
            whole = self.program.add(join(part, whole), joint);
        }
        whole
    }
}

/// A sign that the language does not have, and what is meant by it elsewhere.
fn bad_sign(span: Span, sign: &str) -> Problem {
    let problem = Problem::error(span, format!("'{sign}' is not used here"));
    match sign {
        "." | ";" => problem.help(
            "the steps of a block are parted by ','; a take of a station is followed by 'then'",
        ),
        "|" | "||" | "&" | "+" => {
            problem.help("for stations side by side write 'beside', between two ways 'or else'")
        }
        "->" => {
            problem.help("write '=>' for what a choice answers, 'then' for what follows a take")
        }
        ":" | "=" | ":=" => {
            problem.help("write 'has' for what a tray has, 'is' for what a name stands for")
        }
        "*" | "!" => problem.help("for a take that stays write 'repeatedly take ... then ...'"),
        "[" | "]" | "{" | "}" => problem.help("brackets are ( and )"),
        "-" | "_" => problem.help("a name begins with a letter"),
        _ => problem,
    }
}
