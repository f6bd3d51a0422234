//! Questions as they are written: `never aside = 1`, `at every end counted = 1`,
//! `always possible counted = 1`, `desk waits leads to counted = 1`.
//!
//! ```text
//! asking     = "never" condition | "at" "every" "end" condition | "always" "possible" condition
//!            | condition "leads" "to" condition .
//! condition  = all { "or" all } .
//! all        = one { "and" one } .
//! one        = "not" one | "(" condition ")" | comparison | who | event .
//! comparison = sum ( "=" | "!=" | "<" | "<=" | ">" | ">=" ) sum .
//! sum        = value { ( "+" | "-" ) value } .
//! value      = number | TRAY | "stations" | standing .
//! who        = [ number "of" ] standing .
//! standing   = station [ "stands" | "waits" | "inside" | "at" deed ] .
//! event      = station ( "commits" | "fails" | "gives" "up" ) .
//! station    = RULE | deed .
//! deed       = "put" TRAY | [ "repeatedly" ] "take" TRAY | "block" .
//! ```
//!
//! None of these words is kept from being a name: where one of them may stand, no
//! name can.

use std::fmt;

use super::tree::{Class, Program};
use super::words::nearest;

/// Brackets and `not` nest so deep at most.
const DEEPEST: usize = 64;

/// What is asked of a condition.
#[derive(Clone, Copy, Debug, PartialEq, Eq)]
pub enum Asked {
    /// It is so in no situation.
    Never,
    /// It is so at every end, and in every round that is never left.
    Ends,
    /// From every situation one can be reached in which it is so.
    Possible,
    /// Wherever it is so, another condition comes to be so.
    Leads,
}

/// A question, read.
#[derive(Clone, Debug, PartialEq, Eq)]
pub struct Asking {
    /// What is asked.
    pub asked: Asked,
    /// The question without the words that say what is asked.
    pub text: String,
    /// The condition.
    pub condition: Condition,
    /// What it leads to, where that is asked.
    pub goal: Option<Condition>,
    /// Whether the text says that it is broken: `=> broken`.
    pub breaks: bool,
}

/// Something that is so in a situation or not.
#[derive(Clone, Debug, PartialEq, Eq)]
pub enum Condition {
    /// Two sums compared.
    Compare(Sum, Comparison, Sum),
    /// At least so many stations stand there.
    AtLeast(i64, Standing),
    /// Something can happen next.
    Event(Caller, Event),
    /// It is not so.
    Not(Box<Condition>),
    /// Each of them is so.
    All(Vec<Condition>),
    /// One of them is so.
    Any(Vec<Condition>),
}

/// Values, each with the sign that stands before it.
pub type Sum = Vec<(i64, Value)>;

/// A number that is written, or counted in a situation.
#[derive(Clone, Debug, PartialEq, Eq)]
pub enum Value {
    /// A number.
    Number(i64),
    /// What a tray has.
    Tray(u8),
    /// How many stations stand there.
    Stations,
    /// How many of some stations.
    Standing(Standing),
}

/// How two sums are compared.
#[derive(Clone, Copy, Debug, PartialEq, Eq)]
pub enum Comparison {
    /// `=`
    Equal,
    /// `!=`
    Unequal,
    /// `<`
    Less,
    /// `<=`
    AtMost,
    /// `>`
    More,
    /// `>=`
    AtLeast,
}

/// Stations, and where they stand.
#[derive(Clone, Debug, PartialEq, Eq)]
pub struct Standing {
    /// Who.
    pub caller: Caller,
    /// Where.
    pub place: Place,
}

/// The words that call stations.
#[derive(Clone, Debug, PartialEq, Eq)]
pub struct Caller {
    /// Who.
    pub who: Who,
    /// The column of the first word.
    pub column: usize,
    /// How many characters there are.
    pub length: usize,
}

/// Who is called.
#[derive(Clone, Debug, PartialEq, Eq)]
pub enum Who {
    /// The stations that are called after a rule.
    Rule(String),
    /// All that are about to do something.
    Doing(Doing),
}

/// What a station is about to do.
#[derive(Clone, Copy, Debug, PartialEq, Eq)]
pub enum Doing {
    /// `put T`
    Put(u8),
    /// `take T`
    Take(u8),
    /// `repeatedly take T`
    Repeatedly(u8),
    /// `block`
    Block,
}

/// Where a station stands.
#[derive(Clone, Copy, Debug, PartialEq, Eq)]
pub enum Place {
    /// Anywhere.
    Stands,
    /// At a take or a block.
    Waits,
    /// It has begun, and is not done.
    Inside,
    /// About to do this.
    At(Doing),
}

/// What can happen to a block.
#[derive(Clone, Copy, Debug, PartialEq, Eq)]
pub enum Event {
    /// It commits.
    Commits,
    /// What an attempt found when it opened is taken away from it.
    Fails,
    /// An attempt finds no way.
    GivesUp,
}

impl Event {
    /// The words for it.
    #[must_use]
    pub fn words(self) -> &'static str {
        match self {
            Event::Commits => "commits",
            Event::Fails => "fails",
            Event::GivesUp => "gives up",
        }
    }
}

/// What is wrong with a question, and where: columns count characters from 1.
#[derive(Clone, Debug, PartialEq, Eq)]
pub struct Mistake {
    /// What is wrong.
    pub message: String,
    /// The column of its first character.
    pub column: usize,
    /// How many characters are meant, at least 1.
    pub length: usize,
}

impl fmt::Display for Mistake {
    fn fmt(&self, out: &mut fmt::Formatter<'_>) -> fmt::Result {
        write!(out, "column {}: {}", self.column, self.message)
    }
}

impl Asked {
    /// A question as it is told.
    #[must_use]
    pub fn told(self, question: &str) -> String {
        match self {
            Asked::Never => format!("never {question}"),
            Asked::Ends => format!("at every end {question}"),
            Asked::Possible => format!("always possible {question}"),
            Asked::Leads => question.to_owned(),
        }
    }

    /// The word for it.
    #[must_use]
    pub fn word(self) -> &'static str {
        match self {
            Asked::Never => "never",
            Asked::Ends => "ends",
            Asked::Possible => "possible",
            Asked::Leads => "leads-to",
        }
    }
}

/// Reads a question with the words that say what is asked.
///
/// # Errors
///
/// The first mistake in it.
pub fn read(text: &str, program: &Program) -> Result<Asking, Mistake> {
    let words = words(text)?;
    let mut reader = Reader::new(text, &words, program);
    let asked = reader.asked()?;
    let first = reader.column() - 1;
    let condition = reader.any()?;
    let goal = match asked {
        Asked::Leads => Some(reader.goal()?),
        _ => None,
    };
    reader.end()?;
    Ok(Asking {
        asked,
        text: text
            .chars()
            .skip(first)
            .collect::<String>()
            .trim()
            .to_owned(),
        condition,
        goal,
        breaks: false,
    })
}

/// Reads a condition, of which this is asked.
///
/// # Errors
///
/// The first mistake in it.
pub fn read_condition(asked: Asked, text: &str, program: &Program) -> Result<Asking, Mistake> {
    let words = words(text)?;
    let mut reader = Reader::new(text, &words, program);
    let condition = reader.any()?;
    reader.end()?;
    Ok(Asking {
        asked,
        text: text.trim().to_owned(),
        condition,
        goal: None,
        breaks: false,
    })
}

/// A word or sign, with the column at which it begins.
#[derive(Clone, Debug, PartialEq, Eq)]
struct Word {
    text: String,
    column: usize,
}

impl Word {
    fn length(&self) -> usize {
        self.text.chars().count()
    }
}

fn words(text: &str) -> Result<Vec<Word>, Mistake> {
    let mut words: Vec<Word> = Vec::new();
    let mut characters = (1..).zip(text.chars()).peekable();
    while let Some((column, character)) = characters.next() {
        let mut word = String::from(character);
        if character.is_whitespace() {
            continue;
        }
        if in_word(character) {
            // As in texts a name may have a minus in it.
            let named = !character.is_ascii_digit();
            let goes_on = |more: char| in_word(more) || (named && more == '-');
            while let Some((_, more)) = characters.next_if(|(_, more)| goes_on(*more)) {
                word.push(more);
            }
        } else if matches!(character, '<' | '>' | '!' | '=') {
            if let Some((_, more)) = characters.next_if(|(_, more)| *more == '=') {
                word.push(more);
            }
        } else if !matches!(character, '+' | '-' | '(' | ')') {
            return Err(Mistake {
                message: format!("'{}' has no meaning here", character.escape_debug()),
                column,
                length: 1,
            });
        }
        words.push(Word { text: word, column });
    }
    Ok(words)
}

fn in_word(character: char) -> bool {
    character.is_alphanumeric() || character == '_'
}

/// What a word names.
enum Named {
    Tray(u8),
    Rule,
    Plan,
}

struct Reader<'a> {
    words: &'a [Word],
    at: usize,
    /// The column behind the last character.
    end: usize,
    depth: usize,
    program: &'a Program,
}

impl<'a> Reader<'a> {
    fn new(text: &str, words: &'a [Word], program: &'a Program) -> Reader<'a> {
        Reader {
            words,
            at: 0,
            end: text.chars().count() + 1,
            depth: 0,
            program,
        }
    }

    fn peek(&self) -> Option<&str> {
        self.ahead(0)
    }

    fn ahead(&self, by: usize) -> Option<&str> {
        self.words.get(self.at + by).map(|word| word.text.as_str())
    }

    fn column(&self) -> usize {
        self.words.get(self.at).map_or(self.end, |word| word.column)
    }

    /// Passes over the word if it is this one.
    fn met(&mut self, word: &str) -> bool {
        let met = self.peek() == Some(word);
        if met {
            self.at += 1;
        }
        met
    }

    /// Passes over these words, of which the first stands there.
    fn all_of(&mut self, words: &[&str]) -> Result<(), Mistake> {
        for word in words {
            if !self.met(word) {
                return Err(self.unexpected(&format!("'{word}'")));
            }
        }
        Ok(())
    }

    fn end(&self) -> Result<(), Mistake> {
        match self.peek() {
            None => Ok(()),
            Some(_) => Err(self.unexpected("'and', 'or' or the end")),
        }
    }

    /// The first words; without them one condition leads to another.
    fn asked(&mut self) -> Result<Asked, Mistake> {
        match self.peek() {
            Some("never") => self.all_of(&["never"]).map(|()| Asked::Never),
            Some("at") => self.all_of(&["at", "every", "end"]).map(|()| Asked::Ends),
            Some("always") => self
                .all_of(&["always", "possible"])
                .map(|()| Asked::Possible),
            None => {
                Err(self
                    .unexpected("'never', 'at every end', 'always possible' or '.. leads to ..'"))
            }
            _ => Ok(Asked::Leads),
        }
    }

    fn goal(&mut self) -> Result<Condition, Mistake> {
        if self.peek() != Some("leads") {
            let mut mistake = self.unexpected("'and', 'or' or 'leads to'");
            if self.peek().is_none() {
                mistake.message +=
                    "; other questions begin with 'never', 'at every end' or 'always \
                    possible'";
            }
            return Err(mistake);
        }
        self.all_of(&["leads", "to"])?;
        self.any()
    }

    fn any(&mut self) -> Result<Condition, Mistake> {
        let mut parts = vec![self.all()?];
        while self.met("or") {
            parts.push(self.all()?);
        }
        Ok(Condition::Any(parts))
    }

    fn all(&mut self) -> Result<Condition, Mistake> {
        let mut parts = vec![self.one()?];
        while self.met("and") {
            parts.push(self.one()?);
        }
        Ok(Condition::All(parts))
    }

    fn one(&mut self) -> Result<Condition, Mistake> {
        if self.depth == DEEPEST {
            return Err(self.mistake(format!("brackets nest {DEEPEST} deep at most")));
        }
        self.depth += 1;
        let one = self.one_inside();
        self.depth -= 1;
        one
    }

    fn one_inside(&mut self) -> Result<Condition, Mistake> {
        if self.met("not") {
            return Ok(Condition::Not(Box::new(self.one()?)));
        }
        if self.met("(") {
            let inner = self.any()?;
            if !self.met(")") {
                return Err(self.unexpected("')'"));
            }
            return Ok(inner);
        }
        if self.ahead(1) == Some("of") {
            return self.so_many();
        }
        let left = self.sum()?;
        if let [(1, Value::Standing(standing))] = left.as_slice() {
            if let Some(event) = self.event(standing)? {
                return Ok(Condition::Event(standing.caller.clone(), event));
            }
            if !self.at_comparison() {
                return Ok(Condition::AtLeast(1, standing.clone()));
            }
        }
        let comparison = self.comparison()?;
        Ok(Condition::Compare(left, comparison, self.sum()?))
    }

    /// `2 of writer inside`
    fn so_many(&mut self) -> Result<Condition, Mistake> {
        let word = self.peek().unwrap_or_default().to_owned();
        let Value::Number(number) = self.number(&word)? else {
            return Err(self.unexpected("a number"));
        };
        if number == 0 {
            let words = "at least none is always so: write '= 0' behind the station";
            return Err(self.mistake(words.to_owned()));
        }
        self.at += 2;
        if let Value::Standing(standing) = self.value()? {
            return Ok(Condition::AtLeast(number, standing));
        }
        self.at -= 1;
        Err(self.mistake("'of' counts stations: write '>=' for tokens".to_owned()))
    }

    fn at_comparison(&self) -> bool {
        matches!(
            self.peek(),
            Some("=" | "!=" | "<" | "<=" | ">" | ">=" | "==" | "!")
        )
    }

    /// What happens to the stations that were called last.
    fn event(&mut self, standing: &Standing) -> Result<Option<Event>, Mistake> {
        let event = match self.peek() {
            Some("commits") => Event::Commits,
            Some("fails") => Event::Fails,
            Some("gives") => Event::GivesUp,
            _ => return Ok(None),
        };
        if standing.place != Place::Stands {
            let words = format!("'{}' stands behind the station alone", event.words());
            return Err(self.mistake(words));
        }
        self.at += 1;
        if event == Event::GivesUp {
            self.all_of(&["up"])?;
        }
        Ok(Some(event))
    }

    fn comparison(&mut self) -> Result<Comparison, Mistake> {
        let comparison = match self.peek() {
            Some("=") => Comparison::Equal,
            Some("!=") => Comparison::Unequal,
            Some("<") => Comparison::Less,
            Some("<=") => Comparison::AtMost,
            Some(">") => Comparison::More,
            Some(">=") => Comparison::AtLeast,
            Some("==") => return Err(self.mistake("write '=' for '=='".to_owned())),
            None => {
                let words = "a comparison, one of = != < <= > >=, is wanted here, and there is \
                    nothing more; put the question in quotes, since < and > are the shell's";
                return Err(self.mistake(words.to_owned()));
            }
            _ => return Err(self.unexpected("a comparison, one of = != < <= > >=")),
        };
        self.at += 1;
        Ok(comparison)
    }

    fn sum(&mut self) -> Result<Sum, Mistake> {
        let mut sum = vec![(1, self.value()?)];
        loop {
            let sign = match self.peek() {
                Some("+") => 1,
                Some("-") => -1,
                _ => return Ok(sum),
            };
            self.at += 1;
            sum.push((sign, self.value()?));
        }
    }

    fn value(&mut self) -> Result<Value, Mistake> {
        const WANTED: &str = "a tray, a station or a number";
        let Some(word) = self.peek().map(str::to_owned) else {
            return Err(self.unexpected(WANTED));
        };
        if let "put" | "take" | "repeatedly" | "block" = word.as_str() {
            return self.standing().map(Value::Standing);
        }
        let value = if word.starts_with(|first: char| first.is_ascii_digit()) {
            self.number(&word)?
        } else if word.starts_with(in_word) && !matches!(word.as_str(), "and" | "or" | "not") {
            match self.named(&word) {
                Some(Named::Rule) => return self.standing().map(Value::Standing),
                Some(Named::Tray(tray)) => Value::Tray(tray),
                None if word == "stations" => Value::Stations,
                Some(Named::Plan) => {
                    let words = format!("'{word}' is a plan, and no station is called so");
                    return Err(self.mistake(words));
                }
                None => return Err(self.unknown(&word)),
            }
        } else {
            return Err(self.unexpected(WANTED));
        };
        self.at += 1;
        Ok(value)
    }

    fn number(&self, word: &str) -> Result<Value, Mistake> {
        match word.parse() {
            Ok(number @ 0..=999_999) => Ok(Value::Number(number)),
            Ok(_) => Err(self.mistake("a number is at most 999999".to_owned())),
            Err(_) if !word.starts_with(|first: char| first.is_ascii_digit()) => {
                Err(self.unexpected("a number"))
            }
            Err(_) => Err(self.mistake(format!("'{word}' is neither a number nor a tray"))),
        }
    }

    fn named(&self, word: &str) -> Option<Named> {
        let Program {
            trays, definitions, ..
        } = self.program;
        if let Some(tray) = trays.iter().find(|tray| tray.name == word) {
            return Some(Named::Tray(tray.number));
        }
        let definition = definitions.iter().find(|it| it.name == word)?;
        Some(match definition.class {
            Class::Rule => Named::Rule,
            Class::Plan => Named::Plan,
        })
    }

    fn unknown(&self, word: &str) -> Mistake {
        let Program {
            trays, definitions, ..
        } = self.program;
        let rules = definitions.iter().filter(|it| it.class == Class::Rule);
        let rules: Vec<&str> = rules.map(|it| it.name.as_str()).collect();
        let what = if rules.is_empty() {
            "tray"
        } else {
            "tray or rule"
        };
        let trays = trays.iter().map(|tray| tray.name.as_str());
        let names: Vec<&str> = trays.chain(rules).collect();
        let hint = match nearest(word, names.iter().copied()) {
            Some(near) => format!("did you mean '{near}'?"),
            None => format!("there are {}", names.join(", ")),
        };
        self.mistake(format!("no {what} is called '{word}': {hint}"))
    }

    /// Stations, and where they stand.
    fn standing(&mut self) -> Result<Standing, Mistake> {
        let caller = self.caller()?;
        let place = match self.peek() {
            Some("stands") => Place::Stands,
            Some("waits") => Place::Waits,
            Some("inside") => Place::Inside,
            Some("at") => {
                self.at += 1;
                let place = Place::At(self.doing()?);
                return Ok(Standing { caller, place });
            }
            _ => {
                return Ok(Standing {
                    caller,
                    place: Place::Stands,
                })
            }
        };
        self.at += 1;
        Ok(Standing { caller, place })
    }

    fn caller(&mut self) -> Result<Caller, Mistake> {
        let column = self.column();
        let word = self.peek().unwrap_or_default().to_owned();
        let who = if let Some(Named::Rule) = self.named(&word) {
            self.at += 1;
            Who::Rule(word)
        } else {
            Who::Doing(self.doing()?)
        };
        let last = self.at.checked_sub(1).and_then(|at| self.words.get(at));
        let length = last.map_or(1, |last| last.column + last.length() - column);
        Ok(Caller {
            who,
            column,
            length,
        })
    }

    fn doing(&mut self) -> Result<Doing, Mistake> {
        if self.met("block") {
            Ok(Doing::Block)
        } else if self.met("put") {
            self.tray().map(Doing::Put)
        } else if self.met("take") {
            self.tray().map(Doing::Take)
        } else if self.met("repeatedly") {
            self.all_of(&["take"])?;
            self.tray().map(Doing::Repeatedly)
        } else {
            Err(self.unexpected("'put', 'take', 'repeatedly take' or 'block'"))
        }
    }

    fn tray(&mut self) -> Result<u8, Mistake> {
        let Some(word) = self.peek().map(str::to_owned) else {
            return Err(self.unexpected("a tray"));
        };
        match self.named(&word) {
            Some(Named::Tray(tray)) => {
                self.at += 1;
                Ok(tray)
            }
            Some(Named::Rule | Named::Plan) => Err(self.mistake(format!("'{word}' is no tray"))),
            None if word.starts_with(in_word) => Err(self.unknown(&word)),
            None => Err(self.unexpected("a tray")),
        }
    }

    /// A mistake at the next word.
    fn mistake(&self, message: String) -> Mistake {
        let (column, length) = match self.words.get(self.at) {
            Some(word) => (word.column, word.length()),
            None => (self.end, 1),
        };
        Mistake {
            message,
            column,
            length,
        }
    }

    fn unexpected(&self, wanted: &str) -> Mistake {
        let found = self
            .peek()
            .map_or("nothing more".to_owned(), |word| format!("'{word}'"));
        self.mistake(format!("{wanted} is wanted here, and there is {found}"))
    }
}
