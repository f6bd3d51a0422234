//! Exact texts: one line a record, in place. Nothing is shared, dropped or
//! judged but the numbering; all else goes to the engine.

use super::lexer::Kind;
use super::problems::Problem;
use super::reader::{Read, Reader};
use super::source::Span;
use super::tree::{Ask, Tray};

/// The bytes of an exact text.
#[derive(Clone, Debug, Default, PartialEq, Eq)]
pub struct Records {
    /// The table as written.
    pub bytes: Vec<u8>,
    /// Where each record begins in the bytes, and where it stands in the text.
    pub places: Vec<(usize, Span)>,
    /// The names of the trays.
    pub trays: Vec<Tray>,
    /// What stands behind `choices`, if anything does.
    pub choices: Option<Vec<super::choices::Line>>,
    /// Its questions.
    pub questions: Vec<Ask>,
}

/// Reads what follows the word `exact`.
pub fn read(reader: &mut Reader<'_>) -> Records {
    let mut records = Records::default();
    let mut terms = 0;
    let mut start = None;
    while reader.peek().kind != Kind::End && !reader.full() {
        let first = reader.peek().span;
        let read = match start {
            None => reader.exact_line(&mut records, &mut terms),
            Some(before) => reader.behind_start(&mut records, before),
        };
        if read.is_err() {
            reader.skip_to_exact_line();
        }
        if start.is_none() && reader.source.piece(first) == "start" {
            start = Some(first);
        }
    }
    if start.is_none() {
        let problem = Problem::error(reader.peek().span, "the text has no 'start'")
            .label("add 'start term ...'")
            .would_be(9);
        reader.report(problem);
    }
    records.trays.clone_from(&reader.program.trays);
    records.questions.clone_from(&reader.program.questions);
    records
}

impl Reader<'_> {
    fn skip_to_exact_line(&mut self) {
        loop {
            // A reference is no line of its own: 'term 3' without 'is'.
            let line = self.is("term") && self.source.piece(self.ahead(2).span) == "is";
            if self.at_item() || line || self.is("tokens") {
                return;
            }
            self.advance();
        }
    }

    fn exact_line(&mut self, records: &mut Records, terms: &mut u32) -> Read<()> {
        let first = self.peek().span;
        let mut bytes = Vec::new();
        if self.accept("tray") {
            return self.exact_tray();
        } else if self.accept("term") {
            self.exact_term(terms, &mut bytes)?;
        } else if self.accept("tokens") {
            bytes.push(12);
            bytes.push(self.tray("tokens", "")?);
            bytes.push(self.byte("a count")?);
        } else if self.accept("start") {
            bytes.push(13);
            bytes.push(self.reference()?);
        } else {
            let text = self.text();
            let span = self.advance().span;
            let problem = Problem::error(span, format!("'{text}' begins no record"))
                .label("an exact text is made of tray, term, tokens and start");
            return self.fail(problem);
        }
        records
            .places
            .push((records.bytes.len(), first.to(self.last())));
        records.bytes.extend(bytes);
        Ok(())
    }

    /// Behind the start record only questions and choices may stand.
    fn behind_start(&mut self, records: &mut Records, start: Span) -> Read<()> {
        if self.is("choices") && records.choices.is_none() {
            self.advance();
            records.choices = Some(self.lesson());
            return Ok(());
        }
        if self.accept("ask") {
            return self.ask_item();
        }
        let line = self.line_of(start);
        let span = self.peek().span;
        self.advance();
        let problem = Problem::error(span, "something follows 'start'")
            .label(format!("'start' on line {line} closes the table"))
            .would_be(9);
        self.fail(problem)
    }

    fn exact_tray(&mut self) -> Read<()> {
        let number = self.byte("a tray's number")?;
        let (name, span) = self.new_name("tray")?;
        let taken = |tray: &Tray| tray.name == name || tray.number == number;
        if let Some(other) = self.program.trays.iter().find(|tray| taken(tray)) {
            let line = self.line_of(other.span);
            let problem = Problem::error(span, "this tray is named twice")
                .label(format!("the first is on line {line}"));
            return self.fail(problem);
        }
        self.add_tray(Tray {
            number,
            name,
            count: 0,
            span,
            may_stay: false,
        });
        Ok(())
    }

    fn exact_term(&mut self, terms: &mut u32, bytes: &mut Vec<u8>) -> Read<()> {
        let due = *terms;
        *terms += 1;
        let span = self.here();
        let number = self.number();
        if number != Some(due) {
            let problem = Problem::error(span, "terms are numbered 0, 1, 2, ... as they stand")
                .label(format!("this is term {due}"));
            return self.fail(problem);
        }
        self.advance();
        if !self.accept("is") {
            let problem = Problem::error(self.here(), "'is' is missing here")
                .label(format!("write 'term {due} is ...'"));
            return self.fail(problem);
        }
        self.record(bytes)
    }

    fn record(&mut self, bytes: &mut Vec<u8>) -> Read<()> {
        if self.accept("nothing") {
            bytes.push(1);
        } else if self.accept("end") {
            bytes.push(7);
        } else if self.accept("retry") {
            bytes.push(8);
        } else if self.accept("block") {
            let opened = self.open_bracket()?;
            bytes.extend([6, self.reference()?]);
            self.close_bracket(opened)?;
        } else if self.accept("repeatedly") {
            if !self.accept("take") {
                return self.fail(self.no_record());
            }
            let tray = self.tray("take", "")?;
            self.exact_then()?;
            bytes.extend([4, tray, self.reference()?]);
        } else if self.accept("take") {
            let tray = self.tray("take", "")?;
            let kind = if self.comma() { 9 } else { 3 };
            if kind == 3 {
                self.exact_then()?;
            }
            bytes.extend([kind, tray, self.reference()?]);
        } else if self.accept("put") {
            let tray = self.tray("put", "")?;
            if self.comma() {
                bytes.extend([10, tray, self.reference()?]);
            } else {
                bytes.extend([2, tray]);
            }
        } else if self.is("term") {
            self.two_sides(bytes)?;
        } else {
            return self.fail(self.no_record());
        }
        Ok(())
    }

    fn two_sides(&mut self, bytes: &mut Vec<u8>) -> Read<()> {
        let left = self.reference()?;
        let kind = if self.accept("beside") {
            5
        } else if self.accept("or") && self.accept("else") {
            11
        } else {
            let problem = Problem::error(self.here(), "two terms are joined by a word")
                .label("'beside' or 'or else'");
            return self.fail(problem);
        };
        bytes.extend([kind, left, self.reference()?]);
        Ok(())
    }

    fn comma(&mut self) -> bool {
        let comma = self.peek().kind == Kind::Comma;
        if comma {
            self.advance();
        }
        comma
    }

    fn exact_then(&mut self) -> Read<()> {
        if self.accept("then") {
            return Ok(());
        }
        let problem = Problem::error(self.here(), "a take is followed by 'then' or ','")
            .label("'then' for a station, ',' inside a block");
        self.fail(problem)
    }

    fn no_record(&self) -> Problem {
        Problem::error(self.here(), "this is no record")
            .label("as 'take batch then term 3' or 'term 1 or else term 2'")
    }

    /// `term 3`
    fn reference(&mut self) -> Read<u8> {
        if !self.accept("term") {
            let problem = Problem::error(self.here(), "a term is wanted here").label("as 'term 3'");
            return self.fail(problem);
        }
        self.byte("a term's number")
    }

    /// A number that one byte can hold.
    fn byte(&mut self, what: &str) -> Read<u8> {
        let span = self.here();
        match self.number().map(u8::try_from) {
            Some(Ok(byte)) => {
                self.advance();
                Ok(byte)
            }
            Some(Err(_)) => {
                let written = self.text();
                let message = format!("{what} is a number from 0 to 255");
                self.fail(Problem::error(span, message).label(format!("{written} is not")))
            }
            None => self.fail(Problem::error(span, format!("{what} is wanted here"))),
        }
    }
}
