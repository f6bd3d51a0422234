//! Reading processes: what stands in a hall.

use super::lexer::Kind;
use super::problems::Problem;
use super::reader::{Read, Reader};
use super::source::Span;
use super::tree::{Class, PartId, PartKind};
use super::words;

/// Most stations that `n of` may name; the engine has the last word on how
/// many may stand.
const MOST_COPIES: u32 = 64;

/// What stands before the last part of a station.
enum Prefix {
    Copies(u8, Span),
    Take(u8, Span),
    Repeatedly(u8, Span),
}

impl Reader<'_> {
    /// `P beside Q beside ..`
    ///
    /// # Errors
    ///
    /// Where the text says no process.
    pub fn process(&mut self) -> Read<PartId> {
        let mut parts = Vec::new();
        let mut joints = Vec::new();
        loop {
            let (part, open) = self.station()?;
            parts.push(part);
            if !self.is("beside") {
                break;
            }
            let joint = self.peek().span;
            if open {
                return self.fail(two_readings(joint));
            }
            self.advance();
            joints.push(joint);
        }
        Ok(self.to_the_right(parts, joints, PartKind::Beside))
    }

    /// One part between two `beside`, and whether a `then` stands in it.
    fn station(&mut self) -> Read<(PartId, bool)> {
        let mut prefixes = Vec::new();
        while let Some(prefix) = self.prefix()? {
            prefixes.push(prefix);
        }
        let mut part = self.closed()?;
        self.nothing_follows(part)?;
        let mut open = false;
        for prefix in prefixes.into_iter().rev() {
            open |= !matches!(prefix, Prefix::Copies(..));
            part = match prefix {
                Prefix::Copies(1, _) => part,
                Prefix::Copies(count, span) => {
                    self.program.add(PartKind::Copies(count, part), span)
                }
                Prefix::Take(tray, span) => self.program.add(PartKind::Take(tray, part), span),
                Prefix::Repeatedly(tray, span) => {
                    self.program.add(PartKind::Repeatedly(tray, part), span)
                }
            };
        }
        Ok((part, open))
    }

    fn prefix(&mut self) -> Read<Option<Prefix>> {
        if let Some(count) = self.number() {
            return self.copies(count).map(Some);
        }
        let first = self.peek().span;
        if self.accept("repeatedly") {
            if !self.is("take") {
                return self.fail(only_takes_repeat(first));
            }
            self.advance();
            let (tray, span) = self.take_then(first)?;
            return Ok(Some(Prefix::Repeatedly(tray, span)));
        }
        if self.accept("take") {
            let (tray, span) = self.take_then(first)?;
            return Ok(Some(Prefix::Take(tray, span)));
        }
        Ok(None)
    }

    fn copies(&mut self, count: u32) -> Read<Prefix> {
        let span = self.advance().span;
        if !self.accept("of") {
            let label = match self.peek().kind {
                Kind::Word if !self.at_item() && !self.on_new_line() => {
                    let more = if words::reserved(self.text()) {
                        " ..."
                    } else {
                        ""
                    };
                    format!("write '{count} of {}{more}'", self.text())
                }
                _ => "as '3 of put batch'".to_owned(),
            };
            let message = "a number of stations is followed by 'of'";
            return self.fail(Problem::error(self.here(), message).label(label));
        }
        match u8::try_from(count) {
            Ok(few) if (1..=MOST_COPIES).contains(&count) => Ok(Prefix::Copies(few, span)),
            _ => {
                let message = format!(
                    "how many stations stand side by side is a number from 1 to {MOST_COPIES}"
                );
                let written = self.source.piece(span);
                self.fail(Problem::error(span, message).label(format!("{written} is not")))
            }
        }
    }

    /// The tray and the `then` of a take.
    fn take_then(&mut self, first: Span) -> Read<(u8, Span)> {
        let tray = self.tray("take", " then")?;
        let span = first.to(self.last());
        if self.accept("then") {
            return Ok((tray, span));
        }
        let problem = if let Some(problem) = self.says_where("take") {
            problem
        } else if self.peek().kind == Kind::Comma {
            Problem::error(self.peek().span, "a station's take is followed by 'then'")
                .label("write 'then'")
                .help("',' parts the steps of a block: block (take ..., put ..., end)")
        } else if self.is("and") {
            Problem::error(self.peek().span, "a station does one thing at a time")
                .label("for both at once use a block")
                .help("as 'block (take batch, put done, end)'")
        } else if matches!(
            self.peek().kind,
            Kind::Sign | Kind::HalfNumber | Kind::ForeignWord
        ) {
            self.bad_piece()
        } else if self.begins_station() {
            let next = self.text();
            Problem::error(self.peek().span, "a station's take is followed by 'then'")
                .label(format!("write 'then' before '{next}'"))
        } else {
            Problem::error(
                self.last().behind(),
                "this take does not say how it goes on",
            )
            .label("add 'then nothing'")
        };
        self.fail(problem)
    }

    /// Whether a station begins here.
    fn begins_station(&self) -> bool {
        match (self.peek().kind, self.text()) {
            (Kind::Open, _) | (Kind::Word, "take" | "put" | "block" | "repeatedly" | "nothing") => {
                true
            }
            (Kind::Word, word) => self.definition(word).is_some() && !self.at_item(),
            _ => false,
        }
    }

    fn closed(&mut self) -> Read<PartId> {
        let token = self.peek();
        match (token.kind, self.text()) {
            (Kind::Open, _) => {
                let opened = self.open_bracket()?;
                let inside = self.process()?;
                self.close_bracket(opened)?;
                Ok(inside)
            }
            (Kind::Word, "nothing") => {
                self.advance();
                Ok(self.program.add(PartKind::Nothing, token.span))
            }
            (Kind::Word, "put") => {
                self.advance();
                let tray = self.tray("put", " beside")?;
                let span = token.span.to(self.last());
                Ok(self.program.add(PartKind::Put(tray), span))
            }
            (Kind::Word, "block") => {
                self.advance();
                let opened = self.open_bracket()?;
                let ways = self.ways()?;
                self.close_bracket(opened)?;
                Ok(self.program.add(PartKind::Block(ways), token.span))
            }
            (Kind::Word, word) if self.may_be_named(word) => self.named(Class::Rule),
            _ => self.fail(self.no_station()),
        }
    }

    fn no_station(&self) -> Problem {
        let token = self.peek();
        let text = self.text();
        match (token.kind, text) {
            (Kind::Sign | Kind::HalfNumber | Kind::ForeignWord, _) => self.bad_piece(),
            (Kind::Word, "end" | "retry") => {
                Problem::error(token.span, format!("'{text}' belongs into a block"))
                    .label("a station that does nothing is 'nothing'")
                    .would_be(6)
            }
            (Kind::Word, "private" | "choose") => Problem::error(
                token.span,
                format!("'{text}' is kept for a later version of the engine"),
            ),
            _ => Problem::error(self.here(), "a station is wanted here")
                .label("nothing, put ..., take ... then ..., block (...), a rule, or ( ... )"),
        }
    }

    /// What newcomers write behind a station and what can't stand there.
    fn nothing_follows(&mut self, part: PartId) -> Read<()> {
        let span = self.peek().span;
        let put = matches!(self.program.part(part).kind, PartKind::Put(_));
        let problem = if self.is("then") {
            self.no_then(span, part)
        } else if let Some(problem) = self.says_where("put").filter(|_| put) {
            problem
        } else if self.peek().kind == Kind::Comma {
            let label = self.comma_label("write 'beside'");
            Problem::error(span, "',' does not part stations").label(label)
        } else if self.is("and") {
            Problem::error(span, "'and' does not join stations")
                .label("write 'beside'")
                .help("to take or put several tokens at once use a block: block (take ..., put ..., end)")
        } else {
            return Ok(());
        };
        self.fail(problem)
    }

    fn no_then(&self, span: Span, part: PartId) -> Problem {
        match self.program.resolved(part).0 {
            PartKind::Block(_) => Problem::error(span, "nothing follows a block by itself")
                .label("it needs a helper tray")
                .help("to go on after a block, put a token in it and, beside it, take that token:")
                .help("block (..., put ready, end) beside (take ready then ...)"),
            PartKind::Put(_) => Problem::error(span, "nothing follows a put by itself")
                .label("nobody knows when it is done")
                .help("for one put after the other, let the second take the token that the first puts:")
                .help("put first beside (take first then put second)"),
            _ => Problem::error(span, "'then' follows a take")
                .label("as 'take batch then ...'"),
        }
    }
}

fn two_readings(span: Span) -> Problem {
    Problem::error(span, "'beside' after 'then': which of the two is meant?")
        .help("(take ... then ...) beside ...    both stand there from the start")
        .help("take ... then (... beside ...)    both come after the take")
        .help("write the brackets")
}

fn only_takes_repeat(span: Span) -> Problem {
    Problem::error(span, "only a take can be repeated")
        .label("as 'repeatedly take batch then ...'")
        .help("a block again and again: repeatedly take turn then block (..., put turn, end), with 'tray turn has 1'")
}
