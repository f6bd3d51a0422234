//! Reading the ways of a block.

use super::lexer::Kind;
use super::problems::Problem;
use super::reader::{Read, Reader};
use super::source::Span;
use super::tree::{Class, PartId, PartKind};

/// A step of a way before it is known what follows.
struct Step {
    takes: bool,
    tray: u8,
    span: Span,
}

impl Reader<'_> {
    /// `way or else way ..`
    ///
    /// # Errors
    ///
    /// Where the text says no way.
    pub fn ways(&mut self) -> Read<PartId> {
        let mut parts = vec![self.way()?];
        let mut joints = Vec::new();
        while self.is("or") {
            let first = self.advance().span;
            if !self.accept("else") {
                let problem =
                    Problem::error(first, "one way comes after the other").label("write 'or else'");
                return self.fail(problem);
            }
            joints.push(first.to(self.last()));
            parts.push(self.way()?);
        }
        Ok(self.to_the_right(parts, joints, PartKind::OrElse))
    }

    fn way(&mut self) -> Read<PartId> {
        let mut steps = Vec::new();
        while self.is("take") || self.is("put") {
            steps.push(self.step()?);
        }
        let mut part = self.finish()?;
        for Step { takes, tray, span } in steps.into_iter().rev() {
            let kind = if takes {
                PartKind::NoteTake(tray, part)
            } else {
                PartKind::NotePut(tray, part)
            };
            part = self.program.add(kind, span);
        }
        Ok(part)
    }

    /// `take T,` or `put T,`
    fn step(&mut self) -> Read<Step> {
        let takes = self.is("take");
        let word = if takes { "take" } else { "put" };
        let first = self.advance().span;
        let tray = self.tray(word, ",")?;
        let span = first.to(self.last());
        if self.peek().kind == Kind::Comma {
            self.advance();
            return Ok(Step { takes, tray, span });
        }
        let here = self.peek().span;
        let problem = if let Some(problem) = self.says_where(word) {
            problem
        } else if self.is("then") {
            Problem::error(here, "inside a block the steps are parted by ','").label("write ','")
        } else if self.is("and") {
            Problem::error(here, "the steps of a block are parted by ','")
                .label("write ','; the block does them all at once")
        } else if matches!(
            self.peek().kind,
            Kind::Sign | Kind::HalfNumber | Kind::ForeignWord
        ) {
            self.bad_piece()
        } else if self.goes_on() {
            let next = self.text();
            Problem::error(here, "the steps of a block are parted by ','")
                .label(format!("write ',' before '{next}'"))
        } else {
            no_finish(self.last().behind(), "add ', end' (or ', retry')")
        };
        self.fail(problem)
    }

    /// Whether the way goes on here, as if a comma stood before it.
    fn goes_on(&self) -> bool {
        match (self.peek().kind, self.text()) {
            (Kind::Open, _) | (Kind::Word, "take" | "put" | "end" | "retry") => true,
            (Kind::Word, word) => self.definition(word).is_some() && !self.at_item(),
            _ => false,
        }
    }

    /// What a way finishes with.
    fn finish(&mut self) -> Read<PartId> {
        let token = self.peek();
        let part = match (token.kind, self.text()) {
            (Kind::Open, _) => {
                let opened = self.open_bracket()?;
                let inside = self.ways()?;
                self.close_bracket(opened)?;
                inside
            }
            (Kind::Word, "end") => {
                self.advance();
                self.program.add(PartKind::End, token.span)
            }
            (Kind::Word, "retry") => {
                self.advance();
                self.program.add(PartKind::Retry, token.span)
            }
            (Kind::Word, word) if self.may_be_named(word) => self.named(Class::Plan)?,
            _ => return self.fail(self.no_way()),
        };
        if self.peek().kind == Kind::Comma {
            let closer = self.source.piece(token.span);
            let message = format!("'{closer}' closes a way: nothing follows it");
            let label = self.comma_label(&format!("move '{closer}' to the end of the way"));
            let problem = Problem::error(self.peek().span, message).label(label);
            return self.fail(problem);
        }
        Ok(part)
    }

    fn no_way(&self) -> Problem {
        let token = self.peek();
        let text = self.text();
        match (token.kind, text) {
            (Kind::Sign | Kind::HalfNumber | Kind::ForeignWord, _) => self.bad_piece(),
            (Kind::Word, "block") => Problem::error(token.span, "a block has no block inside")
                .label("write its ways in brackets")
                .would_be(6),
            (Kind::Word, "nothing" | "beside" | "repeatedly") => Problem::error(
                token.span,
                format!("'{text}' is for stations, not for a block"),
            )
            .label("a way is 'take ...,' and 'put ...,' steps, then 'end' or 'retry'")
            .would_be(6),
            _ => no_finish(self.last().behind(), "add 'end' (or 'retry')"),
        }
    }
}

fn no_finish(span: Span, label: &str) -> Problem {
    Problem::error(span, "this way does not say how it finishes").label(label)
}
