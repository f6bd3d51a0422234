//! Questions where they stand in a text, and the words `may stay`.

use super::asking::{self, Mistake};
use super::lexer::Kind;
use super::problems::Problem;
use super::reader::{Read, Reader};
use super::source::{Source, Span};
use super::tree::{Ask, Class};

impl Reader<'_> {
    /// What stands behind `ask`, up to the next item.
    pub(super) fn ask_item(&mut self) -> Read<()> {
        let word = self.last();
        let first = self.peek().span;
        while !self.at_item() && self.peek().kind != Kind::Gives {
            self.advance();
        }
        let last = self.last();
        let breaks = self.expected_verdict();
        self.skip_to_item();
        let span = if last == word {
            word.behind()
        } else {
            first.to(last)
        };
        let text = without_comments(self.source.piece(span));
        match asking::read(&text, &self.program) {
            Ok(mut asking) => {
                asking.breaks = breaks?;
                let words: Vec<&str> = asking.text.split_whitespace().collect();
                asking.text = words.join(" ");
                self.program.questions.push(Ask { asking, span });
                Ok(())
            }
            Err(mistake) => self.fail(problem(self.source, span, &mistake)),
        }
    }

    /// `=> broken` or `=> holds`: whether it says that the question is broken.
    fn expected_verdict(&mut self) -> Read<bool> {
        if self.peek().kind != Kind::Gives {
            return Ok(false);
        }
        self.advance();
        let breaks = self.is("broken");
        if breaks || self.is("holds") {
            self.advance();
        }
        let known = matches!(self.source.piece(self.last()), "broken" | "holds");
        if known && self.at_item() {
            return Ok(breaks);
        }
        let problem = Problem::error(self.here(), "a question holds or is broken")
            .label("write '=> broken' where its fault is to be shown");
        self.fail(problem)
    }

    /// `may stay` behind a tray.
    pub(super) fn may_stay(&mut self) -> Read<bool> {
        if !self.accept("may") {
            return Ok(false);
        }
        if self.accept("stay") {
            return Ok(true);
        }
        let problem = Problem::error(self.here(), "'may' is followed by 'stay'")
            .label("what may be left at an end is marked by 'may stay'");
        self.fail(problem)
    }

    /// `may stay` behind the name of a rule.
    pub(super) fn rule_may_stay(&mut self, class: Class) -> Read<bool> {
        if class == Class::Plan && self.is("may") {
            let problem = Problem::error(self.peek().span, "a plan does not stand anywhere")
                .label("trays and rules may stay");
            return self.fail(problem);
        }
        self.may_stay()
    }
}

/// The same with blanks in the place of comments, so that columns stay.
fn without_comments(text: &str) -> String {
    let mut comment = false;
    let blanked = text.chars().map(|letter| {
        comment = letter == '#' || (comment && letter != '\n');
        if comment {
            ' '
        } else {
            letter
        }
    });
    blanked.collect()
}

/// A mistake in a question, told on the text.
#[must_use]
pub fn problem(source: &Source, span: Span, mistake: &Mistake) -> Problem {
    let text = source.piece(span);
    let at = |column: usize| {
        let mut letters = text.char_indices();
        let letter = letters.nth(column.saturating_sub(1));
        span.start + letter.map_or(text.len(), |(at, _)| at)
    };
    let place = Span::new(at(mistake.column), at(mistake.column + mistake.length));
    Problem::error(place, mistake.message.clone())
}
