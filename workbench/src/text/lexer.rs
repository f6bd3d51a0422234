//! A text cut into words, numbers and signs.

use super::problems::{hidden, Problem};
use super::source::{Source, Span};

/// A name is at most so long.
pub const LONGEST_NAME: usize = 32;

/// What a piece of text is.
#[derive(Clone, Copy, Debug, PartialEq, Eq)]
pub enum Kind {
    /// Letters, digits, `-` and `_`, a letter first.
    Word,
    /// Digits; a number too large for any use is kept as the largest.
    Number(u32),
    /// `(`
    Open,
    /// `)`
    Close,
    /// `,`
    Comma,
    /// `=>`
    Gives,
    /// A sign that the language does not have.
    Sign,
    /// Begins with a digit and goes on with letters.
    HalfNumber,
    /// A word with letters that names may not have.
    ForeignWord,
    /// Behind everything.
    End,
}

/// A piece of text.
#[derive(Clone, Copy, Debug, PartialEq, Eq)]
pub struct Token {
    /// What it is.
    pub kind: Kind,
    /// Where it is.
    pub span: Span,
}

/// The pieces of a text; the last one is [`Kind::End`], just behind the last
/// piece before it.
#[must_use]
pub fn tokens(source: &Source) -> Vec<Token> {
    let text = &source.text;
    let mut tokens = Vec::new();
    let mut at = usize::from(text.starts_with('\u{feff}')) * '\u{feff}'.len_utf8();
    while let Some(character) = text.get(at..).and_then(|rest| rest.chars().next()) {
        let rest = text.get(at..).unwrap_or("");
        if character == '#' {
            at += rest.find('\n').unwrap_or(rest.len());
        } else if character.is_whitespace() || hidden(character) {
            at += character.len_utf8();
        } else {
            let (kind, length) = piece(character, rest);
            tokens.push(Token {
                kind,
                span: Span::new(at, at + length),
            });
            at += length;
        }
    }
    let end = tokens.last().map_or(0, |token| token.span.end);
    tokens.push(Token {
        kind: Kind::End,
        span: Span::new(end, end),
    });
    tokens
}

/// The piece at the front: what it is and how many bytes it has.
fn piece(first: char, rest: &str) -> (Kind, usize) {
    match first {
        '(' => (Kind::Open, 1),
        ')' => (Kind::Close, 1),
        ',' => (Kind::Comma, 1),
        '=' if rest.starts_with("=>") => (Kind::Gives, 2),
        '-' if rest.starts_with("->") => (Kind::Sign, 2),
        ':' if rest.starts_with(":=") => (Kind::Sign, 2),
        _ if first.is_alphanumeric() => word(first, rest),
        _ => (Kind::Sign, first.len_utf8()),
    }
}

/// A word or a number. A `-` belongs to it unless it begins an arrow.
fn word(first: char, rest: &str) -> (Kind, usize) {
    let end = rest
        .char_indices()
        .find(|(at, character)| {
            let arrow = rest.get(*at..).is_some_and(|rest| rest.starts_with("->"));
            arrow || !(character.is_alphanumeric() || matches!(character, '-' | '_'))
        })
        .map_or(rest.len(), |(at, _)| at);
    let word = rest.get(..end).unwrap_or("");
    let kind = if !word.is_ascii() {
        Kind::ForeignWord
    } else if word.bytes().all(|byte| byte.is_ascii_digit()) {
        Kind::Number(word.parse().unwrap_or(u32::MAX))
    } else if first.is_ascii_digit() {
        Kind::HalfNumber
    } else {
        Kind::Word
    };
    (kind, end)
}

/// The first character that no text may have, told as an error.
#[must_use]
pub fn hidden_character(source: &Source) -> Option<Problem> {
    let body = source.text.strip_prefix('\u{feff}').unwrap_or(&source.text);
    let skipped = source.text.len() - body.len();
    let allowed = |character: char| matches!(character, '\t' | '\n' | '\r');
    let (at, character) = body
        .char_indices()
        .find(|(_, character)| hidden(*character) && !allowed(*character))?;
    let at = at + skipped;
    let span = Span::new(at, at + character.len_utf8());
    let code = u32::from(character);
    Some(
        Problem::error(
            span,
            format!("a text has no hidden characters: here is U+{code:04X}"),
        )
        .label("take it out")
        .help("if this file is a table of bytes, add --binary"),
    )
}

#[cfg(test)]
mod tests {
    use super::{tokens, Kind, Source};

    fn kinds(text: &str) -> Vec<Kind> {
        tokens(&Source::new("", text))
            .into_iter()
            .map(|token| token.kind)
            .collect()
    }

    #[test]
    fn pieces() {
        use Kind::{Close, Comma, End, ForeignWord, Gives, HalfNumber, Number, Open, Sign, Word};
        assert_eq!(
            kinds("a-b_1 (12),=> # x => \n put"),
            [Word, Open, Number(12), Close, Comma, Gives, Word, End]
        );
        assert_eq!(
            kinds("2nd 99999999999 \u{e4}b"),
            [HalfNumber, Number(u32::MAX), ForeignWord, End]
        );
        assert_eq!(
            kinds("desk->a . := = |"),
            [Word, Sign, Word, Sign, Sign, Sign, Sign, End]
        );
        assert_eq!(kinds("\u{feff}tray"), [Word, End]);
        assert_eq!(kinds(""), [End]);
    }

    #[test]
    fn an_arrow_is_no_part_of_a_name() {
        let source = Source::new("", "desk->a-b- ->");
        let pieces: Vec<&str> = tokens(&source)
            .iter()
            .map(|token| source.piece(token.span))
            .collect();
        assert_eq!(pieces, ["desk", "->", "a-b-", "->", ""]);
    }

    #[test]
    fn the_end_is_behind_the_last_piece() {
        let all = tokens(&Source::new("", "put a  # more\n\n"));
        assert_eq!(all.last().map(|token| token.span.start), Some(5));
    }
}
