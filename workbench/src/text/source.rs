//! A text with its name, and places in it.

/// A piece of a text, in bytes: from the first up to, not with, the last.
#[derive(Clone, Copy, Debug, Default, PartialEq, Eq)]
pub struct Span {
    /// The first byte.
    pub start: usize,
    /// The byte behind the last.
    pub end: usize,
}

impl Span {
    /// From the first byte up to, not with, the second.
    #[must_use]
    pub fn new(start: usize, end: usize) -> Span {
        Span { start, end }
    }

    /// From the beginning of this one to the end of the other.
    #[must_use]
    pub fn to(self, other: Span) -> Span {
        Span::new(self.start, other.end.max(self.start))
    }

    /// The place just behind it.
    #[must_use]
    pub fn behind(self) -> Span {
        Span::new(self.end, self.end)
    }
}

/// A text and the name under which its errors are told.
#[derive(Clone, Debug)]
pub struct Source {
    /// As the caller named the file.
    pub name: String,
    /// What it says.
    pub text: String,
}

/// A place for people: lines and columns count from 1, columns in characters.
#[derive(Clone, Copy, Debug, PartialEq, Eq)]
pub struct Position {
    /// The line.
    pub line: usize,
    /// The column.
    pub column: usize,
}

impl Source {
    /// A text under a name.
    #[must_use]
    pub fn new(name: impl Into<String>, text: impl Into<String>) -> Source {
        Source {
            name: name.into(),
            text: text.into(),
        }
    }

    /// The line and column of a byte.
    #[must_use]
    pub fn position(&self, byte: usize) -> Position {
        let before = self.before(byte);
        let line_start = before.rfind('\n').map_or(0, |at| at + 1);
        let in_line = before.get(line_start..).unwrap_or("");
        Position {
            line: before.matches('\n').count() + 1,
            column: in_line.chars().count() + 1,
        }
    }

    /// The line with a byte in it, without its end.
    #[must_use]
    pub fn line(&self, byte: usize) -> &str {
        let start = self.before(byte).rfind('\n').map_or(0, |at| at + 1);
        let rest = self.text.get(start..).unwrap_or("");
        let line = rest.split('\n').next().unwrap_or("");
        line.strip_suffix('\r').unwrap_or(line)
    }

    /// What a span covers.
    #[must_use]
    pub fn piece(&self, span: Span) -> &str {
        self.text.get(span.start..span.end).unwrap_or("")
    }

    /// The text before a byte, up to the character with that byte in it.
    fn before(&self, byte: usize) -> &str {
        let mut end = byte.min(self.text.len());
        while !self.text.is_char_boundary(end) {
            end -= 1;
        }
        self.text.get(..end).unwrap_or("")
    }
}

#[cfg(test)]
mod tests {
    use super::{Position, Source};

    #[test]
    fn columns_count_characters() {
        let source = Source::new("a", "tray a\r\n# \u{e4}\u{e4} b\n");
        let at = |byte| source.position(byte);
        assert_eq!(at(0), Position { line: 1, column: 1 });
        assert_eq!(at(5), Position { line: 1, column: 6 });
        assert_eq!(source.line(5), "tray a");
        let letter = source.text.find('b').unwrap_or(0);
        assert_eq!(at(letter), Position { line: 2, column: 6 });
        assert_eq!(source.line(letter), "# \u{e4}\u{e4} b");
        let end = source.text.len();
        assert_eq!(at(end), Position { line: 3, column: 1 });
        assert_eq!(at(end + 9), Position { line: 3, column: 1 });
        assert_eq!(source.line(end), "");
    }
}
