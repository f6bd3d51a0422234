//! A line that is typed at a terminal: keys, editing, earlier lines.

/// A key, or what one does.
#[derive(Clone, Copy, Debug, PartialEq, Eq)]
pub(super) enum Key {
    Letter(char),
    Enter,
    Left,
    Right,
    Up,
    Down,
    Home,
    End,
    Backspace,
    Delete,
    /// Ctrl-D: the end of the input, or a delete.
    EndOrDelete,
    /// Ctrl-K: all behind the cursor goes.
    CutBehind,
    /// Ctrl-U: all before the cursor goes.
    CutBefore,
    /// Ctrl-W: the word before the cursor goes.
    CutWord,
    /// Ctrl-C.
    Interrupt,
    /// A key that means nothing here.
    Other,
}

/// Makes keys of the bytes that a terminal sends.
#[derive(Clone, Debug, Default)]
pub(super) struct Keys {
    /// The bytes of a key that is not complete.
    begun: Vec<u8>,
}

impl Keys {
    /// One more byte; a key where it completes one.
    pub(super) fn feed(&mut self, byte: u8) -> Option<Key> {
        if self.begun.is_empty() {
            match byte {
                0x1b | 0xc0..=0xff => self.begun.push(byte),
                _ => return Some(single(byte)),
            }
            return None;
        }
        self.begun.push(byte);
        let key = match self.begun.as_slice() {
            [0x1b, rest @ ..] => escaped(rest),
            bytes => letter(bytes),
        };
        if key.is_some() {
            self.begun.clear();
        }
        key
    }
}

fn single(byte: u8) -> Key {
    match byte {
        b'\r' | b'\n' => Key::Enter,
        0x01 => Key::Home,
        0x02 => Key::Left,
        0x03 => Key::Interrupt,
        0x04 => Key::EndOrDelete,
        0x05 => Key::End,
        0x06 => Key::Right,
        0x08 | 0x7f => Key::Backspace,
        0x0b => Key::CutBehind,
        0x0e => Key::Down,
        0x10 => Key::Up,
        0x15 => Key::CutBefore,
        0x17 => Key::CutWord,
        b'\t' => Key::Letter(' '),
        0x20..=0x7e => Key::Letter(char::from(byte)),
        _ => Key::Other,
    }
}

/// What stands behind an escape: none while it goes on.
fn escaped(bytes: &[u8]) -> Option<Key> {
    match bytes {
        [b'[' | b'O'] => None,
        [b'[' | b'O', numbers @ .., last] => match (numbers, *last) {
            (_, 0x20..=0x3f) => None,
            ([], b'A') => Some(Key::Up),
            ([], b'B') => Some(Key::Down),
            ([], b'C') => Some(Key::Right),
            ([], b'D') => Some(Key::Left),
            ([], b'H') | (b"1" | b"7", b'~') => Some(Key::Home),
            ([], b'F') | (b"4" | b"8", b'~') => Some(Key::End),
            (b"3", b'~') => Some(Key::Delete),
            _ => Some(Key::Other),
        },
        _ => Some(Key::Other),
    }
}

/// A letter of several bytes: none while it goes on.
fn letter(bytes: &[u8]) -> Option<Key> {
    let first = bytes.first().copied().unwrap_or(0);
    let length = match first {
        0xf0.. => 4,
        0xe0.. => 3,
        _ => 2,
    };
    let goes_on = bytes.last().is_some_and(|last| (0x80..0xc0).contains(last));
    if bytes.len() < length && goes_on {
        return None;
    }
    let letter = std::str::from_utf8(bytes)
        .ok()
        .and_then(|it| it.chars().next());
    Some(letter.map_or(Key::Other, Key::Letter))
}

/// What comes of a key.
#[derive(Clone, Debug, PartialEq, Eq)]
pub(super) enum Edited {
    /// The line goes on.
    Going,
    /// It is complete.
    Line(String),
    /// Ctrl-C.
    Interrupted,
    /// Nothing more will come.
    Ended,
}

/// The line that is being typed, and those before it.
#[derive(Clone, Debug, Default)]
pub(super) struct Editor {
    line: Vec<char>,
    /// The cursor stands before the letter of this index.
    at: usize,
    history: Vec<String>,
    /// How many lines one has gone back, 0 at the line that is new.
    back: usize,
    /// The new line, while one looks at earlier ones.
    new: Vec<char>,
}

impl Editor {
    /// Does what a key does.
    pub(super) fn key(&mut self, key: Key) -> Edited {
        match key {
            Key::Letter(letter) => {
                self.line.insert(self.at, letter);
                self.at += 1;
            }
            Key::Left => self.at = self.at.saturating_sub(1),
            Key::Right => self.at = (self.at + 1).min(self.line.len()),
            Key::Home => self.at = 0,
            Key::End => self.at = self.line.len(),
            Key::Up => self.go_back(self.back + 1),
            Key::Down => self.go_back(self.back.saturating_sub(1)),
            Key::Backspace => self.cut(self.at.saturating_sub(1), self.at),
            Key::CutBehind => self.cut(self.at, self.line.len()),
            Key::CutBefore => self.cut(0, self.at),
            Key::CutWord => self.cut(self.word_before(), self.at),
            Key::EndOrDelete if self.line.is_empty() => return Edited::Ended,
            Key::Delete | Key::EndOrDelete => self.cut(self.at, self.at + 1),
            Key::Interrupt => return Edited::Interrupted,
            Key::Enter => return Edited::Line(self.done()),
            Key::Other => {}
        }
        Edited::Going
    }

    /// The prompt and the line, drawn over what the terminal shows of them; where
    /// the line is longer than the terminal is wide, what is around the cursor.
    pub(super) fn drawn(&self, prompt: &str, width: usize) -> String {
        let room = width.saturating_sub(prompt.len() + 1).max(1);
        let from = self.at.saturating_sub(room);
        let shown: String = self.line.iter().skip(from).take(room).collect();
        let cursor = prompt.len() + self.at - from;
        format!("\r{prompt}{shown}\u{1b}[K\r\u{1b}[{cursor}C")
    }

    fn cut(&mut self, from: usize, to: usize) {
        let to = to.min(self.line.len());
        if from < to {
            self.line.drain(from..to);
            self.at = from;
        }
    }

    /// Where the word before the cursor begins.
    fn word_before(&self) -> usize {
        let before = self.line.get(..self.at).unwrap_or(&[]);
        let letters = before.iter().rposition(|letter| *letter != ' ');
        let word = before.get(..letters.unwrap_or(0)).unwrap_or(&[]);
        word.iter()
            .rposition(|letter| *letter == ' ')
            .map_or(0, |at| at + 1)
    }

    /// Shows the line of so many lines ago, if there is one.
    fn go_back(&mut self, back: usize) {
        if back > self.history.len() || back == self.back {
            return;
        }
        if self.back == 0 {
            self.new = std::mem::take(&mut self.line);
        }
        let earlier = self.history.get(self.history.len() - back);
        self.line = match earlier {
            Some(line) => line.chars().collect(),
            None => std::mem::take(&mut self.new),
        };
        self.back = back;
        self.at = self.line.len();
    }

    fn done(&mut self) -> String {
        let line: String = std::mem::take(&mut self.line).into_iter().collect();
        self.at = 0;
        self.back = 0;
        self.new.clear();
        if !line.trim().is_empty() && self.history.last() != Some(&line) {
            self.history.push(line.clone());
        }
        line
    }
}

#[cfg(test)]
mod tests {
    use super::{Edited, Editor, Key, Keys};

    const UP: &str = "\u{1b}[A";
    const DOWN: &str = "\u{1b}[B";
    const RIGHT: &str = "\u{1b}[C";
    const LEFT: &str = "\u{1b}[D";

    /// The lines that are typed so.
    fn typed(editor: &mut Editor, text: &str) -> Vec<Edited> {
        let mut keys = Keys::default();
        let mut edited = Vec::new();
        for byte in text.bytes() {
            if let Some(key) = keys.feed(byte) {
                match editor.key(key) {
                    Edited::Going => {}
                    other => edited.push(other),
                }
            }
        }
        edited
    }

    fn lines(text: &str) -> Vec<String> {
        let edited = typed(&mut Editor::default(), text);
        let lines = edited.into_iter().map(|it| match it {
            Edited::Line(line) => line,
            other => format!("{other:?}"),
        });
        lines.collect()
    }

    #[test]
    fn a_line_is_edited() {
        assert_eq!(lines("act desk\r"), ["act desk"]);
        assert_eq!(
            lines(&format!("desk{LEFT}{LEFT}{LEFT}{LEFT}go \r")),
            ["go desk"]
        );
        assert_eq!(
            lines(&format!("dsk{LEFT}{LEFT}e{RIGHT}{RIGHT}{RIGHT}!\r")),
            ["desk!"]
        );
        assert_eq!(lines("desl\u{7f}k\r"), ["desk"]);
        assert_eq!(lines("\u{7f}\u{8}a\r"), ["a"]);
        assert_eq!(lines("xdesk\u{1b}[H\u{1b}[3~\u{1b}[Fs\r"), ["desks"]);
        assert_eq!(lines("xdesk\u{1b}[1~\u{4}\u{1b}[4~s\r"), ["desks"]);
        assert_eq!(lines("xdesk\u{1}\u{4}\u{5}s\r"), ["desks"]);
        assert_eq!(lines(&format!("act desk{LEFT}{LEFT}\u{b}\r")), ["act de"]);
        assert_eq!(lines(&format!("act desk{LEFT}{LEFT}\u{15}\r")), ["sk"]);
        assert_eq!(lines("act the desk  \u{17}x\r"), ["act the x"]);
        assert_eq!(lines("desk\u{17}\u{17}\r"), [""]);
        assert_eq!(lines("tray s\u{fc}d\u{7f}\u{7f}u\r"), ["tray su"]);
        // Keys without a meaning, and bytes that are no letters.
        assert_eq!(lines("a\u{1b}[5~\u{1b}[15;2~\u{1b}xb\u{0}\r"), ["ab"]);
        let mut keys = Keys::default();
        assert_eq!(keys.feed(0xc3), None);
        assert_eq!(keys.feed(b'a'), Some(Key::Other));
        assert_eq!(keys.feed(b'a'), Some(Key::Letter('a')));
    }

    #[test]
    fn earlier_lines() {
        let first = "one\rtwo\rtwo\r \r";
        let last = |more: &str| lines(&format!("{first}{more}\r")).pop();
        assert_eq!(last(UP).as_deref(), Some("two"));
        assert_eq!(last(&UP.repeat(2)).as_deref(), Some("one"));
        assert_eq!(last(&UP.repeat(5)).as_deref(), Some("one"));
        assert_eq!(last(&format!("{UP}{UP}{DOWN}")).as_deref(), Some("two"));
        // The new line is not lost on the way.
        assert_eq!(
            last(&format!("new{UP}{UP}{DOWN}{DOWN}er")).as_deref(),
            Some("newer")
        );
        assert_eq!(last(&format!("{DOWN}a")).as_deref(), Some("a"));
        // An earlier line that is changed is a new one.
        let mut editor = Editor::default();
        typed(&mut editor, &format!("one\r{UP}!\r"));
        assert_eq!(editor.history, ["one", "one!"]);
    }

    #[test]
    fn how_a_line_ends() {
        assert_eq!(lines("\u{4}"), ["Ended"]);
        assert_eq!(lines("ab\u{3}"), ["Interrupted"]);
        assert_eq!(lines("ab\u{4}\r"), ["ab"]);
        assert_eq!(lines("a\n\n"), ["a", ""]);
    }

    #[test]
    fn what_is_drawn() {
        let mut editor = Editor::default();
        typed(&mut editor, &format!("act desk{LEFT}"));
        assert_eq!(editor.drawn("> ", 80), "\r> act desk\u{1b}[K\r\u{1b}[9C");
        // A longer line shows what is before the cursor.
        assert_eq!(editor.drawn("> ", 8), "\r> t des\u{1b}[K\r\u{1b}[7C");
        typed(&mut editor, "\u{1}");
        assert_eq!(editor.drawn("> ", 8), "\r> act d\u{1b}[K\r\u{1b}[2C");
    }
}
