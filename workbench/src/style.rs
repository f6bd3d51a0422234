//! Colour where a person looks on, and lines of a width that fits.

use std::ffi::OsStr;
use std::fs::File;
use std::io::{self, IsTerminal as _};
use std::process::{Command, Stdio};
use std::sync::OnceLock;

/// Whether words are coloured. No meaning rests on it.
#[derive(Clone, Copy, Debug, Default, PartialEq, Eq)]
pub struct Style {
    coloured: bool,
}

impl Style {
    /// Without colour.
    pub const PLAIN: Style = Style { coloured: false };
    /// With colour.
    pub const COLOURED: Style = Style { coloured: true };

    /// With colour for a stream that is a terminal, if it can show colour and
    /// nobody has asked to do without.
    #[must_use]
    pub fn of_stream(is_terminal: bool) -> Style {
        let variable = |name| std::env::var_os(name);
        let (no_colour, term) = (variable("NO_COLOR"), variable("TERM"));
        Style {
            coloured: is_terminal && wanted(no_colour.as_deref(), term.as_deref()),
        }
    }

    /// Names.
    #[must_use]
    pub fn bold(self, words: &str) -> String {
        self.painted("1", words)
    }

    /// What went well.
    #[must_use]
    pub fn good(self, words: &str) -> String {
        self.painted("32", words)
    }

    /// What failed, lacks or is refused.
    #[must_use]
    pub fn bad(self, words: &str) -> String {
        self.painted("31", words)
    }

    /// What is gone.
    #[must_use]
    pub fn dim(self, words: &str) -> String {
        self.painted("2", words)
    }

    fn painted(self, code: &str, words: &str) -> String {
        if self.coloured {
            format!("\u{1b}[{code}m{words}\u{1b}[0m")
        } else {
            words.to_owned()
        }
    }
}

/// Whether a terminal with these variables is to have colour.
fn wanted(no_colour: Option<&OsStr>, term: Option<&OsStr>) -> bool {
    let unwanted = no_colour.is_some_and(|value| !value.is_empty());
    let dumb = term.is_some_and(|value| value == "dumb");
    !unwanted && !dumb
}

/// How wide told lines are where nothing is known of the terminal.
pub const USUAL_WIDTH: usize = 80;
/// Lines are never narrower: no name would fit.
const LEAST_WIDTH: usize = 20;

/// How wide told lines are: what `COLUMNS` says, else the terminal's width. It is
/// looked up once.
#[must_use]
pub fn width() -> usize {
    static WIDTH: OnceLock<usize> = OnceLock::new();
    *WIDTH.get_or_init(|| {
        let columns = std::env::var("COLUMNS").ok();
        width_of(columns.as_deref(), || {
            io::stdout().is_terminal().then(terminal_size).flatten()
        })
    })
}

fn width_of(columns: Option<&str>, size: impl FnOnce() -> Option<String>) -> usize {
    let number = |words: &str| words.trim().parse().ok().filter(|it| *it > 0);
    let of_terminal = || number(size()?.split_whitespace().nth(1)?);
    let width = columns.and_then(number).or_else(of_terminal);
    width.unwrap_or(USUAL_WIDTH).max(LEAST_WIDTH)
}

/// Rows and columns of the terminal, as `stty` says; none where it is not there.
fn terminal_size() -> Option<String> {
    let terminal = File::open("/dev/tty").ok()?;
    let answer = Command::new("stty")
        .arg("size")
        .stdin(terminal)
        .stderr(Stdio::null())
        .output()
        .ok()?;
    String::from_utf8(answer.stdout).ok()
}

/// Words laid out in lines of [`width`]: the first behind `first`, the others
/// behind as many spaces.
#[must_use]
pub fn wrapped(first: &str, words: &str) -> Vec<String> {
    hung(first, first.chars().count(), words, width())
}

/// A line behind so many spaces more, parted where it is longer than [`width`];
/// what follows stands two further in.
#[must_use]
pub fn indented(line: &str, by: usize) -> Vec<String> {
    let words = line.trim_start();
    let front = " ".repeat(by + line.len() - words.len());
    if front.len() + words.chars().count() <= width() {
        return vec![format!("{front}{words}")];
    }
    hung(&front, front.len() + 2, words, width())
}

/// Words laid out in lines of this width: the first behind `first`, the others
/// behind so many spaces. No word is broken.
#[must_use]
pub fn hung(first: &str, indent: usize, words: &str, width: usize) -> Vec<String> {
    let indent = " ".repeat(indent);
    let mut lines = Vec::new();
    let mut line = first.to_owned();
    let mut empty = true;
    for word in words.split(' ').filter(|word| !word.is_empty()) {
        let gap = usize::from(!empty);
        if !empty && line.chars().count() + gap + word.chars().count() > width {
            lines.push(std::mem::replace(&mut line, indent.clone()));
            empty = true;
        }
        if !empty {
            line.push(' ');
        }
        line.push_str(word);
        empty = false;
    }
    lines.push(line.trim_end().to_owned());
    lines
}

#[cfg(test)]
mod tests {
    use super::{hung, width_of, Style};
    use std::ffi::OsStr;

    #[test]
    fn lines_of_a_width() {
        let words = "token ".repeat(40);
        for width in [50, 80, 120] {
            let lines = hung("   1  OUT     ", 14, &words, width);
            let longest = lines.iter().map(|line| line.chars().count()).max();
            assert!(longest.is_some_and(|it| it <= width && it > width - 6));
        }
        let lines = hung("   1  OUT     ", 14, &words, 80);
        assert!(lines.len() > 2);
        let joined: String = lines.concat();
        assert_eq!(joined.matches("token").count(), 40);
        assert!(lines
            .iter()
            .skip(1)
            .all(|line| line.starts_with("              token")));
    }

    #[test]
    fn a_word_that_is_too_long_stands_alone() {
        let long = "x".repeat(200);
        assert_eq!(
            hung("> ", 2, &format!("a {long} b"), 80),
            ["> a".to_owned(), format!("  {long}"), "  b".to_owned()]
        );
    }

    #[test]
    fn the_width_of_the_terminal() {
        let none = || None;
        let sized = |size: &str| {
            let size = size.to_owned();
            move || Some(size)
        };
        assert_eq!(width_of(None, none), 80);
        assert_eq!(width_of(Some("120"), none), 120);
        assert_eq!(width_of(Some("50"), sized("24 132\n")), 50);
        assert_eq!(width_of(None, sized("24 132\n")), 132);
        for nothing in ["", "wide", "0", "-3", "80x"] {
            assert_eq!(width_of(Some(nothing), none), 80, "{nothing}");
            assert_eq!(width_of(Some(nothing), sized("24 132\n")), 132);
        }
        for nothing in ["", "24", "0 0", "a b"] {
            assert_eq!(width_of(None, sized(nothing)), 80, "{nothing}");
        }
        assert_eq!(width_of(Some("1"), none), 20);
    }

    #[test]
    fn colour_only_where_it_is_wanted() {
        let wanted = |no_colour: Option<&str>, term: Option<&str>| {
            super::wanted(no_colour.map(OsStr::new), term.map(OsStr::new))
        };
        assert!(wanted(None, Some("xterm")));
        assert!(wanted(Some(""), None));
        assert!(!wanted(Some("1"), Some("xterm")));
        assert!(!wanted(None, Some("dumb")));
        assert_eq!(Style::of_stream(false), Style::PLAIN);
    }

    #[test]
    fn colour_is_only_paint() {
        assert_eq!(Style::PLAIN.good("commits"), "commits");
        assert!(Style::COLOURED.good("commits").contains("commits"));
        assert_ne!(Style::COLOURED.good("commits"), "commits");
    }
}
