//! Documents with texts and calls of `hall` between fences. Behind a fence
//! stands what it holds:
//!
//! | fence | what it is |
//! |---|---|
//! | `hall NAME` | a text, written to the file NAME |
//! | `bytes NAME` | numbers; with a number behind NAME zeros follow up to that length |
//! | `filled NAME` | two numbers: how many bytes the file has, and which byte it is |
//! | `input` | standard input of the next call |
//! | `console` | `$ hall ..`, what it prints, and `# exit 1` where it does not end with 0 |
//! | `written NAME` | what a call has written to the file NAME |

use std::fs;
use std::path::Path;

use crate::common::hall_in;

/// A fenced piece of a document: what stands behind the fence, and its lines.
pub(crate) struct Fenced {
    pub(crate) kind: String,
    pub(crate) lines: Vec<String>,
}

pub(crate) fn fenced(document: &str) -> Vec<Fenced> {
    let mut pieces = Vec::new();
    let mut open: Option<Fenced> = None;
    for line in document.lines() {
        match (line.strip_prefix("```"), open.take()) {
            (Some(kind), None) => {
                open = Some(Fenced {
                    kind: kind.to_owned(),
                    lines: Vec::new(),
                });
            }
            (Some(_), Some(piece)) => pieces.push(piece),
            (None, Some(mut piece)) => {
                piece.lines.push(line.to_owned());
                open = Some(piece);
            }
            (None, None) => {}
        }
    }
    assert!(open.is_none(), "a fence is not closed");
    pieces
}

/// Lines, each with its end.
pub(crate) fn text_of(lines: &[String]) -> String {
    let mut text = lines.join("\n");
    if !lines.is_empty() {
        text.push('\n');
    }
    text
}

/// Writes the file of a fence, if it is one of a file; the file's name.
pub(crate) fn write_file<'a>(folder: &Path, piece: &'a Fenced) -> Option<&'a str> {
    let (what, name) = piece.kind.split_once(' ')?;
    let numbers = || {
        let words = piece.lines.iter().flat_map(|line| line.split_whitespace());
        words.map(|word| word.parse::<u64>().expect("a number"))
    };
    let (name, length) = match name.split_once(' ') {
        Some((name, length)) => (name, length.parse().expect("a length")),
        None => (name, 0),
    };
    let file = folder.join(name);
    if let Some(below) = file.parent() {
        fs::create_dir_all(below).expect("a folder");
    }
    match what {
        "hall" => fs::write(file, text_of(&piece.lines)).expect("a text"),
        "bytes" => {
            let mut bytes: Vec<u8> = numbers().map(|it| it.try_into().expect("a byte")).collect();
            bytes.resize(bytes.len().max(length), 0);
            fs::write(file, bytes).expect("bytes");
        }
        "filled" => {
            let numbers: Vec<u64> = numbers().collect();
            let length = numbers[0].try_into().expect("a length");
            let byte: u8 = numbers[1].try_into().expect("a byte");
            fs::write(file, vec![byte; length]).expect("a filled file");
        }
        _ => return None,
    }
    Some(name)
}

/// A call of `hall`, and what it is to print.
pub(crate) struct Call<'a> {
    pub(crate) command: &'a str,
    pub(crate) expected: &'a [String],
    pub(crate) code: i32,
}

impl Call<'_> {
    pub(crate) fn of(lines: &[String]) -> Call<'_> {
        let (command, expected) = lines.split_first().expect("a command");
        let (code, expected) = match expected.split_last() {
            Some((last, before)) if last.starts_with("# exit ") => {
                (last[7..].parse().expect("an exit code"), before)
            }
            _ => (0, expected),
        };
        Call {
            command,
            expected,
            code,
        }
    }

    /// What it prints, standard output first; the exit code is compared.
    pub(crate) fn printed(&self, folder: &Path, input: &[u8]) -> String {
        let words = self.command.strip_prefix("$ hall").expect("a call of hall");
        let answer = hall_in(folder, &arguments(words), input);
        assert_eq!(answer.code, Some(self.code), "{}\n{answer:?}", self.command);
        answer.out + &answer.err
    }
}

/// The words of a command as a shell parts them: those in quotes stay together.
fn arguments(words: &str) -> Vec<&str> {
    let mut arguments = Vec::new();
    for (index, piece) in words.split('\'').enumerate() {
        if index % 2 == 1 {
            arguments.push(piece);
        } else {
            arguments.extend(piece.split_whitespace());
        }
    }
    arguments
}
