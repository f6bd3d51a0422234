//! Files: texts and tables, told apart by their bytes.

use std::fs::File;
use std::io::{self, Read};

use crate::text::problems::Problem;
use crate::text::source::{Source, Span};

/// A text is at most so long: 1 MiB.
pub const LONGEST_TEXT: usize = 1 << 20;
/// No file of any kind is read beyond this.
const LONGEST_FILE: u64 = 1 << 24;

/// What a file holds.
#[derive(Clone, Debug)]
pub enum Material {
    /// Words.
    Text(Source),
    /// Words that can't be read: the text as far as it can be, and why.
    Unreadable(Source, Box<Problem>),
    /// The bytes of a table, or of choices.
    Bytes(Vec<u8>),
}

/// How a file is called in what is printed.
#[must_use]
pub fn shown_name(name: &str) -> &str {
    if name == "-" {
        "standard input"
    } else {
        name
    }
}

/// All bytes of a file; `-` is standard input.
///
/// # Errors
///
/// Where it can't be read, or is far too large for anything that is read here.
pub fn bytes_of(name: &str, standard_input: &mut dyn Read) -> io::Result<Vec<u8>> {
    let mut bytes = Vec::new();
    let limit = LONGEST_FILE + 1;
    if name == "-" {
        standard_input.take(limit).read_to_end(&mut bytes)?;
    } else {
        File::open(name)?.take(limit).read_to_end(&mut bytes)?;
    }
    if bytes.len() as u64 > LONGEST_FILE {
        return Err(io::Error::new(
            io::ErrorKind::InvalidData,
            "larger than 16 MiB",
        ));
    }
    Ok(bytes)
}

/// Whether bytes are meant as a table or as choices. Both begin with a small
/// number that begins no text; an accepted table with 1, 2, 7, 8 or 12.
#[must_use]
pub fn looks_binary(bytes: &[u8]) -> bool {
    matches!(bytes.first(), Some(byte) if *byte < 32 && !matches!(byte, b'\t' | b'\n' | b'\r'))
}

/// What the bytes of a file are; `binary` says that they are no text.
#[must_use]
pub fn material(name: &str, bytes: Vec<u8>, binary: bool) -> Material {
    if binary || looks_binary(&bytes) {
        return Material::Bytes(bytes);
    }
    let name = shown_name(name);
    if bytes.len() > LONGEST_TEXT {
        let problem = Problem::error(Span::default(), "a text has at most 1 MiB");
        return Material::Unreadable(Source::new(name, ""), Box::new(problem));
    }
    match String::from_utf8(bytes) {
        Ok(text) if !text.contains('\0') => Material::Text(Source::new(name, text)),
        Ok(text) => binary_file(name, text.as_bytes()),
        Err(error) if has_control_bytes(error.as_bytes()) => binary_file(name, error.as_bytes()),
        Err(error) => {
            let at = error.utf8_error().valid_up_to();
            let problem = Problem::error(Span::new(at, at), "a text is written in UTF-8")
                .label("this byte is not")
                .help("if this file is a table of bytes, add --binary");
            let text = String::from_utf8_lossy(error.as_bytes()).into_owned();
            Material::Unreadable(Source::new(name, text), Box::new(problem))
        }
    }
}

/// Whether some byte is one that no text of people has in it.
fn has_control_bytes(bytes: &[u8]) -> bool {
    let in_texts = |byte: u8| matches!(byte, b'\t' | b'\n' | b'\r' | 12);
    bytes.iter().any(|byte| *byte < 32 && !in_texts(*byte))
}

/// Pictures, programs and the like; none of it is shown.
fn binary_file(name: &str, bytes: &[u8]) -> Material {
    let first: Vec<String> = bytes.iter().take(8).map(u8::to_string).collect();
    let problem = Problem::error(Span::default(), "this is a binary file, not a text")
        .help(format!("it begins with the bytes {}", first.join(" ")))
        .help("if it is a table of bytes, add --binary");
    Material::Unreadable(Source::new(name, ""), Box::new(problem))
}

#[cfg(test)]
mod tests {
    use super::{material, Material};

    #[test]
    fn told_apart_by_the_first_byte() {
        let is_text =
            |bytes: &[u8]| matches!(material("f", bytes.to_vec(), false), Material::Text(_));
        assert!(is_text(b"tray a\nstart put a\n"));
        assert!(is_text(b""));
        assert!(is_text(b"\n\t"));
        for first in [1, 2, 7, 8, 12, 0, 14] {
            assert!(!is_text(&[first, 13, 0]));
        }
        assert!(matches!(
            material("f", b"tray".to_vec(), true),
            Material::Bytes(_)
        ));
    }

    #[test]
    fn binary_files_are_called_so() {
        for bytes in [&b"\x7fELF\x02\x01\0"[..], b"\x89PNG\r\n\x1a\n", b"tray a\0"] {
            let Material::Unreadable(source, problem) = material("f", bytes.to_vec(), false) else {
                unreachable!("no text");
            };
            assert_eq!(problem.message, "this is a binary file, not a text");
            assert!(source.text.is_empty());
        }
        // A stray letter of another alphabet makes no binary file.
        let latin = b"tray caf\xe9\r\n".to_vec();
        let Material::Unreadable(_, problem) = material("f", latin, false) else {
            unreachable!("no text");
        };
        assert_eq!(problem.message, "a text is written in UTF-8");
    }

    #[test]
    fn bytes_that_are_no_letters() {
        let Material::Unreadable(source, problem) = material("f", b"tray \xff".to_vec(), false)
        else {
            unreachable!("not a text");
        };
        assert_eq!(problem.span.start, 5);
        assert!(source.text.starts_with("tray "));
    }
}
