//! What was played, kept as a lesson. No file is written over unasked.

use std::fmt::Write as _;
use std::fs::{self, OpenOptions};
use std::io::{self, Write as _};
use std::path::Path;

use super::super::files::{not_over, write_whole};
use super::super::Failure;
use crate::explore::report::counted;

/// Where a session was kept.
#[derive(Debug)]
pub(super) struct Kept<'a> {
    /// The file that is played.
    played: &'a str,
    /// The file that this session has written, and what it wrote.
    own: Option<(String, String)>,
}

impl<'a> Kept<'a> {
    pub(super) fn of(played: &'a str) -> Kept<'a> {
        Kept { played, own: None }
    }

    /// Writes what was said to a file; what is to be told about that.
    pub(super) fn save(
        &mut self,
        file: &str,
        over: bool,
        said: &[String],
    ) -> Result<String, Failure> {
        if file.is_empty() {
            return Ok("save wants a file".to_owned());
        }
        if !over && self.is_anothers(file) {
            return Ok(format!(
                "{file} is there already: 'save! {file}' writes over it"
            ));
        }
        let text = lesson(said);
        let written = not_over(self.played, file).and_then(|()| write_whole(file, text.as_bytes()));
        match written {
            Ok(()) => {
                self.own = Some((file.to_owned(), text));
                Ok(self.written(file, said))
            }
            // One plays on: the choices are not lost.
            Err(Failure::File(words) | Failure::Usage(words)) => Ok(words),
            Err(failure) => Err(failure),
        }
    }

    /// Whether a file is there that this session has not written just so.
    fn is_anothers(&self, file: &str) -> bool {
        let is_file = fs::metadata(file).is_ok_and(|it| it.is_file());
        let own = self.own.as_ref().filter(|(name, _)| name == file);
        let same =
            own.is_some_and(|(_, text)| fs::read(file).is_ok_and(|there| there == text.as_bytes()));
        // The file that is played has an answer of its own.
        is_file && !same && not_over(self.played, file).is_ok()
    }

    /// Keeps a session that is interrupted in a new file; what is to be told about
    /// that. Nothing where nothing was done, or all of it is kept already.
    pub(super) fn at_the_end(&self, said: &[String]) -> Result<Option<String>, Failure> {
        let text = lesson(said);
        let kept = self.own.as_ref().is_some_and(|(_, own)| *own == text);
        if said.is_empty() || kept {
            return Ok(None);
        }
        let mut number = 1;
        loop {
            let file = self.new_name(number);
            let made = OpenOptions::new().write(true).create_new(true).open(&file);
            let written = made.and_then(|mut it| it.write_all(text.as_bytes()));
            match written {
                Ok(()) => return Ok(Some(self.written(&file, said))),
                Err(error) if error.kind() == io::ErrorKind::AlreadyExists => number += 1,
                Err(error) => return Err(Failure::File(format!("cannot write {file}: {error}"))),
            }
        }
    }

    /// `count-played.choices`, then `count-played-2.choices`, in this folder.
    fn new_name(&self, number: usize) -> String {
        let stem = Path::new(self.played).file_stem();
        let stem = stem.and_then(|it| it.to_str()).unwrap_or("hall");
        match number {
            1 => format!("{stem}-played.choices"),
            _ => format!("{stem}-played-{number}.choices"),
        }
    }

    fn written(&self, file: &str, said: &[String]) -> String {
        let lines = counted(u64::try_from(said.len()).unwrap_or(u64::MAX), "line");
        let played = self.played;
        format!("{lines} written to {file}: hall run {played} {file} makes them again")
    }
}

/// What was said, as a lesson's text.
fn lesson(said: &[String]) -> String {
    let mut text = String::from("choices\n");
    for line in said {
        let _ = writeln!(text, "  {line}");
    }
    text
}
