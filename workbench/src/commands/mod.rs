//! The commands of `hall`, their streams and their exit codes.

pub mod args;
mod build;
mod check;
mod explore;
mod files;
pub mod help;
pub mod load;
mod opening;
mod play;
mod questions;
mod run;
mod show;
mod test;

use std::ffi::OsString;
use std::io::{self, BufRead, Write};

use crate::style::Style;

pub use args::Args;

/// What a command ends with.
#[derive(Clone, Copy, Debug, PartialEq, Eq)]
pub enum Exit {
    /// Accepted, or run to its end as expected.
    Good,
    /// The input was refused, or an expectation was missed.
    Refused,
    /// This signal asked for an end, and what was seen by then was told.
    Signal(i32),
}

/// Why a command could not do its work.
#[derive(Debug)]
pub enum Failure {
    /// It was called without a command.
    NoCommand,
    /// It was called in another way than its help says.
    Usage(String),
    /// A file can't be read or written.
    File(String),
    /// The program is at odds with itself.
    Contradiction(String),
    /// Nobody reads what is written.
    Output(io::Error),
}

impl From<io::Error> for Failure {
    fn from(error: io::Error) -> Failure {
        Failure::Output(error)
    }
}

/// What a command gives.
pub type Outcome = Result<Exit, Failure>;

/// The streams of a command.
pub struct Streams<'a> {
    /// Standard input.
    pub input: &'a mut dyn BufRead,
    /// Standard output: results.
    pub out: &'a mut dyn Write,
    /// Standard error: errors and notes.
    pub err: &'a mut dyn Write,
    /// Colour of the results.
    pub style: Style,
    /// Colour of errors and notes.
    pub err_style: Style,
    /// Whether standard output is a terminal.
    pub out_is_terminal: bool,
    /// Whether standard input is a terminal.
    pub input_is_terminal: bool,
}

impl std::fmt::Debug for Streams<'_> {
    fn fmt(&self, out: &mut std::fmt::Formatter<'_>) -> std::fmt::Result {
        out.debug_struct("Streams").finish_non_exhaustive()
    }
}

/// Runs the program with these arguments as the system hands them over.
pub fn main_with(arguments: impl IntoIterator<Item = OsString>, streams: &mut Streams<'_>) -> u8 {
    let arguments: Result<Vec<String>, OsString> =
        arguments.into_iter().map(OsString::into_string).collect();
    match arguments {
        Ok(arguments) => main(&arguments, streams),
        Err(argument) => {
            let shown = argument.to_string_lossy();
            let words = format!(
                "'{shown}' is not written in UTF-8: give the file another name, or hand it over \
                 as standard input, which is called -"
            );
            failed(&Failure::Usage(words), streams)
        }
    }
}

/// Runs the program with these arguments, the program's own name left out, and
/// gives its exit code.
pub fn main(arguments: &[String], streams: &mut Streams<'_>) -> u8 {
    let outcome = dispatch(arguments, streams).and_then(|exit| {
        streams.out.flush()?;
        Ok(exit)
    });
    match outcome {
        Ok(Exit::Good) => 0,
        Ok(Exit::Refused) => 1,
        // As a shell says that a signal has ended a program.
        Ok(Exit::Signal(signal)) => u8::try_from(128 + signal).unwrap_or(1),
        Err(failure) => failed(&failure, streams),
    }
}

/// Says why nothing was done. Where nobody listens, nothing is said.
fn failed(failure: &Failure, streams: &mut Streams<'_>) -> u8 {
    // What was written before the failure belongs before its words.
    let _ = streams.out.flush();
    let (code, words) = match failure {
        Failure::NoCommand => (2, help::OVERVIEW.to_owned()),
        Failure::Usage(words) => (2, format!("hall: {words}\n")),
        Failure::File(words) => (3, format!("hall: {words}\n")),
        Failure::Contradiction(words) => (
            70,
            format!(
                "hall: this program is at odds with itself: {words}. Nothing it printed counts.\n"
            ),
        ),
        Failure::Output(error) if error.kind() == io::ErrorKind::BrokenPipe => return 0,
        Failure::Output(error) => (3, format!("hall: cannot write: {error}\n")),
    };
    let _ = streams.err.write_all(words.as_bytes());
    code
}

fn dispatch(arguments: &[String], streams: &mut Streams<'_>) -> Outcome {
    let Some((command, rest)) = arguments.split_first() else {
        return Err(Failure::NoCommand);
    };
    match command.as_str() {
        "help" | "--help" | "-h" => {
            let page = rest
                .first()
                .map_or(Some(help::OVERVIEW), |it| help::page(it));
            return match page {
                Some(page) => said(streams, page),
                None => Err(no_command(rest.first().map_or("", String::as_str))),
            };
        }
        "--version" | "-V" => {
            let words = format!("hall {}\n", env!("CARGO_PKG_VERSION"));
            return said(streams, &words);
        }
        _ => {}
    }
    let Some(page) = help::page(command) else {
        return Err(no_command(command));
    };
    let args = Args::read(command, rest)?;
    if args.has("--help") {
        return said(streams, page);
    }
    match command.as_str() {
        "check" => check::check(&args, streams),
        "build" => build::build(&args, streams),
        "show" => show::show(&args, streams),
        "opening" => opening::opening(&args, streams),
        "run" => run::run(&args, streams),
        "play" => play::play(&args, streams),
        "explore" => explore::explore(&args, streams),
        "test" => test::test(&args, streams),
        _ => Err(no_command(command)),
    }
}

fn said(streams: &mut Streams<'_>, words: &str) -> Outcome {
    streams.out.write_all(words.as_bytes())?;
    Ok(Exit::Good)
}

fn no_command(command: &str) -> Failure {
    let near = args::did_you_mean(command, help::COMMANDS.into_iter());
    Failure::Usage(format!(
        "there is no command '{command}'{near}\nhall help lists all commands"
    ))
}

#[cfg(test)]
#[allow(clippy::unwrap_used)]
mod tests {
    use super::{failed, Failure, Streams};
    use crate::style::Style;
    use std::io::{BufReader, Error, ErrorKind};

    fn said(failure: &Failure) -> (u8, String) {
        let (mut out, mut err) = (Vec::new(), Vec::new());
        let code = failed(
            failure,
            &mut Streams {
                input: &mut BufReader::new(&b""[..]),
                out: &mut out,
                err: &mut err,
                style: Style::PLAIN,
                err_style: Style::PLAIN,
                out_is_terminal: false,
                input_is_terminal: false,
            },
        );
        assert!(out.is_empty());
        (code, String::from_utf8(err).unwrap())
    }

    #[test]
    fn codes() {
        let (code, words) = said(&Failure::Contradiction("names".to_owned()));
        assert_eq!(code, 70);
        assert_eq!(
            words,
            "hall: this program is at odds with itself: names. Nothing it printed counts.\n"
        );
        assert_eq!(
            said(&Failure::Usage("so".to_owned())),
            (2, "hall: so\n".to_owned())
        );
        assert_eq!(
            said(&Failure::File("so".to_owned())),
            (3, "hall: so\n".to_owned())
        );
        let closed = Failure::Output(Error::from(ErrorKind::BrokenPipe));
        assert_eq!(said(&closed), (0, String::new()));
        let full = Failure::Output(Error::from(ErrorKind::Other));
        assert_eq!(said(&full).0, 3);
    }
}
