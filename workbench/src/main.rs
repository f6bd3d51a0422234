//! The program `hall`: arguments and streams in, an exit code out.

use std::io::{self, BufRead, BufReader, BufWriter, IsTerminal, Read, Write};
use std::process::ExitCode;

use workbench::commands::{self, Streams};
use workbench::style::Style;
use workbench::system::{self, Stream};

fn main() -> ExitCode {
    system::own_process();
    let mut streams = Streams {
        input: &mut *input(),
        out: &mut BufWriter::new(output()),
        err: &mut *error_output(),
        style: Style::of_stream(io::stdout().is_terminal()),
        err_style: Style::of_stream(io::stderr().is_terminal()),
        out_is_terminal: io::stdout().is_terminal(),
        input_is_terminal: io::stdin().is_terminal(),
    };
    let arguments = std::env::args_os().skip(1);
    ExitCode::from(commands::main_with(arguments, &mut streams))
}

fn input() -> Box<dyn BufRead> {
    if system::closed(Stream::Input) {
        return Box::new(BufReader::new(Closed("standard input")));
    }
    Box::new(io::stdin().lock())
}

/// Standard output. Rust's own stream takes a descriptor that can't be written
/// for one that takes everything; as a file it says what is wrong.
fn output() -> Box<dyn Write> {
    if system::closed(Stream::Output) {
        return Box::new(Closed("standard output"));
    }
    as_file()
}

#[cfg(unix)]
fn as_file() -> Box<dyn Write> {
    use std::fs::File;
    use std::os::fd::AsFd as _;
    match io::stdout().as_fd().try_clone_to_owned() {
        Ok(descriptor) => Box::new(File::from(descriptor)),
        // There are too many open files: no output is lost for that.
        Err(_) => Box::new(io::stdout()),
    }
}

#[cfg(not(unix))]
fn as_file() -> Box<dyn Write> {
    Box::new(io::stdout())
}

fn error_output() -> Box<dyn Write> {
    if system::closed(Stream::Error) {
        return Box::new(Closed("standard error"));
    }
    Box::new(io::stderr().lock())
}

/// A stream that was closed from the start, by its name. It takes nothing and
/// gives nothing; where nobody uses it, nothing is wrong.
struct Closed(&'static str);

impl Closed {
    fn error(&self) -> io::Error {
        let words = format!("{} is closed", self.0);
        io::Error::new(io::ErrorKind::NotConnected, words)
    }
}

impl Read for Closed {
    fn read(&mut self, _: &mut [u8]) -> io::Result<usize> {
        Err(self.error())
    }
}

impl Write for Closed {
    fn write(&mut self, _: &[u8]) -> io::Result<usize> {
        Err(self.error())
    }

    fn flush(&mut self) -> io::Result<()> {
        Ok(())
    }
}
