//! What the tests share: calls of the program, and random tables.

use std::fs;
use std::io::{BufReader, Write as _};
use std::path::{Path, PathBuf};
use std::process::{Command, Output, Stdio};

use reference::generator::{accepted_table, contended_table, nearly_full_table, Random, Shape};
use workbench::commands::{self, Streams};
use workbench::style::Style;
use workbench::table::Table;

/// The package's folder.
pub(crate) fn package() -> &'static Path {
    Path::new(env!("CARGO_MANIFEST_DIR"))
}

/// What the program answered.
#[derive(Debug, PartialEq, Eq)]
pub(crate) struct Answer {
    pub(crate) code: Option<i32>,
    pub(crate) out: String,
    pub(crate) err: String,
}

/// Calls the program in a folder, with this on standard input.
pub(crate) fn hall_in(folder: &Path, arguments: &[&str], input: &[u8]) -> Answer {
    answer(raw_hall_in(folder, arguments, input))
}

/// The same where lines are so wide.
pub(crate) fn hall_at(width: usize, folder: &Path, arguments: &[&str], input: &[u8]) -> Answer {
    answer(output_at(Some(width), folder, arguments, input))
}

fn answer(output: Output) -> Answer {
    Answer {
        code: output.status.code(),
        out: String::from_utf8(output.stdout).expect("letters on standard output"),
        err: String::from_utf8(output.stderr).expect("letters on standard error"),
    }
}

/// The same with standard output as bytes.
pub(crate) fn raw_hall_in(folder: &Path, arguments: &[&str], input: &[u8]) -> Output {
    output_at(None, folder, arguments, input)
}

fn output_at(width: Option<usize>, folder: &Path, arguments: &[&str], input: &[u8]) -> Output {
    let mut command = Command::new(env!("CARGO_BIN_EXE_hall"));
    // What is printed must not depend on who runs the tests.
    match width {
        Some(width) => command.env("COLUMNS", width.to_string()),
        None => command.env_remove("COLUMNS"),
    };
    let mut child = command
        .args(arguments)
        .current_dir(folder)
        .stdin(Stdio::piped())
        .stdout(Stdio::piped())
        .stderr(Stdio::piped())
        .spawn()
        .expect("the program starts");
    // A program that refuses its arguments does not read.
    let _ = child.stdin.take().expect("a pipe").write_all(input);
    child.wait_with_output().expect("the program ends")
}

/// Calls the program in the package's folder.
pub(crate) fn hall(arguments: &[&str]) -> Answer {
    hall_in(package(), arguments, b"")
}

/// Calls the program's commands in this process, with this on standard input.
pub(crate) fn called(arguments: &[&str], input: &[u8], style: Style, terminal: bool) -> Answer {
    let arguments: Vec<String> = arguments.iter().map(|it| (*it).to_owned()).collect();
    let (mut out, mut err) = (Vec::new(), Vec::new());
    let code = commands::main(
        &arguments,
        &mut Streams {
            input: &mut BufReader::new(input),
            out: &mut out,
            err: &mut err,
            style,
            err_style: style,
            out_is_terminal: terminal,
            input_is_terminal: false,
        },
    );
    Answer {
        code: Some(code.into()),
        // The bytes of a table are no letters.
        out: String::from_utf8_lossy(&out).into_owned(),
        err: String::from_utf8(err).expect("letters on standard error"),
    }
}

/// A folder for one test, empty at its beginning.
pub(crate) fn scratch(name: &str) -> PathBuf {
    let folder = Path::new(env!("CARGO_TARGET_TMPDIR")).join(name);
    let _ = fs::remove_dir_all(&folder);
    fs::create_dir_all(&folder).expect("a folder for the test");
    folder
}

/// The files of a folder with this ending, in order.
pub(crate) fn files(folder: &Path, ending: &str) -> Vec<PathBuf> {
    let mut files: Vec<PathBuf> = fs::read_dir(folder)
        .expect("a folder")
        .map(|entry| entry.expect("an entry").path())
        .filter(|path| path.extension().is_some_and(|it| it == ending))
        .collect();
    files.sort();
    files
}

/// The name of a file without its folder.
pub(crate) fn name_of(path: &Path) -> &str {
    path.file_name()
        .and_then(|name| name.to_str())
        .expect("a name")
}

/// Accepted tables of all sorts, so many of a seed.
pub(crate) fn tables(seed: u64, how_many: usize) -> impl Iterator<Item = (String, Table)> {
    let mut random = Random::new(seed);
    (0..how_many).map(move |index| {
        let bytes = match index % 10 {
            0..=5 => {
                let shape = Shape::any(&mut random);
                accepted_table(&mut random, shape)
            }
            6..=8 => contended_table(&mut random),
            _ => nearly_full_table(&mut random),
        };
        let which = format!("seed {seed}, table {index}: {bytes:?}");
        let table = Table::read(&bytes).unwrap_or_else(|unread| panic!("{which}: {unread:?}"));
        (which, table)
    })
}
