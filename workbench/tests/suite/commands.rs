//! Commands: streams, exit codes, files, help.

use std::fs;
use std::io::Read as _;
use std::path::Path;
use std::process::{Command, Stdio};

use ruonfidd::Hall;
use workbench::style::Style;

use crate::common::{called, hall, hall_at, hall_in, package, raw_hall_in, scratch, Answer};

const COMMANDS: [&str; 7] = [
    "check", "build", "show", "opening", "run", "play", "explore",
];

const TEXT: &str = "tray a has 1\ntray b\nrule desk is block (take a, put b, end)\nstart desk\n";
const TABLE: [u8; 14] = [7, 10, 1, 0, 9, 0, 1, 6, 2, 12, 0, 1, 13, 3];

/// A folder with the text and its table in it.
fn folder(name: &str) -> std::path::PathBuf {
    let folder = scratch(name);
    fs::write(folder.join("a.hall"), TEXT).unwrap();
    fs::write(folder.join("a.table"), TABLE).unwrap();
    folder
}

#[track_caller]
fn is(answer: &Answer, code: i32, out: &str, err: &str) {
    let Answer {
        code: given,
        out: given_out,
        err: given_err,
    } = answer;
    assert_eq!(
        (*given, given_out.as_str(), given_err.as_str()),
        (Some(code), out, err)
    );
}

#[test]
fn every_command_has_a_page_that_fits_a_screen() {
    let overview = hall(&["help"]);
    assert_eq!((overview.code, overview.err.as_str()), (Some(0), ""));
    assert_eq!(hall(&["--help"]), overview);
    assert_eq!(hall(&["-h"]), overview);
    for command in COMMANDS {
        assert!(
            overview.out.contains(&format!("  hall {command} ")),
            "{command}"
        );
        let page = hall(&["help", command]);
        assert_eq!((page.code, page.err.as_str()), (Some(0), ""), "{command}");
        assert!(
            page.out.starts_with(&format!("usage: hall {command} F")),
            "{command}"
        );
        assert_eq!(hall(&[command, "--help"]), page, "{command}");
        assert_eq!(
            hall(&[command, "-h", "some", "more", "files"]),
            page,
            "{command}"
        );
        for text in [&overview.out, &page.out] {
            assert!(text.lines().count() <= 24, "{text}");
            assert!(text.lines().all(|line| line.len() <= 80), "{text}");
        }
    }
}

#[test]
fn called_wrongly() {
    let wrong: [&[&str]; 12] = [
        &[],
        &["sing"],
        &["help", "sing"],
        &["check"],
        &["check", "--loud", "a"],
        &["check", "a", "b", "c"],
        &["build", "a", "-o"],
        &["show", "a", "b"],
        &["opening", "a", "b"],
        &["opening", "--quiet", "a"],
        &["run", "--json", "--quiet", "examples/handover.hall"],
        &["play", "-"],
    ];
    for arguments in wrong {
        let answer = hall(arguments);
        assert_eq!(
            (answer.code, answer.out.as_str()),
            (Some(2), ""),
            "{arguments:?}"
        );
        assert!(
            answer.err.starts_with("hall"),
            "{arguments:?}: {}",
            answer.err
        );
    }
    let answer = hall(&["check", "--loud", "a"]);
    assert_eq!(
        answer.err,
        "hall: check: there is no option '--loud'\nusage: hall check FILE [HALL] [--json] [--binary]\n"
    );
}

#[test]
fn the_version() {
    is(&hall(&["--version"]), 0, "hall 0.1.0\n", "");
}

#[test]
fn files_that_cannot_be_read_or_written() {
    let folder = folder("unreadable");
    for command in COMMANDS {
        let arguments = [command, "nowhere.hall", "-o", "x"];
        let arguments = if command == "build" {
            &arguments[..]
        } else {
            &arguments[..2]
        };
        let answer = hall_in(&folder, arguments, b"");
        assert_eq!(
            (answer.code, answer.out.as_str()),
            (Some(3), ""),
            "{command}"
        );
        assert!(
            answer.err.starts_with("hall: cannot read nowhere.hall: "),
            "{}",
            answer.err
        );
    }
    let answer = hall_in(&folder, &["build", "a.hall", "-o", "nowhere/a.table"], b"");
    assert_eq!((answer.code, answer.out.as_str()), (Some(3), ""));
    assert!(
        answer
            .err
            .starts_with("hall: cannot write nowhere/a.table: "),
        "{}",
        answer.err
    );
    let answer = hall_in(&folder, &["check", "a.table", "nowhere.stored"], b"");
    assert_eq!(answer.code, Some(3));
}

#[test]
fn a_text_and_its_table() {
    let folder = folder("both");
    let built = raw_hall_in(&folder, &["build", "a.hall"], b"");
    assert_eq!(
        (built.status.code(), built.stdout),
        (Some(0), TABLE.to_vec())
    );
    is(
        &hall_in(&folder, &["build", "a.hall", "-o", "new.table"], b""),
        0,
        "",
        "",
    );
    assert_eq!(fs::read(folder.join("new.table")).unwrap(), TABLE);
    // A file that stood there is replaced, and nothing else is left behind.
    is(
        &hall_in(&folder, &["build", "-o", "new.table", "a.table"], b""),
        0,
        "",
        "",
    );
    assert_eq!(fs::read(folder.join("new.table")).unwrap(), TABLE);
    assert_eq!(fs::read_dir(&folder).unwrap().count(), 3);
    // The same by standard input.
    let built = raw_hall_in(&folder, &["build", "-"], TEXT.as_bytes());
    assert_eq!(built.stdout, TABLE);
    let built = raw_hall_in(&folder, &["build", "--", "-"], &TABLE);
    assert_eq!(built.stdout, TABLE);
}

/// By whatever path the file is named, nothing is written over it.
#[test]
fn the_file_that_is_read_stays() {
    let folder = folder("stays");
    let text = fs::read_to_string(folder.join("a.hall")).unwrap();
    fs::write(folder.join("way-end-1.choices"), &text).unwrap();
    let here = folder.join("a.hall").display().to_string();
    let said = |file: &str| {
        format!("hall: {file} is the file that is read, and is not written over: name another\n")
    };
    let files = fs::read_dir(&folder).unwrap().count();
    for file in ["a.hall", "./a.hall", "../stays/a.hall", &here] {
        let answer = hall_in(&folder, &["build", "a.hall", "-o", file], b"");
        is(&answer, 2, "", &said(file));
        let answer = hall_in(&folder, &["explore", "a.hall", "--dot", file], b"");
        is(&answer, 2, "", &said(file));
        let input = format!("act desk\nsave {file}\nq\n");
        let answer = hall_at(300, &folder, &["play", "a.hall"], input.as_bytes());
        assert_eq!((answer.code, answer.err.as_str()), (Some(0), ""));
        let words = format!("      {file} is the file that is read, and is not written over");
        assert!(answer.out.contains(&words), "{}", answer.out);
        assert_eq!(fs::read_to_string(folder.join("a.hall")).unwrap(), text);
    }
    let file = "way-end-1.choices";
    let arguments = ["explore", file, "--save", "way", "--dot", "picture"];
    let answer = hall_in(&folder, &arguments, b"");
    assert_eq!((answer.code, answer.err), (Some(2), said(file)));
    assert_eq!(fs::read_to_string(folder.join(file)).unwrap(), text);
    assert_eq!(fs::read_dir(&folder).unwrap().count(), files);
}

#[test]
fn shown_and_built_again() {
    let folder = folder("shown");
    let readable = hall_in(&folder, &["show", "a.table"], b"");
    is(
        &readable,
        0,
        "tray 0 t0 has 1\ntray 1 t1\n\nstart block (take t0, put t1, end)\n",
        "",
    );
    let exact = hall_in(&folder, &["show", "--exact", "a.hall"], b"");
    is(
        &exact,
        0,
        "exact\ntray 0 a\ntray 1 b\nterm 0 is end\nterm 1 is put b, term 0\nterm 2 is take a, term 1\n\
         term 3 is block (term 2)                    # desk\ntokens a 1\nstart term 3\n",
        "",
    );
    for text in [readable.out, exact.out] {
        assert_eq!(
            raw_hall_in(&folder, &["build", "-"], text.as_bytes()).stdout,
            TABLE
        );
    }
    // An unused term is left out, which is said.
    let answer = hall_in(&folder, &["show", "-"], &[1, 2, 0, 13, 1]);
    assert_eq!(
        (answer.code, answer.out.as_str()),
        (Some(0), "tray 0 t0\n\nstart put t0\n")
    );
    assert!(
        answer
            .err
            .contains("this text builds 4 bytes, the table has 5"),
        "{}",
        answer.err
    );
    let answer = hall_in(&folder, &["show", "--exact", "-"], &[1, 2, 0, 13, 1]);
    assert_eq!((answer.code, answer.err.as_str()), (Some(0), ""));
}

#[test]
fn checked() {
    let folder = folder("checked");
    let limits = "accepted. 4 of 200 terms, 2 of 16 trays, 1 of 64 stations, longest way 2 of 16, most ways 1 of 8.\n";
    for name in ["a.hall", "a.table"] {
        is(
            &hall_in(&folder, &["check", name], b""),
            0,
            &format!("{name}: {limits}"),
            "",
        );
    }
    let answer = hall_in(&folder, &["check", "-"], TEXT.as_bytes());
    is(&answer, 0, &format!("standard input: {limits}"), "");
    let answer = hall_in(&folder, &["check", "-"], b"tray a\n");
    assert!(
        answer.err.starts_with("standard input:1:7: error: "),
        "{}",
        answer.err
    );
    // A text read as a table is none.
    let answer = hall_in(&folder, &["check", "--binary", "a.hall"], b"");
    assert_eq!(answer.code, Some(1));
    assert!(
        answer.err.ends_with("refused 1 at byte 0\n"),
        "{}",
        answer.err
    );
}

#[test]
fn stored_halls() {
    let folder = folder("stored");
    let (hall, _) = Hall::open(&TABLE).unwrap();
    fs::write(folder.join("stored"), hall.as_bytes()).unwrap();
    fs::write(folder.join("short"), &hall.as_bytes()[1..]).unwrap();
    fs::write(folder.join("other.table"), [2, 0, 13, 0]).unwrap();
    let check = |table: &str, stored: &str| hall_in(&folder, &["check", table, stored], b"");
    is(
        &check("a.table", "stored"),
        0,
        "stored: accepted: a hall of this table.\n",
        "",
    );
    for (table, stored, last) in [
        ("a.table", "short", "refused 10 at byte 0\n"),
        ("other.table", "stored", "refused 11 at byte 0\n"),
    ] {
        let answer = check(table, stored);
        assert_eq!((answer.code, answer.out.as_str()), (Some(1), ""));
        assert!(answer.err.ends_with(last), "{}", answer.err);
    }
    let json = hall_in(&folder, &["check", "--json", "a.table", "stored"], b"");
    is(&json, 0, "{\"accepted\": true}\n", "");
    // Term numbers of a text may change, so a stored hall wants the table.
    let answer = check("a.hall", "stored");
    assert_eq!((answer.code, answer.out.as_str()), (Some(2), ""));
}

#[test]
fn choices_behind_a_table() {
    let folder = folder("behind");
    let lesson = format!("{TEXT}choices\n  act desk step desk step desk act desk act put b\n");
    fs::write(folder.join("b.hall"), lesson).unwrap();
    is(
        &hall_in(
            &folder,
            &["build", "--choices", "b.hall", "-o", "b.table"],
            b"",
        ),
        0,
        "",
        "",
    );
    let bytes = fs::read(folder.join("b.table")).unwrap();
    assert_eq!(bytes[..14], TABLE);
    assert_eq!(bytes[14..], [1, 0, 2, 0, 0, 2, 0, 0, 1, 0, 1, 0]);
    let run = |file: &str| hall_in(&folder, &["run", "--quiet", file], b"");
    let last = "5 choices done: 1 commit, 0 attempts failed at commit, 0 attempts gave up. The\nhall is still.\n";
    is(&run("b.hall"), 0, last, "");
    is(&run("b.table"), 0, last, "");
    // check takes all of it as the table, and says what it is.
    let answer = hall_in(&folder, &["check", "b.table"], b"");
    assert_eq!(answer.code, Some(1));
    assert!(
        answer
            .err
            .contains("the first 14 bytes are an accepted table"),
        "{}",
        answer.err
    );
    // The bytes alone, as choices of the text.
    fs::write(folder.join("b.choices"), &bytes[14..]).unwrap();
    is(
        &hall_in(&folder, &["run", "--quiet", "a.hall", "b.choices"], b""),
        0,
        last,
        "",
    );
}

#[test]
fn choices_behind_a_refused_one_are_left_out_of_a_list() {
    let folder = package().join("examples");
    let answer = raw_hall_in(
        &folder,
        &["build", "--choices", "rehearsal-10-brim.hall"],
        b"",
    );
    assert_eq!(answer.status.code(), Some(0));
    assert!(
        answer.stdout.ends_with(&[1, 1, 1, 1]),
        "{:?}",
        answer.stdout
    );
    let err = String::from_utf8(answer.stderr).unwrap();
    assert!(
        err.contains("note: a refused choice ends a list of choices"),
        "{err}"
    );
    assert!(err.contains("2 behind it left out"), "{err}");
    let wrong = ["build", "--choices", "tests/errors/run-missed.hall"];
    let answer = raw_hall_in(package(), &wrong, b"");
    assert_eq!(
        (answer.status.code(), answer.stdout.as_slice()),
        (Some(1), &[][..])
    );
}

#[test]
fn a_run_without_choices() {
    let folder = folder("without");
    let answer = hall_in(&folder, &["run", "a.hall"], b"");
    is(
        &answer,
        0,
        "trays     a 1   b 0\nstations   0  desk  block, not begun\n",
        "a.hall: note: there are no choices to make: try hall play a.hall, or write 'choices' behind 'start'\n",
    );
}

#[test]
fn a_lesson_in_an_exact_text() {
    let folder = folder("exact-lesson");
    let exact = hall_in(&folder, &["show", "--exact", "a.hall"], b"").out;
    let lesson = format!("{exact}choices act block => opens step block => finds");
    fs::write(folder.join("exact.hall"), lesson).unwrap();
    let answer = hall_in(&folder, &["run", "--moves", "exact.hall"], b"");
    assert_eq!((answer.code, answer.err.as_str()), (Some(0), ""));
    assert!(
        answer.out.contains("block notes that it will take one a"),
        "{}",
        answer.out
    );
}

/// A text has at most 1 MiB, and no file more than 16.
#[test]
fn files_that_are_too_large() {
    let folder = scratch("large");
    let mut text = String::from("tray a\nstart put a\n#");
    text.push_str(&"x".repeat((1 << 20) - text.len()));
    fs::write(folder.join("whole"), &text).unwrap();
    fs::write(folder.join("more"), text + "x").unwrap();
    fs::write(folder.join("huge"), vec![b'#'; (1 << 24) + 1]).unwrap();
    assert_eq!(hall_in(&folder, &["check", "whole"], b"").code, Some(0));
    let answer = hall_in(&folder, &["check", "more"], b"");
    assert_eq!((answer.code, answer.out.as_str()), (Some(1), ""));
    assert!(
        answer
            .err
            .starts_with("more:1:1: error: a text has at most 1 MiB\n"),
        "{}",
        answer.err
    );
    let answer = hall_in(&folder, &["check", "huge"], b"");
    is(
        &answer,
        3,
        "",
        "hall: cannot read huge: larger than 16 MiB\n",
    );
}

#[test]
fn a_closed_pipe_ends_quietly() {
    let folder = scratch("pipe");
    let acts = "  act 0\n".repeat(60);
    let text = format!("tray token\nstart 64 of put token\nchoices\n{acts}");
    fs::write(folder.join("long.hall"), text).unwrap();
    let arguments = ["run", "--board", "long.hall"];
    let whole = raw_hall_in(&folder, &arguments, b"");
    assert!(whole.stdout.len() > 100_000, "{} bytes", whole.stdout.len());
    let mut child = Command::new(env!("CARGO_BIN_EXE_hall"))
        .args(arguments)
        .current_dir(&folder)
        .stdin(Stdio::null())
        .stdout(Stdio::piped())
        .stderr(Stdio::piped())
        .spawn()
        .unwrap();
    let mut some = [0; 10];
    child.stdout.take().unwrap().read_exact(&mut some).unwrap();
    let mut err = String::new();
    child
        .stderr
        .take()
        .unwrap()
        .read_to_string(&mut err)
        .unwrap();
    assert_eq!((child.wait().unwrap().code(), err.as_str()), (Some(0), ""));
}

#[test]
fn colour_adds_no_words() {
    let example = |name: &str| package().join(name).display().to_string();
    for (command, file) in [
        ("run", "examples/version-two-leftover.hall"),
        ("check", "examples/handover.hall"),
        ("opening", "examples/handover.hall"),
        ("run", "tests/errors/run-missed.hall"),
        ("check", "tests/errors/stations.hall"),
    ] {
        let file = example(file);
        let plain = called(&[command, &file], b"", Style::PLAIN, false);
        let coloured = called(&[command, &file], b"", Style::COLOURED, true);
        let painted = |answer: &Answer| format!("{}{}", answer.out, answer.err).contains('\u{1b}');
        assert!(!painted(&plain) && painted(&coloured), "{file}");
        let bare = Answer {
            code: coloured.code,
            out: bare(&coloured.out),
            err: bare(&coloured.err),
        };
        assert_eq!(plain, bare);
    }
}

/// Words without their paint.
fn bare(painted: &str) -> String {
    let mut bare = String::new();
    for (index, piece) in painted.split("\u{1b}[").enumerate() {
        let words = if index == 0 {
            piece
        } else {
            piece.split_once('m').unwrap().1
        };
        bare.push_str(words);
    }
    bare
}

#[test]
fn bytes_stay_off_the_terminal() {
    let file = package()
        .join("examples/handover.hall")
        .display()
        .to_string();
    let answer = called(&["build", &file], b"", Style::PLAIN, true);
    let refused = "hall: build: bytes do not belong on a terminal: add -o FILE\n";
    is(&answer, 2, "", refused);
}

/// What runs of four lessons say, to the byte.
#[test]
fn runs_as_they_are_told() {
    let told = package().join("tests/told");
    for name in [
        "version-two-leftover",
        "version-three-two-sheets",
        "handover",
        "join",
    ] {
        let file = format!("examples/{name}.hall");
        let answer = hall_in(package(), &["run", "--moves", &file], b"");
        let expected = fs::read_to_string(told.join(format!("{name}.out"))).unwrap();
        assert_eq!(answer.out, expected, "{name}");
    }
    assert_eq!(fs::read_dir(Path::new(&told)).unwrap().count(), 6);
}

/// The system hands over names in any bytes; files are called by letters here.
#[cfg(unix)]
#[test]
fn a_name_that_is_not_written_in_utf_8() {
    use std::os::unix::ffi::OsStrExt as _;
    let folder = folder("other-letters");
    let name = std::ffi::OsStr::from_bytes(b"caf\xe9.hall");
    fs::write(folder.join(name), TEXT).unwrap();
    let output = Command::new(env!("CARGO_BIN_EXE_hall"))
        .args(["check".as_ref(), name])
        .current_dir(&folder)
        .output()
        .unwrap();
    assert_eq!(output.status.code(), Some(2));
    assert_eq!(
        String::from_utf8(output.stderr).unwrap(),
        "hall: 'caf\u{fffd}.hall' is not written in UTF-8: give the file another name, or hand it \
         over as standard input, which is called -\n"
    );
}

/// A full disk, a descriptor that can't be written, and a folder where choices
/// are to be read from.
#[cfg(target_os = "linux")]
#[test]
fn streams_that_fail() {
    let folder = folder("streams");
    let called = |arguments: &[&str], input: fs::File, out: Stdio| {
        let output = Command::new(env!("CARGO_BIN_EXE_hall"))
            .args(arguments)
            .current_dir(&folder)
            .stdin(input)
            .stdout(out)
            .stderr(Stdio::piped())
            .spawn()
            .unwrap()
            .wait_with_output()
            .unwrap();
        let words = String::from_utf8(output.stderr).unwrap();
        (output.status.code(), words)
    };
    let nothing = || fs::File::open("/dev/null").unwrap();
    let full = || fs::File::create("/dev/full").unwrap();
    let (code, words) = called(&["show", "a.table"], nothing(), full().into());
    assert_eq!(
        (code, words.as_str()),
        (
            Some(3),
            "hall: cannot write: No space left on device (os error 28)\n"
        )
    );
    // Open, but not for writing.
    let (code, words) = called(&["show", "a.table"], nothing(), nothing().into());
    assert_eq!(
        (code, words.as_str()),
        (
            Some(3),
            "hall: cannot write: Bad file descriptor (os error 9)\n"
        )
    );
    // What is thrown away was written, also where the caller has opened the
    // device for reading too.
    let mut options = fs::OpenOptions::new();
    for options in [options.write(true).clone(), options.read(true).clone()] {
        let away = options.open("/dev/null").unwrap();
        let answer = called(&["show", "a.table"], nothing(), away.into());
        assert_eq!(answer, (Some(0), String::new()));
    }
    let here = || fs::File::open(&folder).unwrap();
    let (code, words) = called(&["play", "a.hall"], here(), Stdio::null());
    assert_eq!(
        (code, words.as_str()),
        (Some(3), "hall: cannot read: Is a directory (os error 21)\n")
    );
}

/// A stream that was closed is no place for output and gives no input. Where it
/// is not used, nothing is wrong.
#[cfg(target_os = "linux")]
#[test]
fn streams_that_were_closed() {
    let folder = folder("closed");
    let noted = "tray a\ntray b\nstart put a\n";
    fs::write(folder.join("noted.hall"), noted).unwrap();
    let called = |closed: &str, arguments: &[&str]| {
        let output = Command::new("sh")
            .args(["-c", &format!("exec \"$0\" \"$@\" {closed}")])
            .arg(env!("CARGO_BIN_EXE_hall"))
            .args(arguments)
            .current_dir(&folder)
            .output()
            .unwrap();
        Answer {
            code: output.status.code(),
            out: String::from_utf8(output.stdout).unwrap(),
            err: String::from_utf8(output.stderr).unwrap(),
        }
    };
    let no_output = "hall: cannot write: standard output is closed\n";
    for arguments in [
        &["show", "a.table"][..],
        &["check", "a.hall"],
        &["check", "a.hall", "--json"],
        &["build", "a.hall"],
        &["opening", "a.hall"],
        &["explore", "a.hall"],
        &["help"],
        &["--version"],
    ] {
        is(&called(">&-", arguments), 3, "", no_output);
    }
    let no_input = "hall: cannot read standard input: standard input is closed\n";
    is(&called("<&-", &["check", "-"]), 3, "", no_input);
    is(&called("<&- >&-", &["check", "-"]), 3, "", no_input);
    // What goes to standard error is output too; nobody is left to be told why.
    is(&called("2>&-", &["check", "noted.hall"]), 3, "", "");
    is(&called("2>&-", &["check", "none.hall"]), 3, "", "");
    is(&called("2>&-", &["check"]), 2, "", "");
    is(&called(">&- 2>&-", &["check", "a.hall"]), 3, "", "");
    // Not used.
    is(
        &called(">&-", &["build", "a.hall", "-o", "b.table"]),
        0,
        "",
        "",
    );
    assert_eq!(fs::read(folder.join("b.table")).unwrap(), TABLE);
    let whole = hall_in(&folder, &["check", "a.hall"], b"");
    assert_eq!(called("<&- 2>&-", &["check", "a.hall"]), whole);
    // What is thrown away was written.
    is(&called(">/dev/null", &["check", "a.hall"]), 0, "", "");
}

/// Where what is written goes when it has a link, a mode or no file at all.
#[cfg(unix)]
mod written {
    use std::fs::{self, Permissions};
    use std::os::unix::fs::{symlink, FileTypeExt as _, MetadataExt as _, PermissionsExt as _};
    use std::path::{Path, PathBuf};
    use std::process::{Command, Stdio};

    use super::{folder, is, TABLE};
    use crate::common::{hall_in, scratch};

    fn build(folder: &Path, to: &str) {
        is(
            &hall_in(folder, &["build", "a.hall", "-o", to], b""),
            0,
            "",
            "",
        );
    }

    fn mode(path: &Path) -> u32 {
        fs::symlink_metadata(path).unwrap().permissions().mode() & 0o7777
    }

    /// No other file is left in the folder.
    fn only(folder: &Path, names: &[&str]) {
        let mut there: Vec<String> = fs::read_dir(folder)
            .unwrap()
            .map(|entry| entry.unwrap().file_name().into_string().unwrap())
            .collect();
        there.sort();
        assert_eq!(there, names);
    }

    #[test]
    fn a_link_stays_one_and_its_file_is_written() {
        let folder = folder("written-links");
        fs::create_dir(folder.join("deep")).unwrap();
        symlink("deep/second", folder.join("first")).unwrap();
        symlink("../target", folder.join("deep/second")).unwrap();
        // At first the links lead to nothing, then to a file.
        for before in [None, Some("old")] {
            if let Some(before) = before {
                fs::write(folder.join("target"), before).unwrap();
            }
            build(&folder, "first");
            assert!(fs::symlink_metadata(folder.join("first"))
                .unwrap()
                .is_symlink());
            assert!(fs::symlink_metadata(folder.join("deep/second"))
                .unwrap()
                .is_symlink());
            assert!(fs::symlink_metadata(folder.join("target"))
                .unwrap()
                .is_file());
            assert_eq!(fs::read(folder.join("target")).unwrap(), TABLE);
        }
        only(&folder, &["a.hall", "a.table", "deep", "first", "target"]);
        only(&folder.join("deep"), &["second"]);
    }

    /// No command puts a file in the place of a link, whether that leads to a file
    /// or to nothing yet, and whether it says so from the top or from its folder.
    #[test]
    fn every_command_leaves_links_in_place() {
        let folder = folder("every-link");
        fs::create_dir(folder.join("deep")).unwrap();
        for (name, arguments) in [
            ("built", &["build", "a.hall", "-o", "built"][..]),
            ("drawn", &["explore", "a.hall", "--dot", "drawn"]),
            ("way-end-1.choices", &["explore", "a.hall", "--save", "way"]),
        ] {
            for target in [folder.join("deep/absolute"), "deep/relative".into()] {
                let link = folder.join(name);
                symlink(&target, &link).unwrap();
                let file = folder.join(&target);
                for before in [None, Some("old")] {
                    if let Some(before) = before {
                        fs::write(&file, before).unwrap();
                    }
                    let answer = hall_in(&folder, arguments, b"");
                    assert_eq!(answer.code, Some(0), "{answer:?}");
                    assert_eq!(fs::read_link(&link).unwrap(), target, "{name}");
                    let there = fs::symlink_metadata(&file).unwrap();
                    assert!(there.is_file() && there.len() > 5, "{name}");
                }
                fs::remove_file(&link).unwrap();
                fs::remove_file(&file).unwrap();
            }
        }
        only(&folder, &["a.hall", "a.table", "deep"]);
        only(&folder.join("deep"), &[]);
    }

    #[test]
    fn links_without_an_end() {
        let folder = folder("written-round");
        symlink("two", folder.join("one")).unwrap();
        symlink("one", folder.join("two")).unwrap();
        let answer = hall_in(&folder, &["build", "a.hall", "-o", "one"], b"");
        assert_eq!((answer.code, answer.out.as_str()), (Some(3), ""));
        let words = "hall: cannot write one: ";
        assert!(answer.err.starts_with(words), "{}", answer.err);
        only(&folder, &["a.hall", "a.table", "one", "two"]);
    }

    #[test]
    fn a_file_keeps_its_mode_and_is_another_file() {
        let folder = folder("written-modes");
        let file = folder.join("kept");
        for mode_before in [0o600, 0o640, 0o444, 0o755] {
            fs::write(&file, "old").unwrap();
            fs::set_permissions(&file, Permissions::from_mode(mode_before)).unwrap();
            let before = fs::metadata(&file).unwrap();
            build(&folder, "kept");
            let after = fs::metadata(&file).unwrap();
            assert_eq!(mode(&file), mode_before);
            assert_eq!((after.uid(), after.gid()), (before.uid(), before.gid()));
            assert_ne!(after.ino(), before.ino(), "it is put in place whole");
            assert_eq!(fs::read(&file).unwrap(), TABLE);
            fs::remove_file(&file).unwrap();
        }
        // What play saves and explore draws goes the same way.
        for (name, arguments, input) in [
            ("lesson", &["play", "a.hall"][..], "1\nsave! lesson\nq\n"),
            ("picture", &["explore", "a.hall", "--dot", "picture"], ""),
            (
                "way-end-1.choices",
                &["explore", "a.hall", "--save", "way"],
                "",
            ),
        ] {
            let file = folder.join(name);
            fs::write(&file, "old").unwrap();
            fs::set_permissions(&file, Permissions::from_mode(0o600)).unwrap();
            let answer = hall_in(&folder, arguments, input.as_bytes());
            assert_eq!(answer.code, Some(0), "{answer:?}");
            assert_eq!(mode(&file), 0o600, "{name}");
            assert_ne!(fs::read(&file).unwrap(), b"old", "{name}");
        }
    }

    /// A device of the test's own, where one may be made: whoever may make one
    /// may also lose the system's, should this test ever fail. All others can't
    /// put anything in its place. None where a device can't be used here.
    fn device(folder: &Path, name: &str, minor: &str) -> Option<PathBuf> {
        let own = folder.join(name);
        let made = Command::new("mknod")
            .arg(&own)
            .args(["c", "1", minor])
            .output()
            .unwrap();
        if !made.status.success() {
            let system = Path::new("/dev").join(name);
            let others = fs::metadata("/dev").unwrap().uid() != fs::metadata(folder).unwrap().uid();
            return others.then_some(system);
        }
        let usable = fs::OpenOptions::new().write(true).open(&own).is_ok();
        usable.then_some(own)
    }

    #[test]
    fn a_device_stays_one() {
        let folder = folder("written-devices");
        let devices = scratch("devices");
        let (Some(null), Some(full)) =
            (device(&devices, "null", "3"), device(&devices, "full", "7"))
        else {
            return;
        };
        symlink(&null, folder.join("nowhere")).unwrap();
        build(&folder, "nowhere");
        build(&folder, null.to_str().unwrap());
        for null in [&null, &folder.join("nowhere")] {
            assert!(fs::metadata(null).unwrap().file_type().is_char_device());
        }
        let full = full.to_str().unwrap();
        let answer = hall_in(&folder, &["build", "a.hall", "-o", full], b"");
        assert_eq!(answer.code, Some(3));
        assert!(
            answer
                .err
                .starts_with(&format!("hall: cannot write {full}: ")),
            "{}",
            answer.err
        );
        only(&folder, &["a.hall", "a.table", "nowhere"]);
        // A folder is no place for bytes.
        fs::create_dir(folder.join("there")).unwrap();
        let answer = hall_in(&folder, &["build", "a.hall", "-o", "there"], b"");
        assert_eq!(answer.code, Some(3));
        only(&folder, &["a.hall", "a.table", "nowhere", "there"]);
    }

    #[cfg(target_os = "linux")]
    #[test]
    fn a_pipe_is_written_into() {
        let folder = folder("written-pipes");
        symlink("/proc/self/fd/1", folder.join("out")).unwrap();
        let output = Command::new(env!("CARGO_BIN_EXE_hall"))
            // A link of the folder's own: nothing of the system can be lost.
            .args(["build", "a.hall", "-o", "out"])
            .current_dir(&folder)
            .stdout(Stdio::piped())
            .output()
            .unwrap();
        assert_eq!(output.stdout, TABLE);
        only(&folder, &["a.hall", "a.table", "out"]);
    }
}
