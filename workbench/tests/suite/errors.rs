//! Every error message to the byte: the texts in tests/errors, each with what
//! is said about it beside it.

use std::fs;
use std::path::PathBuf;

use crate::common::{files, hall_in, name_of, package};

fn folder() -> PathBuf {
    package().join("tests/errors")
}

fn wrong_files() -> Vec<PathBuf> {
    ["hall", "table", "choices", "stored"]
        .iter()
        .flat_map(|ending| files(&folder(), ending))
        .collect()
}

/// How a file is handed to the program. Texts called `run-..` are wrong only
/// when they are run, those called `note-..` are not wrong; choices and stored
/// halls belong to a table.
fn arguments(name: &str) -> Vec<&str> {
    if name.ends_with(".choices") {
        vec!["run", "../../examples/rehearsal-01-one-block.hall", name]
    } else if name.ends_with(".stored") {
        vec!["check", "base.bin", name]
    } else if name.starts_with("run-") {
        vec!["run", name]
    } else {
        vec!["check", name]
    }
}

#[test]
fn every_message_to_the_byte() {
    let all = wrong_files();
    assert!(all.len() > 60, "the texts are there");
    for file in all {
        let name = name_of(&file);
        let expected = fs::read_to_string(folder().join(format!("{name}.stderr")))
            .unwrap_or_else(|error| panic!("{name}.stderr: {error}"));
        let answer = hall_in(&folder(), &arguments(name), b"");
        assert_eq!(answer.err, expected, "{name}");
        let code = i32::from(!name.starts_with("note-"));
        assert_eq!(answer.code, Some(code), "{name}");
        assert!(
            answer.err.is_ascii() || name.contains("utf8") || name == "names.hall",
            "{name}"
        );
    }
}

/// No message is printed without a text that was checked.
#[test]
fn each_expected_message_has_its_text() {
    for expected in files(&folder(), "stderr") {
        let text = expected.with_extension("");
        assert!(text.is_file(), "{} stands alone", expected.display());
    }
}
