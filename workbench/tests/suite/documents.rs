//! docs/WORKBENCH.md: every `$ hall` in it is run, and every text in it is
//! accepted.

use std::fs;
use std::path::Path;

use crate::common::{hall_in, package, scratch};
use crate::consoles::{fenced, write_file, Call};

#[test]
fn what_the_document_shows_is_what_is_printed() {
    let document = fs::read_to_string(package().join("../docs/WORKBENCH.md")).unwrap();
    let folder = scratch("document");
    let (mut texts, mut runs) = (0, 0);
    for piece in fenced(&document) {
        if let Some(file) = write_file(&folder, &piece) {
            texts += 1;
            if Path::new(file).extension().is_some_and(|it| it == "hall") && file != "wrong.hall" {
                let answer = hall_in(&folder, &["check", file], b"");
                assert_eq!((answer.code, answer.err.as_str()), (Some(0), ""), "{file}");
            }
        } else if piece.kind == "console" {
            runs += 1;
            shown(&folder, &Call::of(&piece.lines));
        }
    }
    assert!(texts >= 8 && runs >= 4, "{texts} texts, {runs} runs");
}

/// Runs one command and compares. `...` stands for any lines.
fn shown(folder: &Path, call: &Call<'_>) {
    let printed = call.printed(folder, b"");
    let lines: Vec<&str> = printed.lines().collect();
    let expected: Vec<&str> = call.expected.iter().map(String::as_str).collect();
    assert!(alike(&lines, &expected), "{}\n{printed}", call.command);
}

fn alike(printed: &[&str], expected: &[&str]) -> bool {
    match expected.split_first() {
        None => printed.is_empty(),
        Some((&"...", rest)) => (0..=printed.len()).any(|from| alike(&printed[from..], rest)),
        Some((line, rest)) => match printed.split_first() {
            Some((first, behind)) => first == line && alike(behind, rest),
            None => false,
        },
    }
}
