//! `hall` called as a function, and a hall that several tests ask about.

use std::sync::Once;

use workbench::commands::{self, Streams};
use workbench::style::Style;

/// What is compared here stands in lines of this width, whoever runs the tests.
pub(crate) fn wide() {
    static ONCE: Once = Once::new();
    ONCE.call_once(|| std::env::set_var("COLUMNS", "96"));
}

/// Exit code, standard output, standard error.
pub(crate) fn hall(arguments: &[&str], input: impl AsRef<[u8]>) -> (u8, String, String) {
    wide();
    let arguments: Vec<String> = arguments.iter().map(|it| (*it).to_owned()).collect();
    let mut out = Vec::new();
    let mut err = Vec::new();
    let mut streams = Streams {
        input: &mut input.as_ref(),
        out: &mut out,
        err: &mut err,
        style: Style::PLAIN,
        err_style: Style::PLAIN,
        out_is_terminal: false,
        input_is_terminal: false,
    };
    let code = commands::main(&arguments, &mut streams);
    let text = |bytes| String::from_utf8(bytes).unwrap();
    (code, text(out), text(err))
}

/// Explores a text with these options.
pub(crate) fn explore(text: impl AsRef<[u8]>, options: &[&str]) -> (u8, String, String) {
    // Ways as choices, which can be made again.
    let mut arguments = vec!["explore", "-", "--moves"];
    arguments.extend(options);
    hall(&arguments, text)
}

/// The ballot may be laid aside, and only all three stations show it.
pub(crate) const BALLOTS: &str =
    "tray ballot has 1\ntray screen has 1\ntray call\ntray aside\ntray counted\n\
    rule desk is block (\n  take ballot, take screen, put counted, put screen, end\n\
    or else\n  take ballot, put aside, end\n)\n\
    rule guest is take call then take screen then put screen\nrule bell is put call\n\
    start desk beside guest beside bell\n";

/// The choices of a report, each behind the line `choices`.
fn printed_choices(report: &str) -> Vec<String> {
    let mut all = Vec::new();
    let mut lines = report.lines().peekable();
    while let Some(line) = lines.next() {
        if line.trim() != "choices" {
            continue;
        }
        let indent = line.len() - line.trim_start().len();
        let mut choices = String::from("choices\n");
        while let Some(line) = lines.next_if(|line| line.len() - line.trim_start().len() > indent) {
            choices.push_str(line);
            choices.push('\n');
        }
        all.push(choices);
    }
    all
}

/// Each printed way is taken by `hall run`, put behind the text.
#[track_caller]
pub(crate) fn all_replay(text: &str, report: &str) -> usize {
    let ways = printed_choices(report);
    for way in &ways {
        let (code, out, err) = hall(&["run", "-"], format!("{text}{way}"));
        assert_eq!((code, err.as_str()), (0, ""), "{way}\n{out}");
    }
    ways.len()
}
