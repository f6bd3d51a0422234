//! Screens at 50, 80 and 120 columns, to the byte; and no line is wider.

use std::fs;

use crate::common::{hall_at, package};

/// What is shown, under which name, with which input.
const SCREENS: [(&str, &[&str], &str); 7] = [
    ("run-ballots", &["run", "examples/ballots.hall"], ""),
    ("run-leader", &["run", "examples/leader.hall"], ""),
    ("run-join", &["run", "examples/join.hall"], ""),
    (
        "moves-handover",
        &["run", "--moves", "examples/handover.hall"],
        "",
    ),
    (
        "explore-ballots",
        &["explore", "examples/ballots.hall", "--ends", "counted = 1"],
        "",
    ),
    (
        "explore-philosophers",
        &[
            "explore",
            "examples/philosophers.hall",
            "--ends",
            "stations = 0",
        ],
        "",
    ),
    (
        "play-ballots",
        &["play", "examples/ballots.hall"],
        "2\n2\n3\ngo desk\nhello\n7\nu\nr\nact guest\nw guest\nh\nmoves\nq\n",
    ),
];

#[test]
fn screens_at_three_widths() {
    for (name, arguments, input) in SCREENS {
        for width in [50, 80, 120] {
            let answer = hall_at(width, package(), arguments, input.as_bytes());
            let file = package().join(format!("tests/screens/{name}-{width}.out"));
            let expected = fs::read_to_string(&file).unwrap_or_default();
            assert_eq!(answer.out, expected, "{name} at {width}");
            assert_eq!(answer.err, "", "{name} at {width}");
            for line in answer.out.lines() {
                assert!(line.len() <= width, "{name} at {width}: {line}");
            }
        }
    }
}
