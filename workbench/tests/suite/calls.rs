//! The calls in tests/calls: all that they print, to the byte. Only seconds are
//! another number each time: 0.00 stands for them.

use std::fs;
use std::time::{Duration, Instant};

use crate::common::{files, name_of, package, scratch};
use crate::consoles::{fenced, text_of, write_file, Call};

#[test]
fn every_call_to_the_byte() {
    let mut calls = 0;
    for file in files(&package().join("tests/calls"), "md") {
        let folder = scratch(&format!("calls-{}", name_of(&file)));
        let mut input = String::new();
        for piece in fenced(&fs::read_to_string(&file).unwrap()) {
            if write_file(&folder, &piece).is_some() {
                continue;
            }
            match piece.kind.split_once(' ') {
                None if piece.kind == "input" => input = text_of(&piece.lines),
                None if piece.kind == "console" => {
                    calls += 1;
                    let call = Call::of(&piece.lines);
                    let began = Instant::now();
                    let printed = call.printed(&folder, input.as_bytes());
                    let printed = without_seconds(&printed, began.elapsed());
                    let (file, command) = (file.display(), call.command);
                    assert_eq!(printed, text_of(call.expected), "{file}: {command}");
                    input.clear();
                }
                Some(("written", name)) => {
                    let written = fs::read_to_string(folder.join(name)).unwrap();
                    assert_eq!(written, text_of(&piece.lines), "{name}");
                }
                _ => panic!("{}: a fence of '{}'", file.display(), piece.kind),
            }
        }
    }
    assert!(calls > 80, "{calls}");
}

/// Seconds have two digits behind the point, and are no more than the call took.
fn without_seconds(printed: &str, took: Duration) -> String {
    let field = "\"seconds\": ";
    let mut pieces = printed.split(field);
    let mut without = pieces.next().unwrap_or_default().to_owned();
    for piece in pieces {
        let (seconds, rest) = piece.split_once(',').expect("another field");
        let (_, hundredths) = seconds.split_once('.').expect("a point");
        assert_eq!(hundredths.len(), 2, "{seconds}");
        let seconds: f64 = seconds.parse().expect("a number");
        assert!(
            (0.0..took.as_secs_f64() + 0.01).contains(&seconds),
            "{seconds}"
        );
        without.extend([field, "0.00,", rest]);
    }
    without
}

#[test]
fn seconds_are_compared_with_the_clock() {
    let second = Duration::from_secs(1);
    let printed = "{\"a\": 1, \"seconds\": 0.97, \"b\": 2}\n";
    let without = "{\"a\": 1, \"seconds\": 0.00, \"b\": 2}\n";
    assert_eq!(without_seconds(printed, second), without);
    assert_eq!(without_seconds("no time\n", second), "no time\n");
    for wrong in ["1.20", "0.5", "-0.50"] {
        let printed = printed.replace("0.97", wrong);
        let refused = std::panic::catch_unwind(|| without_seconds(&printed, second));
        assert!(refused.is_err(), "{wrong}");
    }
}
