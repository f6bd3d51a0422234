//! The printed run: every byte of the report, and none behind it.

use reference::build::Builder;
use reference::edges::{lines, Line};
use reference::generator::{self, Random};
use reference::print::printed_run;
use ruonfidd::{print_run, print_run_into, REPORT_BYTES};

use crate::common::seeds::{say, seeds};
use crate::ffi;

/// The list of edges that the proved program runs.
const EDGES: &str = include_str!("../../../../crates/program_edges/stdin");

/// A document with examples.
const FORMAT: &str = include_str!("../../../../docs/FORMAT.md");

/// The report on an input by all calls that make one, each as the second
/// implementation has it, and with the bytes behind it as they were.
#[track_caller]
fn report(input: &[u8]) -> Vec<u8> {
    let expected = printed_run(input);
    assert!(expected.len() <= 947, "{} bytes", expected.len());
    for before in [0, 170, b'\n'] {
        let mut bare = [before; REPORT_BYTES];
        let mut length = usize::MAX;
        ffi::report(input, &mut bare, &mut length);
        let mut lent = [before; REPORT_BYTES];
        assert_eq!(print_run_into(input, &mut lent), length, "{input:?}");
        assert_eq!(bare[..length], expected, "{input:?}");
        assert!(
            bare[length..].iter().all(|byte| *byte == before),
            "{input:?}"
        );
        assert!(lent == bare, "{input:?}");
    }
    let owned = print_run(input);
    assert_eq!(owned.as_bytes(), expected, "{input:?}");
    assert_eq!(owned.as_str().as_bytes(), expected);
    assert_eq!(owned.to_string().as_bytes(), expected);
    expected
}

/// The number in the first line; none for `long`.
fn number(report: &[u8]) -> Option<usize> {
    let text = std::str::from_utf8(report).expect("ASCII");
    text.strip_prefix("R ")?
        .split(' ')
        .next()
        .and_then(|number| number.parse().ok())
}

#[test]
fn on_the_edges() {
    let mut met = [0; 21];
    let mut long = 0;
    for line in lines(EDGES) {
        let Line::Input { name, input } = line else {
            continue;
        };
        match number(&report(&input)) {
            Some(number) => met[number] += 1,
            None => long += 1,
        }
        assert!(!name.is_empty());
    }
    assert!(long >= 2, "{long}");
    // 10 and 11 cannot be printed: the program brings its own hall.
    for (number, times) in met.iter().enumerate() {
        assert_eq!(
            *times > 0,
            number != 10 && number != 11,
            "{number}: {met:?}"
        );
    }
}

/// The examples of the document on the byte forms: a block marked `run` has its
/// input first.
#[test]
fn on_the_examples_of_the_byte_forms() {
    let mut met = 0;
    for block in FORMAT.split("\n```run\n").skip(1) {
        let (input, said) = block.split_once('\n').expect("an input's line");
        let said = said.split("\n```").next().expect("a block's end");
        let Line::Input { input, .. } = &lines(&format!("example:{input}\n"))[0] else {
            panic!("{input} is not an input");
        };
        let report = String::from_utf8(report(input)).expect("ASCII");
        assert!(report.starts_with(said.trim_end_matches("...")), "{report}");
        met += 1;
    }
    assert_eq!(met, 36);
}

/// 64 attempts of 15 nodes, 16 full trays, a refused choice far behind.
#[test]
fn of_many_lines() {
    let mut table = Builder::new();
    for _ in 0..100 {
        table.nil();
    }
    let end = table.end();
    let two = table.or_else(end, end);
    let four = table.or_else(two, two);
    let eight = table.or_else(four, four);
    let block = table.atom(eight);
    let all = table.copies(block, 64);
    for tray in 0..16 {
        table.tokens(tray, 255);
    }
    let mut input = table.start(all);
    for position in 0..64 {
        input.extend([1, position]);
        for node in [0, 1, 2, 5, 8, 9, 12] {
            input.extend([2, position, node]);
        }
    }
    input.push(9);
    let report = report(&input);
    let mut expected = vec!["R 12 1472 512".to_string(), "C 0 0 0".to_string()];
    expected.extend((0..16).map(|tray| format!("T {tray} 255 0 255")));
    expected.extend(vec!["A 104 15".to_string(); 64]);
    assert_eq!(report, (expected.join("\n") + "\n").as_bytes());
}

#[test]
fn by_chance() {
    let mut met = [0; 21];
    let mut long = 0;
    for seed in seeds("printed runs", 40_000) {
        let mut random = Random::new(seed);
        match number(&report(&generator::input(&mut random))) {
            Some(number) => met[number] += 1,
            None => long += 1,
        }
    }
    say(&format!(
        "printed runs: numbers 0 to 20 {met:?}, {long} long"
    ));
    assert!(long >= 200, "{long}");
    assert!(met[0] >= 6_000, "{met:?}");
    for number in (1..10).chain(12..21) {
        assert!(met[number] >= 40, "{number} too seldom: {met:?}");
    }
}
