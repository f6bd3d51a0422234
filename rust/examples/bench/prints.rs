//! Printing a run, from input bytes to output bytes, and saying a sentence.

use std::hint::black_box;

use reference::build::Builder;
use reference::calls;
use reference::print::printed_run;
use reference::sentence::Reply;
use reference::shortage::Shortage as SecondShortage;
use ruonfidd::{print_run_into, say_into, Answer, Shortage, REPORT_BYTES, SENTENCE_BYTES};

use crate::measure::{print_part, print_row};

/// Batches for each of the two on each input.
const ROUNDS: usize = 101;

/// The scope's example: a table and five choices.
fn example() -> Vec<u8> {
    vec![
        7, 10, 1, 0, 9, 0, 1, 6, 2, 12, 0, 1, 13, 3, 1, 0, 2, 0, 0, 2, 0, 0, 1, 0, 1, 0,
    ]
}

/// Sixty-four puts and no choice: a line for each.
fn many_lines() -> Vec<u8> {
    let mut table = Builder::new();
    let put = table.put(15);
    let all = (0..6).fold(put, |all, _| table.side_by_side(all, all));
    for tray in 0..16 {
        table.tokens(tray, 200);
    }
    table.start(all)
}

/// A block that begins and retries, up to the longest input.
fn many_choices() -> Vec<u8> {
    let mut input = vec![8, 6, 0, 1, 13, 1];
    while input.len() < 16_384 {
        input.extend([1, 0]);
    }
    input
}

/// The longest of a refusal, and the longest there is: three numbers of three
/// digits, or five, and many words.
fn print_sentences() {
    print_part("saying a sentence");
    let refused = (Answer::Refused(15), Reply::Refused(15));
    print_sentence("the longest of a refusal, 73 bytes", 73, refused);
    let answer = Answer::Moved {
        rule: 3,
        shortage: Shortage::new(255, 255),
    };
    let reply = Reply::Moved {
        rule: 3,
        short: Some(SecondShortage { tray: 255, by: 255 }),
    };
    print_sentence("the longest, 95 bytes", 95, (answer, reply));
}

fn print_sentence(name: &str, length: usize, (answer, reply): (Answer, Reply)) {
    let choice = [255; 3];
    let [kind, position, node] = choice;
    let (mut by_engine, mut by_second) = ([0; SENTENCE_BYTES], [0; SENTENCE_BYTES]);
    print_row(
        name,
        ROUNDS,
        &mut || say_into(black_box(choice), answer, black_box(&mut by_engine)) == Ok(length),
        &mut || {
            let buffer = black_box(&mut by_second);
            calls::say(black_box(kind), position, node, reply, buffer) == Ok(length)
        },
    );
    assert_eq!(by_engine, by_second);
}

pub(crate) fn print() {
    print_runs();
    print_sentences();
}

fn print_runs() {
    print_part("printing a run");
    for (name, input) in [
        ("the scope's example, 26 bytes", example()),
        ("80 lines of trays and stations", many_lines()),
        ("8,189 choices, 16,384 bytes", many_choices()),
        ("too long, 16,385 bytes", vec![0; 16_385]),
    ] {
        let expected = printed_run(&input);
        let mut output = [0; REPORT_BYTES];
        print_row(
            name,
            ROUNDS,
            &mut || print_run_into(black_box(&input), black_box(&mut output)) == expected.len(),
            &mut || printed_run(black_box(&input)).len() == expected.len(),
        );
        assert_eq!(output[..expected.len()], expected, "{name}");
    }
}
