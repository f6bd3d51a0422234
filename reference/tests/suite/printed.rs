//! The printed run: its lines and its edges.

use std::io::Write;
use std::process::{Command, Stdio};

use reference::build::Builder;
use reference::calls;
use reference::generator::{self, Random, Shape};
use reference::hall::{decode, opening, Station, HALL_BYTES};
use reference::print::{printed_run, table_end};
use reference::run::Tally;
use reference::table::read_table;

use crate::common::{accepted, EXAMPLE_CHOICES, EXAMPLE_TABLE};

fn printed(input: &[u8]) -> String {
    String::from_utf8(printed_run(input)).expect("plain text")
}

fn with(table: &[u8], choices: &[u8]) -> Vec<u8> {
    let mut input = table.to_vec();
    input.extend(choices);
    input
}

#[test]
fn a_refused_choice_counts_from_the_first_choice_byte() {
    assert_eq!(
        printed(&with(&EXAMPLE_TABLE, &[9])),
        "R 12 0 0\nC 0 0 0\nT 0 1 0 1\nW 3\n"
    );
    assert_eq!(
        printed(&with(&EXAMPLE_TABLE, &[1, 0, 2, 0])),
        "R 13 2 1\nC 0 0 0\nT 0 1 0 1\nA 3 1\n"
    );
    assert_eq!(
        printed(&with(&EXAMPLE_TABLE, &[1, 0, 1, 1, 1, 0])),
        "R 14 2 1\nC 0 0 0\nT 0 1 0 1\nA 3 1\n"
    );
}

#[test]
fn refused_tables_print_one_line() {
    for (input, expected) in [
        (vec![], "R 9 0 0\n"),
        (vec![1], "R 9 1 0\n"),
        (vec![0], "R 1 0 0\n"),
        (vec![1, 14, 13, 0], "R 1 1 0\n"),
        (vec![1, 2], "R 2 1 0\n"),
        (vec![1, 13], "R 2 1 0\n"),
        (vec![1, 2, 16, 13, 0], "R 4 1 0\n"),
        (vec![3, 0, 0, 13, 0], "R 5 0 0\n"),
        (vec![7, 13, 0], "R 6 1 0\n"),
        (vec![1, 12, 0, 0, 13, 0], "R 8 1 0\n"),
        // Choices after a refused table change nothing.
        (vec![1, 2, 16, 13, 0, 1, 0, 1, 0], "R 4 1 0\n"),
        (vec![13, 0, 1, 0], "R 5 0 0\n"),
    ] {
        assert_eq!(printed(&input), expected, "{input:?}");
    }
    assert_eq!(printed(&with(&[1; 201], &[13, 0])), "R 3 200 0\n");
    let mut wide = Builder::new();
    let nil = wide.nil();
    let all = wide.copies(nil, 65);
    assert_eq!(printed(&wide.start(all)), format!("R 7 {} 0\n", 1 + 3 * 63));
}

#[test]
fn a_table_ends_at_its_first_start_record() {
    // A 13 in a body is no start record: tokens of 13, and term 13.
    let mut table = Builder::new();
    for _ in 0..14 {
        table.nil();
    }
    let both = table.side_by_side(13, 13);
    table.put(13);
    table.tokens(13, 13);
    let bytes = table.start(both);
    assert_eq!(table_end(&bytes), bytes.len());
    assert_eq!(printed(&bytes), "R 0 0 0\nC 0 0 0\nT 13 13 0 13\n");
    // What follows is choices, even where it looks like records.
    let more = with(&bytes, &[13, 0]);
    assert_eq!(table_end(&more), bytes.len());
    assert_eq!(printed(&more), "R 12 0 0\nC 0 0 0\nT 13 13 0 13\n");
    // 9 for a byte behind the start record is thus never printed.
    assert_eq!(printed(&[1, 13, 0, 1]), "R 13 0 0\nC 0 0 0\n");
    // No start record at all, or none that can be stepped to.
    assert_eq!(table_end(&[1, 1, 1]), 3);
    assert_eq!(table_end(&[1, 99, 13, 0, 1]), 5);
    assert_eq!(table_end(&[1, 2]), 2);
    assert_eq!(table_end(&[1, 13]), 2);
    assert_eq!(table_end(&[]), 0);
}

#[test]
fn the_longest_input() {
    // 14 bytes of table and choices up to 16,384 bytes: the first one opens
    // the attempt, the next is refused.
    let mut input = EXAMPLE_TABLE.to_vec();
    input.resize(16_384, 1);
    assert_eq!(printed(&input), "R 14 0 0\nC 0 0 0\nT 0 1 0 1\nW 3\n");
    input.push(1);
    assert_eq!(printed(&input), "long\n");
    input.resize(100_000, 0);
    assert_eq!(printed(&input), "long\n");
    // The same for tables that are refused.
    assert_eq!(printed(&[0; 16_384]), "R 1 0 0\n");
    assert_eq!(printed(&vec![0; 16_385]), "long\n");
    assert_eq!(printed(&[1; 16_384]), "R 3 200 0\n");
}

#[test]
fn a_run_that_uses_the_longest_input() {
    // A block of retry opened and given up again and again: 2 bytes each.
    let table = [8, 6, 0, 1, 13, 1];
    let mut input = table.to_vec();
    while input.len() < 16_384 {
        input.extend([1, 0]);
    }
    assert_eq!(input.len(), 16_384);
    let choices = (16_384 - 6) / 2;
    assert_eq!(
        printed(&input),
        format!(
            "R 0 {} {}\nC 0 0 {}\nA 1 1\n",
            2 * choices,
            choices,
            choices / 2
        )
    );
}

#[test]
fn nets_from_end_to_end() {
    // 255 times: a token goes from tray 1 to tray 0.
    let mut table = Builder::new();
    let put = table.put(0);
    let again = table.repeated_take(1, put);
    table.tokens(1, 255);
    let mut input = table.start(again);
    for _ in 0..255 {
        input.extend([1, 0, 1, 0]);
        // REP opens the put before the repeated take, so both are at 0.
    }
    assert_eq!(
        printed(&input),
        "R 0 1020 510\nC 0 0 0\nT 0 0 255 255\nT 1 255 -255 0\nW 1\n"
    );
    input.extend([1, 0]);
    assert_eq!(
        printed(&input),
        "R 18 1020 510\nC 0 0 0\nT 0 0 255 255\nT 1 255 -255 0\nW 1\n"
    );
}

#[test]
fn station_lines() {
    // Stations in order; an attempt with its nodes.
    let mut table = Builder::new();
    let end = table.end(); // 0
    let nil = table.nil(); // 1
    let either = table.or_else(end, end); // 2
    let three = table.or_else(either, end); // 3
    let block = table.atom(three); // 4
    let put = table.put(15); // 5
    let take = table.take(3, nil); // 6
    let again = table.repeated_take(2, nil); // 7
    let a = table.side_by_side(put, block);
    let b = table.side_by_side(take, again);
    let all = table.side_by_side(a, b);
    let bytes = table.start(all);
    assert_eq!(printed(&bytes), "R 0 0 0\nC 0 0 0\nP 15\nW 4\nW 6\nW 7\n");
    assert_eq!(
        printed(&with(&bytes, &[1, 1, 2, 1, 0])),
        "R 0 5 2\nC 0 0 0\nP 15\nA 4 3\nW 6\nW 7\n"
    );
    assert_eq!(
        printed(&with(&bytes, &[1, 1, 2, 1, 0, 2, 1, 1])),
        "R 0 8 3\nC 0 0 0\nP 15\nA 4 5\nW 6\nW 7\n"
    );
    assert_eq!(
        printed(&with(&bytes, &[1, 1, 2, 1, 0, 2, 1, 1, 1, 0])),
        "R 0 10 4\nC 0 0 0\nT 15 0 1 1\nA 4 5\nW 6\nW 7\n"
    );
}

/// Any input: the lines say what the calls on bytes say.
#[test]
fn printed_runs_by_chance_match_the_calls() {
    let mut random = Random::new(30);
    let mut with_attempt = 0;
    let mut refused_tables = 0;
    let mut refused_choices = 0;
    for index in 0..6_000 {
        let mut input = match index % 3 {
            0 => generator::damaged_table(&mut random),
            1 => generator::contended_table(&mut random),
            _ => {
                let shape = Shape::any(&mut random);
                generator::accepted_table(&mut random, shape)
            }
        };
        if let Ok(table) = read_table(&input) {
            let how_many = random.below(40);
            input.extend(generator::choices(
                &mut random,
                &table,
                &opening(&table),
                how_many,
                30,
            ));
        }
        let (bytes, choices) = input.split_at(table_end(&input));
        let mut hall = vec![0; HALL_BYTES];
        let Ok(mut tally) = calls::open(bytes, &mut hall) else {
            let refusal = calls::check_table(bytes);
            refused_tables += 1;
            assert_eq!(
                printed(&input),
                format!("R {} {} 0\n", refusal.number, refusal.place)
            );
            continue;
        };
        assert_eq!(tally, Tally::FRESH);
        let first = hall.clone();
        let answer = calls::run(bytes, &mut hall, &mut tally, choices);
        refused_choices += usize::from(answer.number != 0);
        let mut lines = vec![
            format!("R {} {} {}", answer.number, answer.place, answer.done),
            format!("C {} {} {}", tally.commits, tally.failed, tally.retries),
        ];
        for tray in 0..16 {
            let (from, to) = (i32::from(first[tray]), i32::from(hall[tray]));
            if from != 0 || to != 0 {
                lines.push(format!("T {tray} {from} {} {to}", to - from));
            }
        }
        let table = accepted(bytes);
        for station in decode(&table, &hall).expect("well formed").stations {
            lines.push(match station {
                Station::Putting { tray } => format!("P {tray}"),
                Station::Waiting { term } => format!("W {term}"),
                Station::Attempt { term, tree, .. } => {
                    with_attempt += 1;
                    format!("A {term} {}", tree.size())
                }
            });
        }
        assert_eq!(printed(&input), lines.join("\n") + "\n");
    }
    assert!(with_attempt > 1_000, "{with_attempt}");
    assert!(refused_tables > 500, "{refused_tables}");
    assert!(refused_choices > 500, "{refused_choices}");
}

/// The program itself, over its standard input and output.
#[test]
fn the_program_prints_the_run() {
    let mut inputs = vec![
        vec![],
        with(&EXAMPLE_TABLE, &EXAMPLE_CHOICES),
        vec![0; 16_384],
        vec![0; 16_385],
        vec![0; 40_000],
    ];
    inputs.push(with(&EXAMPLE_TABLE, &[1, 0, 255]));
    for input in inputs {
        let mut child = Command::new(env!("CARGO_BIN_EXE_print-run"))
            .stdin(Stdio::piped())
            .stdout(Stdio::piped())
            .spawn()
            .expect("the program starts");
        let mut to_child = child.stdin.take().expect("a standard input");
        // The program may stop reading once the input is too long.
        let written = to_child.write_all(&input);
        assert!(written.is_ok() || input.len() > 16_384);
        drop(to_child);
        let output = child.wait_with_output().expect("the program ends");
        assert!(output.status.success());
        assert_eq!(output.stdout, printed_run(&input));
    }
}
