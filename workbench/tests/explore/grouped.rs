//! `--groups`: every group of the opening's stations, and the smallest that
//! shows a fault.

use reference::generator::{accepted_table, Random, Shape};

use crate::common::{all_replay, explore, hall, BALLOTS};

/// A text with another start, which stands last in it.
fn restarted(text: &str, start: &str) -> String {
    let (rules, _) = text.rsplit_once("start ").expect("a start");
    format!("{rules}{start}\n")
}

#[test]
fn the_smallest_group() {
    let (code, out, err) = explore(BALLOTS, &["--groups", "--never", "aside > 0"]);
    assert_eq!((code, err.as_str()), (1, ""));
    assert_eq!(out.matches("never aside > 0: holds").count(), 6, "{out}");
    assert_eq!(all_replay(BALLOTS, &out), 1);
    let (code, out, _) = explore(BALLOTS, &["--groups", "--never", "aside > 1", "--json"]);
    assert_eq!(code, 0);
    let head = "{\"stations\": 3, \"all_groups\": 7, \"all_tried\": true, \"tried_up_to\": 3, ";
    assert!(out.starts_with(head), "{out}");
    assert!(out.ends_with("\"smallest\": null}\n"), "{out}");
    assert_eq!(out.matches("\"verdict\": \"holds\"").count(), 7);
}

/// The fault needs two of the three stations that one rule opens.
#[test]
fn a_group_that_splits_a_rule() {
    let text = BALLOTS.replace(
        "start desk beside guest beside bell",
        "rule floor is guest beside put call beside take aside then nothing\nstart desk beside floor",
    );
    let (code, out, err) = explore(&text, &["--groups", "--never", "aside > 0"]);
    assert_eq!((code, err.as_str()), (1, ""));
    assert!(out.starts_with("standard input: 15 groups of the 4 stations at its opening\n"));
    let told = out.replace("\n  ", " ");
    assert_eq!(told.matches(": holds").count(), 13, "{out}");
    let start = "start desk beside guest beside put call";
    let found = format!(
        "\nThe smallest that shows the fault has 3 stations. With this line in the place of the \
         text's\nstart:\n  {start}\nnever aside > 0 is broken after 5 steps:\n  choices\n"
    );
    assert!(out.contains(&found), "{out}");
    assert_eq!(all_replay(&restarted(&text, start), &out), 1);
}

/// Whatever put them there, equal stations are counted: one is as good as the
/// other.
#[test]
fn equal_stations() {
    let text = "tray a has 3\ntray b\nrule one is block (take a, put b, end)\n\
        rule two is block (take a, put b, end)\n\
        rule many is one beside nothing beside two beside put a\nstart many beside 2 of many\n";
    let (code, out, _) = explore(text, &["--groups", "--never", "b > 3"]);
    assert_eq!(code, 1);
    let head = "standard input: 27 groups of the 9 stations at its opening\n  start one: 3 ";
    assert!(out.starts_with(head), "{out}");
    assert!(!out.contains("two") && !out.contains("many"), "{out}");
    let start = "start 4 of one beside put a";
    assert!(
        out.contains(&format!("has 5 stations. With this line in the place of the text's\nstart:\n  {start}\nnever b > 3 is broken after 9 steps:\n")),
        "{out}"
    );
    assert_eq!(all_replay(&restarted(text, start), &out), 1);
}

/// Of `n of` each number is a group; the start line printed opens that group.
#[test]
fn groups_of_copies() {
    let text = "tray a has 2\ntray b\nrule one is block (take a, put b, end)\n\
        start 3 of one beside (take b then take b then nothing)\n";
    let (code, out, _) = explore(text, &["--groups", "--never", "b > 1"]);
    assert_eq!(code, 1);
    assert!(out.contains("7 groups of the 4 stations"), "{out}");
    assert!(
        out.contains("  start 2 of one beside (take b then take b then nothing): "),
        "{out}"
    );
    let line = "  start 2 of one\n";
    assert!(out.contains(line), "{out}");
    assert_eq!(all_replay(&restarted(text, line), &out), 1);
}

#[test]
fn a_group_of_one_and_of_none() {
    let (code, out, _) = explore("tray a start put a\n", &["--groups", "--never", "a = 1"]);
    assert_eq!(code, 1);
    assert_eq!(
        out,
        "standard input: 1 group of the 1 station at its opening\n\
         \x20 start put a: 2 situations; never a = 1: broken\n\n\
         The smallest that shows the fault has 1 station. With this line in the place of the \
         text's\nstart:\n  start put a\nnever a = 1 is broken after 1 step:\n  choices\n    \
         act put a\n"
    );
    let nobody = "tray a has 1 start nothing beside 3 of nothing\n";
    let (code, out, _) = explore(nobody, &["--groups", "--never", "a = 1"]);
    assert_eq!(code, 1);
    assert_eq!(
        out,
        "standard input: 1 group of the 0 stations at its opening\n\
         \x20 start nothing: 1 situation; never a = 1: broken\n\n\
         The smallest that shows the fault has 0 stations. With this line in the place of the \
         text's\nstart:\n  start nothing\nnever a = 1 is broken at the opening\n"
    );
    let (code, out, _) = explore(nobody, &["--groups", "--never", "a = 2"]);
    assert_eq!(code, 0, "{out}");
    assert!(out.ends_with("\nNo group shows the fault.\n"), "{out}");
}

/// Twenty stations that differ.
fn many() -> String {
    let mut text = String::from("tray a\ntray b\n");
    let mut start = Vec::new();
    for number in 0..20 {
        let takes = "take a then ".repeat(number + 1);
        text += &format!("rule r{number} is {takes}put b\n");
        start.push(format!("r{number}"));
    }
    text + "start " + &start.join(" beside ") + "\n"
}

/// Not all groups are gone through, so that nothing is said to hold.
#[test]
fn more_groups_than_are_tried() {
    let (code, out, err) = explore(many(), &["--groups", "--never", "b > 0"]);
    assert_eq!((code, err.as_str()), (1, ""));
    assert_eq!(
        out,
        "standard input: 1,048,575 groups of the 20 stations at its opening\n\
         Tried: all groups of up to 3 stations, 1,350 of them. With the next size they would be \
         more than\n4,096.\n\n\
         No group that was tried shows the fault; of the others nothing is known. Without --groups \
         the\nwhole hall is explored.\n"
    );
    let (code, out, _) = explore(many(), &["--groups", "--never", "b > 0", "--json"]);
    assert_eq!(code, 1);
    let head = "{\"stations\": 20, \"all_groups\": 1048575, \"all_tried\": false, \
        \"tried_up_to\": 3, \"groups\": [";
    assert!(out.starts_with(head), "{out}");
    // A fault among those that were tried is the smallest all the same.
    let text = many().replace("start r0", "start put a beside r0");
    let (code, out, _) = explore(&text, &["--groups", "--never", "b > 0"]);
    assert_eq!(code, 1);
    assert!(out.contains("2,097,151 groups of the 21 stations"), "{out}");
    assert!(
        out.contains("\nThe smallest that shows the fault has 2 stations."),
        "{out}"
    );
    let start = "  start put a beside r0\n";
    assert!(out.contains(start), "{out}");
    assert_eq!(all_replay(&restarted(&text, start), &out), 1);
}

/// 64 stations that differ make 2^64 - 1 groups.
#[test]
fn as_many_groups_as_there_can_be() {
    let mut text = String::from("tray x\n");
    let mut start = Vec::new();
    for first in 0..8 {
        text += &format!("tray t{first}\n");
    }
    for first in 0..8 {
        for second in 0..8 {
            start.push(format!("(take t{first} then put t{second})"));
        }
    }
    text += &format!("start {}\n", start.join(" beside "));
    let (code, out, _) = explore(&text, &["--groups", "--never", "x > 0"]);
    assert_eq!(code, 1);
    let head = "standard input: 18,446,744,073,709,551,615 groups of the 64 stations at its \
        opening\nTried: all groups of up to 2 stations, 2,080 of them.";
    assert!(out.starts_with(head), "{out}");
}

#[test]
fn the_time_is_over() {
    let asked = ["--groups", "--never", "b > 0", "--seconds", "0"];
    let (code, out, _) = explore(many(), &asked);
    assert_eq!(code, 1);
    assert_eq!(
        out,
        "standard input: 1,048,575 groups of the 20 stations at its opening\n\
         Tried: 0, then the time was over.\n\nNothing is known: no group was tried.\n"
    );
}

/// Of a group that was cut short nobody knows whether it shows the fault, so the
/// smallest that shows it may be no more than the smallest seen.
#[test]
fn a_smaller_group_may_show_it_too() {
    let text = "tray a has 200\ntray b\ntray c has 200\ntray d\ntray e has 200\ntray f\ntray x\n\
        rule busy is repeatedly take a then (put b beside put d beside put f beside take c then \
        (take e then nothing))\nrule two is take x then put f\nstart busy beside put x beside two\n";
    let asked = ["--groups", "--memory", "1", "--never", "f > 0 and a = 200"];
    let (code, out, _) = explore(text, &asked);
    assert_eq!(code, 1);
    assert!(
        out.contains("situations; never f > 0 and a = 200: not known\n"),
        "{out}"
    );
    assert!(
        out.contains(
            "\nSmaller groups were cut short; the smallest that was seen to show the fault has 2 \
             stations. With\nthis line in the place of the text's start:\n  start put x beside two\n"
        ),
        "{out}"
    );
    // Where none was seen, that is all there is to say.
    let asked = ["--groups", "--memory", "1", "--never", "x > 9"];
    let (code, out, _) = explore(text, &asked);
    assert_eq!(code, 1);
    assert!(
        out.ends_with("\nNo group was seen to show the fault, and not all is known.\n"),
        "{out}"
    );
}

/// What is missing makes an end too early, which is said where ends are asked
/// about.
#[test]
fn ends_of_groups() {
    let early = "\n\nMind that a hall from which somebody is missing often ends too early: what \
        is broken at an end\nof a small group may be no fault of the whole.\n";
    let (code, out, _) = explore(BALLOTS, &["--groups", "--ends", "counted = 1"]);
    assert_eq!(code, 1, "{out}");
    assert!(out.contains("shows the fault has 1 station."), "{out}");
    assert!(out.contains(early), "{out}");
    let (_, out, _) = explore(BALLOTS, &["--groups", "--never", "counted > 1"]);
    assert!(!out.contains("Mind"), "{out}");
}

/// A table has no text: its start lines belong to what `hall show` prints.
#[test]
fn groups_of_a_table() {
    let (_, exact, _) = hall(&["show", "-", "--exact"], BALLOTS);
    let (_, shown, _) = hall(&["show", "-"], &exact);
    let (code, out, _) = explore(&exact, &["--groups", "--never", "aside > 0"]);
    assert_eq!(code, 1);
    let words = "has 3 stations. With this line in the place of the start of\nthe text that 'hall \
        show' prints:\n  ";
    let (_, behind) = out.split_once(words).expect("the smallest group");
    let start = behind.lines().next().expect("its start line");
    assert_eq!(all_replay(&restarted(&shown, start), &out), 1);
}

/// Every start line, put into the text, opens a hall with as many situations as
/// were told of it.
#[test]
fn start_lines_open_their_groups() {
    let mut lines = 0;
    for seed in 0..400 {
        let mut random = Random::new(seed);
        let shape = Shape::small(&mut random);
        let table = accepted_table(&mut random, shape);
        let (_, size, _) = hall(&["check", "-", "--binary", "--json"], &table);
        if !["1", "2", "3", "4", "5"]
            .iter()
            .any(|it| size.contains(&format!("\"stations\": {it},")))
        {
            continue;
        }
        let (_, shown, _) = hall(&["show", "-", "--binary"], &table);
        let options = [
            "--binary",
            "--memory",
            "1",
            "--groups",
            "--never",
            "stations > 64",
        ];
        let (_, out, _) = explore(&table, &[&options[..], &["--json"]].concat());
        for group in out.split("{\"start\": \"").skip(1) {
            let (start, rest) = group.split_once('"').expect("a start line");
            let (_, told) = rest.split_once("\"situations\": ").expect("situations");
            let text = restarted(&shown, start);
            let (code, again, err) = explore(&text, &["--memory", "1", "--json"]);
            assert_eq!((code, err.as_str()), (0, ""), "{seed}: {text}");
            let (_, seen) = again.split_once("\"situations\": ").expect("situations");
            let number = |words: &str| words.split(',').next().map(str::to_owned);
            assert_eq!(number(told), number(seen), "{seed}: {text}");
            lines += 1;
        }
    }
    assert!(lines > 1000, "{lines}");
}

/// What is written behind `then` may say `1 of` very often.
#[test]
fn a_long_start_line_is_not_a_deep_one() {
    let text = format!(
        "tray a start take a then {}take a then nothing\n",
        "1 of ".repeat(100_000)
    );
    let (code, out, err) = explore(text, &["--groups", "--never", "a = 1"]);
    assert_eq!((code, err.as_str()), (0, ""));
    assert!(
        out.contains("  start (take a then take a then nothing): 1 situation; "),
        "{out}"
    );
}

#[test]
fn groups_want_a_fault() {
    let (code, _, err) = explore(BALLOTS, &["--groups"]);
    assert_eq!(code, 2);
    assert_eq!(
        err,
        "hall: explore: --groups looks for a fault: say what it is, with --ask or in the text\n"
    );
}
