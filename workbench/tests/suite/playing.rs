//! Playing at the prompt.

use std::fs;

use workbench::style::Style;

use crate::common::{called, files, hall_at, hall_in, package, scratch, Answer};

const TEXT: &str = "\
tray batch
tray long
tray short
rule desk is block (
    take batch, put long, end
  or else
    put short, end
)
rule scanner is put batch
start desk beside 2 of scanner
";

fn played(name: &str, input: &str) -> Answer {
    let folder = scratch(name);
    fs::write(folder.join("a.hall"), TEXT).unwrap();
    hall_in(&folder, &["play", "--moves", "a.hall"], input.as_bytes())
}

/// The same by whole steps.
fn by_steps(name: &str, input: &str) -> Answer {
    let folder = scratch(name);
    fs::write(folder.join("a.hall"), TEXT).unwrap();
    hall_in(&folder, &["play", "a.hall"], input.as_bytes())
}

/// What stands behind each prompt.
fn parts(answer: &Answer) -> Vec<&str> {
    answer.out.split("\n> ").collect()
}

/// How many choices a screen lists. They are numbered from 1 on; number 1 is
/// marked as suggested, and nothing else is.
#[track_caller]
fn listed(screen: &str) -> usize {
    let mut numbers: Vec<usize> = Vec::new();
    let mut marked = Vec::new();
    for line in screen.lines() {
        // Four columns for the number, two that are empty.
        let number: Option<usize> = line.get(..4).and_then(|it| it.trim_start().parse().ok());
        numbers.extend(number.filter(|_| line[4..].starts_with("  ")));
        if line.contains("(suggested)") {
            marked.push(numbers.len());
        }
    }
    assert!(numbers.iter().copied().eq(1..=numbers.len()), "{screen}");
    assert_eq!(marked, numbers[..numbers.len().min(1)], "{screen}");
    numbers.len()
}

/// All examples are played, by numbers that lead here and there.
#[test]
fn number_1_is_suggested() {
    let (mut screens, mut of_several, mut still) = (0, 0, 0);
    for file in files(&package().join("examples"), "hall") {
        let name = file.to_str().expect("letters");
        for numbers in ["1", "2 1 1", "3 2 1 1 1", "1 1 4 2"] {
            let turns: Vec<&str> = numbers.split(' ').cycle().take(30).collect();
            let input = turns.join("\n") + "\n";
            for moves in [&["--moves"][..], &[]] {
                let arguments = [&["play", name], moves].concat();
                let answer = called(&arguments, input.as_bytes(), Style::PLAIN, false);
                assert_eq!((answer.code, answer.err.as_str()), (Some(0), ""), "{name}");
                let parts = parts(&answer);
                // A screen before each number and one behind the last; no more is read.
                assert_eq!((parts.len(), parts[31]), (32, "\n"), "{name}");
                for screen in &parts[..31] {
                    let listed = listed(screen);
                    let is_still = screen.ends_with("The hall is still: no choice is accepted.");
                    assert_eq!(listed == 0, is_still, "{name}: {screen}");
                    screens += 1;
                    of_several += usize::from(listed > 1);
                    still += usize::from(is_still);
                }
            }
        }
    }
    let met = (screens, of_several, still);
    assert!(screens > 2_000 && of_several > 500 && still > 50, "{met:?}");
}

/// Enter does what the number 1 does.
#[test]
fn enter_takes_number_1() {
    let by_number = played("by-number", &"1\n".repeat(14));
    let by_enter = played("by-enter", &"\n".repeat(14));
    assert_eq!(by_number.out.matches("\n> 1\n").count(), 14);
    assert_eq!(by_number.out.replace("\n> 1\n", "\n> \n"), by_enter.out);
    assert!(
        by_enter.out.contains("   (suggested)\n   2  "),
        "{}",
        by_enter.out
    );
}

/// What is printed at play, to the byte.
#[test]
fn a_hall_at_play_as_it_is_told() {
    let told = package().join("tests/told");
    let input = fs::read_to_string(told.join("play.in")).unwrap();
    let expected = fs::read_to_string(told.join("play.out")).unwrap();
    let answer = played("play", &input);
    assert_eq!(answer.out, expected);
    assert_eq!((answer.code, answer.err.as_str()), (Some(0), ""));
}

#[test]
fn the_end_of_the_input_leaves() {
    let answer = played("end", "");
    assert_eq!((answer.code, answer.err.as_str()), (Some(0), ""));
    assert!(answer.out.ends_with("> \n"), "{}", answer.out);
}

/// Taking a choice back leads to the board before it, and again to the same
/// board.
#[test]
fn undo() {
    let answer = played("undo", "1\nact scanner 1\nu\nact scanner 1\nu\nu\nu\nq\n");
    let parts = parts(&answer);
    let board = |part: &str| part.split_once("\n\n").map(|it| it.1.to_owned());
    let first = parts[0].trim_start();
    assert_eq!(board(parts[2]), board(parts[4]), "the same choice");
    assert_eq!(board(parts[1]), board(parts[3]), "before it");
    assert_eq!(board(parts[3]), board(parts[5]), "before it again");
    assert_eq!(board(parts[6]).as_deref(), Some(first), "the opening");
    assert!(parts[7].contains("nothing to take back"), "{}", parts[7]);
    assert_eq!(answer.code, Some(0));
}

/// What was explained before it was taken back is explained again.
#[test]
fn undo_of_what_was_explained() {
    let folder = scratch("explained");
    let text = "tray a\nrule giver is put a\nrule taker is take a then nothing\nstart giver beside taker\n";
    fs::write(folder.join("a.hall"), text).unwrap();
    let input = b"act giver\nact taker\nu\nact taker\nq\n";
    let answer = hall_in(&folder, &["play", "--moves", "a.hall"], input);
    let parts = parts(&answer);
    assert!(parts[2].contains("(COM): the tray"), "{}", parts[2]);
    assert_eq!(parts[2], parts[4]);
}

/// Names, as a lesson says them; `board` and `why` as written.
#[test]
fn words_of_a_lesson() {
    let answer = played("words", "act desk\nstep desk\nboard\nwhy desk\nw desk\nq\n");
    let parts = parts(&answer);
    assert!(parts[1].contains("desk opens an attempt"), "{}", parts[1]);
    assert!(parts[2].contains("desk splits into 2 ways"), "{}", parts[2]);
    assert!(
        parts[3].contains("node 1  |- >>  take batch, put long, end   (will lack batch)"),
        "{}",
        parts[3]
    );
    let told = |part: &str| part.split_once('\n').unwrap().1.to_owned();
    assert_eq!(told(parts[4]), told(parts[5]));
    assert!(
        parts[4].contains("desk: the ways of its block"),
        "{}",
        parts[4]
    );
}

/// What is refused or unknown leaves the hall as it is.
#[test]
fn refused_and_unknown() {
    let input = "step desk\nact scanner\nact nobody\nact 9\n77\nhello\nu\nq\n";
    let answer = played("refused", input);
    let parts = parts(&answer);
    assert!(
        parts[1].contains("refused 15: desk has no open attempt."),
        "{}",
        parts[1]
    );
    assert!(parts[1].contains("now 'act desk' opens"), "{}", parts[1]);
    assert!(
        answer.err.contains("there are 2 of 'scanner'"),
        "{}",
        answer.err
    );
    assert!(
        answer.err.contains("no rule is called 'nobody'"),
        "{}",
        answer.err
    );
    assert!(
        parts[4].contains("refused 14: no station stands at position 9."),
        "{}",
        parts[4]
    );
    assert!(
        parts[5].contains("there is no number 77: they go from 1 to 2"),
        "{}",
        parts[5]
    );
    assert!(
        parts[6].contains("'hello' is no word here: h tells what can be typed"),
        "{}",
        parts[6]
    );
    assert!(parts[7].contains("nothing to take back"), "{}", parts[7]);
    assert_eq!(answer.code, Some(0));
}

/// What was played becomes a lesson, without what was taken back.
#[test]
fn saved_and_run_again() {
    let folder = scratch("saved");
    fs::write(folder.join("a.hall"), TEXT).unwrap();
    let input =
        "act scanner 2\nact desk\nu\nact desk\n\n\nsave some.choices\nsave nowhere/x\nsave\nq\n";
    let answer = hall_in(&folder, &["play", "--moves", "a.hall"], input.as_bytes());
    assert_eq!((answer.code, answer.err.as_str()), (Some(0), ""));
    assert!(
        answer.out.contains("4 lines written to some.choices"),
        "{}",
        answer.out
    );
    assert!(
        answer.out.contains("cannot write nowhere/x"),
        "{}",
        answer.out
    );
    let saved = fs::read_to_string(folder.join("some.choices")).unwrap();
    let head = "choices\n  act scanner 2 => puts\n  act desk => opens\n  step desk => splits\n";
    assert!(saved.starts_with(head), "{saved}");
    assert_eq!(saved.lines().count(), 5);
    let run = hall_in(&folder, &["run", "--quiet", "a.hall", "some.choices"], b"");
    assert_eq!(run.code, Some(0));
    assert!(run.out.starts_with("4 choices done: "), "{}", run.out);
    // They can be made first, and one plays on from there.
    let input = b"u\nq\n";
    let answer = hall_in(&folder, &["play", "a.hall", "some.choices"], input);
    assert_eq!((answer.code, answer.err.as_str()), (Some(0), ""));
    assert!(
        answer.out.contains("attempt, opened at batch 1"),
        "{}",
        answer.out
    );
    // Choices that do not go as they say are told, and nothing is played.
    fs::write(folder.join("bad.choices"), "act desk => commits\n").unwrap();
    let answer = hall_in(&folder, &["play", "a.hall", "bad.choices"], b"");
    assert_eq!((answer.code, answer.out.as_str()), (Some(1), ""));
    assert!(
        answer.err.contains("'commits' was expected here"),
        "{}",
        answer.err
    );
}

/// What was played by steps is a lesson of whole steps, which leads to the same
/// hall.
#[test]
fn steps_saved_and_run_again() {
    let folder = scratch("saved-steps");
    let mut lessons = 0;
    for file in files(&package().join("examples"), "hall") {
        let name = file.to_str().expect("letters");
        for numbers in ["1", "2 1 1", "3 2 1 u r", "2 2 u 1"] {
            let turns: Vec<&str> = numbers.split(' ').cycle().take(25).collect();
            let input = turns.join("\n") + "\nb\nsave! it.choices\n";
            let played = hall_at(300, &folder, &["play", name], input.as_bytes());
            assert_eq!((played.code, played.err.as_str()), (Some(0), ""), "{name}");
            let screens = parts(&played);
            let board = screens[26].split("\n\n").nth(1).expect("a board");
            let saved = fs::read_to_string(folder.join("it.choices")).unwrap();
            assert!(
                !saved.contains(" act ") && !saved.contains(" step "),
                "{saved}"
            );
            let lesson = saved.clone() + "board\n";
            fs::write(folder.join("shown.choices"), lesson).unwrap();
            let run = hall_at(300, &folder, &["run", name, "shown.choices"], b"");
            assert_eq!(
                (run.code, run.err.as_str()),
                (Some(0), ""),
                "{name}\n{saved}"
            );
            let trays = board.lines().next().unwrap();
            assert!(run.out.contains(trays), "{name}\n{board}\n{}", run.out);
            lessons += usize::from(saved.lines().count() > 3);
        }
    }
    assert!(lessons > 60, "{lessons}");
}

/// What was taken back is done again, until something else is done.
#[test]
fn redo() {
    let answer = by_steps("redo", "1\nact scanner 1\nu\nu\nr\nr\nr\nu\n1\nr\nq\n");
    let parts = parts(&answer);
    let board = |at: usize| parts[at].split_once("\n\n").map(|it| it.1.to_owned());
    assert_eq!(board(5), board(1), "{}", parts[5]);
    assert_eq!(board(6), board(2), "{}", parts[6]);
    assert!(parts[7].contains("nothing to do again"), "{}", parts[7]);
    assert_eq!(board(8), board(1));
    assert!(parts[10].contains("nothing to do again"), "{}", parts[10]);
    // What is told again is told as it was told first.
    let first = |at: usize| parts[at].lines().nth(1).map(str::to_owned);
    assert_eq!(first(5), first(1));
    assert_eq!(first(6), first(2));
}

/// A file that is there is written over only where that is said.
#[test]
fn nothing_is_written_over_unasked() {
    let folder = scratch("unasked");
    fs::write(folder.join("a.hall"), TEXT).unwrap();
    fs::write(folder.join("b.choices"), "mine\n").unwrap();
    let there = || fs::read_to_string(folder.join("b.choices")).unwrap();
    let play = |input: &str| hall_in(&folder, &["play", "a.hall"], input.as_bytes()).out;
    let out = play("1\nsave b.choices\nq\n");
    assert!(out.contains("b.choices is there already: 'save! b.choices' writes over it"));
    assert_eq!(there(), "mine\n");
    let first = "choices\n  do desk => commits\n";
    play("1\nsave! b.choices\nq\n");
    assert_eq!(there(), first);
    // A session writes over what it has written itself.
    play("1\nsave c.choices\n1\nsave c.choices\nq\n");
    let own = fs::read_to_string(folder.join("c.choices")).unwrap();
    assert!(own.starts_with(first) && own.lines().count() == 3, "{own}");
    // Not where somebody else has written there since: here a link leads elsewhere.
    let out = play("1\nsave b.choices\nq\n");
    assert!(out.contains("is there already"), "{out}");
    assert_eq!(there(), first);
}

/// Equal stations have one line in the list and on the board.
#[test]
fn equal_stations_are_folded() {
    let folder = scratch("equal");
    let text =
        "tray a has 9\nrule desk is block (take a, end)\nrule guest is take a then nothing\n\
                start 20 of desk beside 2 of guest beside (take a then nothing)\n";
    fs::write(folder.join("a.hall"), text).unwrap();
    for moves in [&["--moves"][..], &[]] {
        let arguments = [&["play", "a.hall"], moves].concat();
        let answer = hall_in(&folder, &arguments, b"act desk 3\nq\n");
        let parts = parts(&answer);
        assert_eq!(listed(parts[0]), 3, "{}", parts[0]);
        assert!(parts[0].contains("20 alike, up to desk 20"), "{}", parts[0]);
        assert!(parts[0].contains("desk 1 .. desk 20"), "{}", parts[0]);
        assert!(parts[0].contains("(20 alike)"), "{}", parts[0]);
        // The one with an open attempt is like no other.
        assert_eq!(listed(parts[1]), 4, "{}", parts[1]);
        assert!(parts[1].contains("19 alike"), "{}", parts[1]);
    }
}
