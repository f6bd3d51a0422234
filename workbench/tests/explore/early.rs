//! What is told, or known, before a search has seen all there is.

use std::io::{self, Write};

use workbench::commands::{self, Streams};
use workbench::explore::facts::{Collector, Verdict};
use workbench::explore::investigate::{investigate, Explored};
use workbench::explore::question::Binder;
use workbench::explore::search::{Limits, Questions};
use workbench::style::Style;
use workbench::text::asking;
use workbench::text::source::Source;
use workbench::text::{understand, Understood};

use crate::common::{explore, wide};

/// Philosophers who eat once, beside a clock: where each of them has one stick, the
/// clock goes on for ever. Seven of them have 69,056 situations.
fn beside_a_clock(philosophers: usize) -> String {
    let all = 0..philosophers;
    let sticks = all.clone().map(|it| format!("tray s{it} has 1\n"));
    let rules = all.clone().map(|it| {
        let next = (it + 1) % philosophers;
        format!("rule p{it} is take s{it} then take s{next} then (put s{it} beside put s{next})\n")
    });
    let text: String = sticks.chain(rules).collect();
    let names: Vec<String> = all.map(|it| format!("p{it}")).collect();
    format!(
        "tray tick has 1\nrule clock is repeatedly take tick then put tick\n\
         {text}start clock beside {}\n",
        names.join(" beside ")
    )
}

/// Workers who count as long as there is a key, and somebody who may take it away
/// at once: then the hall is at an end. It has far more than 100,000 situations.
fn key_that_is_lost() -> String {
    let workers = (0..5).map(|it| {
        format!("tray x{it}\nrule w{it} is repeatedly take key then (put key beside put x{it})\n")
    });
    let workers: String = workers.collect();
    format!(
        "tray key has 1\n{workers}rule thief is take key then nothing\n\
         start thief beside w0 beside w1 beside w2 beside w3 beside w4\n"
    )
}

/// What is written, and how much of it at each flush.
#[derive(Default)]
struct Kept {
    bytes: Vec<u8>,
    flushed_at: Vec<usize>,
}

impl Write for Kept {
    fn write(&mut self, bytes: &[u8]) -> io::Result<usize> {
        self.bytes.write(bytes)
    }

    fn flush(&mut self) -> io::Result<()> {
        self.flushed_at.push(self.bytes.len());
        Ok(())
    }
}

/// Calls `explore`: its exit, what it printed early, piece by piece, and the rest.
fn pieces(text: &str, options: &[&str]) -> (u8, Vec<String>, String) {
    wide();
    let arguments: Vec<String> = ["explore", "-", "--moves"]
        .iter()
        .chain(options)
        .map(|it| (*it).to_owned())
        .collect();
    let (mut out, mut err) = (Kept::default(), Vec::new());
    let code = commands::main(
        &arguments,
        &mut Streams {
            input: &mut text.as_bytes(),
            out: &mut out,
            err: &mut err,
            style: Style::PLAIN,
            err_style: Style::PLAIN,
            out_is_terminal: false,
            input_is_terminal: false,
        },
    );
    assert_eq!(String::from_utf8(err).unwrap(), "");
    let words = String::from_utf8(out.bytes).unwrap();
    let mut early = Vec::new();
    let mut from = 0;
    for at in out.flushed_at {
        let piece: Vec<&str> = words[from..at].split_whitespace().collect();
        let piece = piece.join(" ");
        if piece.contains("the search goes on") {
            early.push(piece);
            from = at;
        }
    }
    (code, early, words[from..].to_owned())
}

/// The number before a word.
#[track_caller]
fn number_before(words: &str, what: &str) -> u64 {
    let (before, _) = words.split_once(what).unwrap();
    let digits = before.trim_end().rsplit(' ').next().unwrap();
    digits.replace(',', "").parse().unwrap()
}

/// A standstill behind a clock is told long before all is seen, once, with who is
/// in it; and the report has the same way.
#[test]
fn a_round_is_told_while_the_search_goes_on() {
    let text = beside_a_clock(7);
    let (code, early, report) = pieces(&text, &["--ends", "s0 = 1"]);
    assert_eq!((code, early.len()), (1, 1), "{early:?}");
    let head = "at every end s0 = 1: broken after 7 steps, found among ";
    assert!(early[0].starts_with(head), "{early:?}");
    let among = number_before(&early[0], "situations; the search goes on");
    assert!((10_000..35_000).contains(&among), "{among}");
    let who = "in a round that is never left: clock goes on; p0 .. p6 can never act again";
    assert!(early[0].contains(who), "{early:?}");
    assert!(
        early[0].contains("choices act p0 act p1 act p2"),
        "{early:?}"
    );
    assert!(
        report.starts_with("standard input: 69,056 situations"),
        "{report}"
    );
    assert!(
        report.contains("\nat every end s0 = 1: broken after 7 steps: "),
        "{report}"
    );
    assert!(
        report.contains("\n2 rounds that are never left, of 2 sorts"),
        "{report}"
    );
}

/// With `--first` nothing is looked at behind the round.
#[test]
fn the_first_round_ends_the_search() {
    let options = ["--first", "--ends", "s0 = 1", "--never", "tick > 1"];
    let (code, early, report) = pieces(&beside_a_clock(7), &options);
    assert_eq!((code, early.len()), (1, 0), "{early:?}");
    assert!(number_before(&report, "situations, ") < 35_000, "{report}");
    assert!(report.contains("cut short by --first"), "{report}");
    assert!(
        report.contains("\nat every end s0 = 1: broken after 7 steps: "),
        "{report}"
    );
    let open = "never tick > 1: not known; nothing that was seen breaks it";
    assert!(report.contains(open), "{report}");
}

/// A round that is closed with the last situation is told before the questions that
/// take long, and with `--first` in their place.
#[test]
fn the_last_round_is_told_before_other_questions() {
    let leads = "p0 inside leads to s0 = 1";
    let options = ["--ends", "s0 = 0", "--ask", leads];
    let (code, early, report) = pieces(&beside_a_clock(7), &options);
    assert_eq!((code, early.len()), (1, 2), "{early:?}");
    let head = "at every end s0 = 0: broken after 28 steps, found among 69,056 situations; ";
    assert!(early[0].starts_with(head), "{early:?}");
    assert!(early[1].starts_with(&format!("{leads}: broken after ")));
    assert!(report.contains("2 rounds that are never left"), "{report}");
    let (code, early, report) = pieces(&beside_a_clock(7), &[&options[..], &["--first"]].concat());
    assert_eq!((code, early.len()), (1, 1), "{early:?}");
    assert!(early[0].starts_with(head), "{early:?}");
    let open = "\nWhether there are rounds that are never left is not known.\n";
    assert!(report.contains(open), "{report}");
    assert!(
        report.contains(&format!("\n{leads}: not known; ")),
        "{report}"
    );
}

/// An end at which an attempt is stuck near 64 stations is known once all is seen
/// with notes, and told then.
#[test]
fn a_stuck_end_is_told_before_the_report() {
    let eaters = (0..3).map(|it| {
        format!("tray e{it} has 24\nrule eat{it} is repeatedly take e{it} then nothing\n")
    });
    let eaters: String = eaters.collect();
    let text = format!(
        "tray a\ntray c\ntray d\n{eaters}rule giver is put a\nrule idle is take d then nothing\n\
         rule desk is block (take a, end or else put c, put c, put c, end)\n\
         start desk beside giver beside eat0 beside eat1 beside eat2 beside 59 of idle\n"
    );
    let (code, early, report) = pieces(&text, &["--ends", "stations <= 62"]);
    assert_eq!((code, early.len()), (1, 1), "{early:?}");
    let head = "at every end stations <= 62: broken after ";
    assert!(early[0].starts_with(head), "{early:?}");
    assert!(
        early[0].contains("desk is stuck: its attempt is finished"),
        "{early:?}"
    );
    assert!(report.contains(&format!("\n{head}")), "{report}");
}

/// What the text says is broken is no fault: the search goes on behind it, and that
/// is told.
#[test]
fn what_should_be_broken_ends_nothing() {
    let text =
        beside_a_clock(7) + "ask at every end s0 = 1 => broken\nask never tick = 1 => broken\n";
    let (code, early, report) = pieces(&text, &["--first"]);
    assert_eq!((code, early.len()), (0, 2), "{early:?}");
    let told = "never tick = 1: broken, as the text says, at the opening, found among ";
    assert!(early[0].starts_with(told), "{early:?}");
    let told = "at every end s0 = 1: broken, as the text says, after 7 steps, found among ";
    assert!(early[1].starts_with(told), "{early:?}");
    assert!(
        report.starts_with("standard input: 69,056 situations"),
        "{report}"
    );
}

/// What is not possible any more is told at an end and in a round; the report has
/// the nearest situation from which it is not.
#[test]
fn what_is_not_possible_is_told_while_the_search_goes_on() {
    let (code, early, report) = pieces(
        &beside_a_clock(7),
        &["--ask", "always possible s0 = 1 and s1 = 1"],
    );
    assert_eq!((code, early.len()), (1, 1), "{early:?}");
    let question = "always possible s0 = 1 and s1 = 1: broken";
    assert!(early[0].starts_with(&format!("{question} after 7 steps, found among ")));
    assert!(
        report.contains(&format!("\n{question} after 7 steps: ")),
        "{report}"
    );

    let options = ["--memory", "3", "--ask", "always possible key = 1"];
    let (code, early, report) = pieces(&key_that_is_lost(), &options);
    assert_eq!((code, early.len()), (1, 1), "{early:?}");
    let question = "always possible key = 1: broken after 1 step";
    assert!(
        early[0].starts_with(&format!("{question}, found among ")),
        "{early:?}"
    );
    // Not all was seen, but this was.
    assert!(report.contains("cut short by --memory"), "{report}");
    assert!(report.contains(&format!("\n{question}: ")), "{report}");

    let options = ["--first", "--ask", "always possible key = 1"];
    let (code, early, report) = pieces(&key_that_is_lost(), &options);
    assert_eq!((code, early.len()), (1, 0), "{early:?}");
    assert!(report.contains("cut short by --first"), "{report}");
    assert!(report.contains(&format!("\n{question}: ")), "{report}");
}

/// Each question of what leads to something is told when it is answered.
#[test]
fn what_leads_nowhere_is_told_when_it_is_known() {
    let asked = ["p0 inside leads to s0 = 1", "p1 inside leads to s1 = 1"];
    let text = beside_a_clock(7);
    let options = ["--ask", asked[0], "--ask", asked[1]];
    let (code, early, report) = pieces(&text, &options);
    assert_eq!((code, early.len()), (1, 2), "{early:?}");
    for (question, early) in asked.iter().zip(&early) {
        let head = format!("{question}: broken after ");
        assert!(early.starts_with(&head), "{early}");
        assert!(early.contains("found among 69,056 situations"), "{early}");
        assert!(early.contains("can be made again and again"), "{early}");
        assert!(report.contains(&format!("\n{head}")), "{report}");
    }
    let (code, early, report) = pieces(&text, &[&options[..], &["--first"]].concat());
    assert_eq!((code, early.len()), (1, 1), "{early:?}");
    let open = format!("\n{}: not known; nothing that was seen breaks it", asked[1]);
    assert!(report.contains(&open), "{report}");
}

fn explored(text: &str, questions: &[&str]) -> (Understood, Questions, Explored) {
    let understood = understand(&Source::new("", text)).unwrap();
    let binder = Binder::new(&understood.table, &understood.program);
    let mut asked = Questions::default();
    for question in questions {
        let question = asking::read(question, &understood.program).unwrap();
        asked.add(binder.bind(&question).unwrap());
    }
    let limits = Limits::memory(1_000_000_000);
    let explored = investigate(&understood.table, &asked, limits, &mut |_, _| {});
    (understood, asked, explored)
}

/// Two clocks, of which the second is begun late: rounds of several sizes, some of
/// which are closed early.
fn two_clocks() -> String {
    let text = beside_a_clock(6);
    let late = "tray go has 1\ntray tock\nrule late is take go then put tock\n\
        rule second is repeatedly take tock then put tock\nrule never is take go then nothing\n";
    let text = text.replace(
        "start ",
        &format!("{late}start late beside never beside second beside "),
    );
    assert!(understand(&Source::new("", text.as_str())).is_ok());
    text
}

/// Rounds that were found while the search went on are those that are found
/// behind it, where nothing is asked about them.
#[test]
fn rounds_found_early_are_the_same() {
    let holds = "at every end stations < 64";
    for (text, rounds) in [(beside_a_clock(7), 2), (two_clocks(), 4)] {
        let (_, _, behind) = explored(&text, &[]);
        let (understood, questions, early) = explored(&text, &[holds]);
        assert!(
            behind.found.situations > 30_000,
            "{}",
            behind.found.situations
        );
        assert_eq!(
            (
                behind.found.rounds.number,
                behind.rounds.as_ref().unwrap().number
            ),
            (0, rounds)
        );
        assert!(early.found.rounds.number > 0);
        let known = |explored: &Explored| {
            let rounds = explored.rounds.clone().unwrap();
            (rounds.number, rounds.sorts)
        };
        assert_eq!(known(&early), known(&behind));
        let facts = Collector {
            table: &understood.table,
            program: &understood.program,
            explored: &early,
            questions: &questions,
            limits: Limits::memory(1_000_000_000),
            most_ends: 12,
        };
        let answers = facts.answers().unwrap();
        assert!(matches!(answers[0].verdict, Verdict::Holds));
    }
}

/// By the engine's own steps an end is told while the search goes on, though it is
/// known only once no hall leads away from it.
#[test]
fn an_end_of_the_engine_is_told_while_the_search_goes_on() {
    let options = [
        "--engine", "--memory", "4", "--ends", "key = 1", "--never", "x0 = 2",
    ];
    let (code, early, report) = pieces(&key_that_is_lost(), &options);
    assert_eq!((code, early.len()), (1, 2), "{early:?}");
    let never = early
        .iter()
        .position(|it| it.starts_with("never x0 = 2: broken after "));
    let ends = early
        .iter()
        .position(|it| it.starts_with("at every end key = 1: broken after 1 step,"));
    assert!(never.is_some() && ends.is_some(), "{early:?}");
    for early in early {
        let among = number_before(&early, "halls; the search goes on");
        assert!((10_000..12_000).contains(&among), "{early}");
        assert!(
            early.contains("; the search goes on choices act "),
            "{early}"
        );
    }
    assert!(number_before(&report, "halls,") > 15_000, "{report}");
    assert!(report.contains("cut short, there may be more"), "{report}");
    // What was seen is told where the search was cut short.
    assert!(
        report.contains("\nat every end key = 1: broken after 1 step\n  choices\n    act thief\n"),
        "{report}"
    );
}

/// With `--first` the engine's steps are gone through no further either.
#[test]
fn the_first_fault_ends_the_engines_steps() {
    for asked in [
        "at every end key = 1",
        "never x0 = 2",
        "always possible key = 1",
    ] {
        let options = ["--engine", "--first", "--ask", asked, "--never", "x0 = 60"];
        let (code, early, report) = pieces(&key_that_is_lost(), &options);
        assert_eq!((code, early.len()), (1, 0), "{early:?}");
        assert!(number_before(&report, "halls,") < 3_000, "{report}");
        assert!(
            report.contains(&format!("\n{asked}: broken after ")),
            "{report}"
        );
        assert!(report.contains("\nnever x0 = 60: not known\n"), "{report}");
    }
    // Where it is as the text says the search goes on.
    let text = key_that_is_lost() + "ask never x0 = 2 => broken\n";
    let (_, out, _) = explore(text, &["--engine", "--first", "--memory", "4"]);
    assert!(number_before(&out, "halls,") > 10_000, "{out}");
}
