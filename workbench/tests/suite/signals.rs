//! Faults are told when they are found, and a search that a signal ends tells
//! what it has seen.

use std::io::{self, Write};
use std::time::Instant;

use workbench::commands::{self, Streams};
use workbench::explore::facts::Collector;
use workbench::explore::investigate::{investigate, Doubt, Exact};
use workbench::explore::model::Model;
use workbench::explore::objects;
use workbench::explore::question::Binder;
use workbench::explore::search::{search, Cut, Found, Limits, Questions};
use workbench::style::Style;
use workbench::text::asking::Asked as Asks;
use workbench::text::source::Source;
use workbench::text::{understand, Understood};

/// A hall of some million situations, and a fault near its opening.
fn large_hall() -> String {
    let trays = "tray t0 has 8\ntray t1\ntray t2\ntray t3\ntray t4\ntray t5\n".to_owned();
    let rules = (0..6).map(|from| {
        let to = (from + 1) % 6;
        format!(
            "rule r{from} is repeatedly take t{from} then put t{to}\n\
             rule b{from} is block (take t{from}, put t{to}, end)\n"
        )
    });
    let start: Vec<String> = (0..6)
        .map(|from| format!("r{from} beside 2 of b{from}"))
        .collect();
    let rules: String = rules.collect();
    trays + &rules + "start " + &start.join(" beside ") + "\n"
}

/// Two questions that the large hall breaks, one that nothing breaks.
const NEVER: [&str; 3] = ["t3 = 2", "t4 = 2", "t5 = 9"];

fn options(more: &[&'static str]) -> Vec<&'static str> {
    let asked = NEVER.iter().flat_map(|question| ["--never", question]);
    let ends = ["--ends", "t0 = 8"];
    asked.chain(ends).chain(more.iter().copied()).collect()
}

/// How often each broken question was told before the end.
fn told_early(words: &str) -> [usize; 3] {
    NEVER.map(|question| {
        let lines = words.replace('\n', " ");
        let broken = format!("never {question}: broken after ");
        let told = lines.match_indices(&broken);
        let early = told.filter(|(at, _)| {
            let behind: Vec<&str> = lines[*at..].split_whitespace().take(16).collect();
            behind.join(" ").contains("the search goes on")
        });
        early.count()
    })
}

/// A stream that keeps how much it had at each flush.
#[derive(Default)]
struct Kept {
    bytes: Vec<u8>,
    flushed_at: Vec<usize>,
}

impl Write for Kept {
    fn write(&mut self, bytes: &[u8]) -> io::Result<usize> {
        self.bytes.write(bytes)
    }

    fn flush(&mut self) -> io::Result<()> {
        self.flushed_at.push(self.bytes.len());
        Ok(())
    }
}

/// Calls a command on the large hall: its exit, standard output and error.
fn kept(arguments: &[&str]) -> (u8, Kept, Kept) {
    let arguments: Vec<String> = arguments.iter().map(|it| (*it).to_owned()).collect();
    let (mut out, mut err) = (Kept::default(), Kept::default());
    let code = commands::main(
        &arguments,
        &mut Streams {
            input: &mut large_hall().as_bytes(),
            out: &mut out,
            err: &mut err,
            style: Style::PLAIN,
            err_style: Style::PLAIN,
            out_is_terminal: false,
            input_is_terminal: false,
        },
    );
    (code, out, err)
}

/// Each fault is told once, however often the search looks up, and nothing of
/// it stays in a buffer while the search goes on.
#[test]
fn a_fault_is_told_at_once_and_once() {
    for (json, more) in [
        (false, &["--memory", "3"][..]),
        (true, &["--memory", "3", "--json"]),
    ] {
        let mut arguments = vec!["explore", "-"];
        arguments.extend(options(more));
        let (code, out, err) = kept(&arguments);
        assert_eq!(code, 1);
        let early = if json { &err } else { &out };
        let words = std::str::from_utf8(&early.bytes).unwrap();
        assert_eq!(told_early(words), [1, 1, 0], "{words}");
        let (first, report) = words.split_at(early.flushed_at[0]);
        assert!(first.starts_with("never t3 = 2: broken after "), "{first}");
        assert!(first.ends_with("\n\n"), "{first}");
        let last_early = early.flushed_at[1];
        assert!(words[..last_early].ends_with("\n\n"), "{words}");
        assert_eq!(told_early(&words[..last_early]), [1, 1, 0], "{words}");
        assert!(json || report.contains("standard input: "), "{report}");
        // Nothing that was told to programs is in their object's stream.
        assert_eq!(
            json,
            told_early(std::str::from_utf8(&out.bytes).unwrap()) == [0; 3]
        );
    }
    assert!(looks_behind_the_faults() > 3);
}

/// The words alone: a line of the screen may end between any two.
fn in_one_line(told: &str) -> String {
    told.split_whitespace().collect::<Vec<_>>().join(" ")
}

/// Of groups the first that shows a fault is told early, once.
#[test]
fn a_faulty_group_is_told_at_once_and_once() {
    let asked = [
        "explore", "-", "--groups", "--moves", "--never", "t3 = 2", "--memory", "1",
    ];
    for json in [false, true] {
        let mut arguments = asked.to_vec();
        arguments.extend(json.then_some("--json"));
        let (code, out, err) = kept(&arguments);
        assert_eq!(code, 1);
        let early = if json { &err } else { &out };
        let words = std::str::from_utf8(&early.bytes).unwrap();
        let (first, report) = words.split_at(early.flushed_at[0]);
        let smallest = "start r0 beside r1 beside r2";
        let head = format!("{smallest} shows the fault; the search goes on\n");
        let way = "never t3 = 2 is broken after 12 steps:\n  choices\n    act ";
        assert!(first.starts_with(&(head + way)), "{first}");
        assert!(first.ends_with("\n\n"), "{first}");
        assert!(!report.contains("the search goes on"), "{report}");
        let told = std::str::from_utf8(&out.bytes).unwrap();
        let smallest = if json {
            format!("\"smallest\": {{\"start\": \"{smallest}\"")
        } else {
            format!(
                "shows the fault has 3 stations. With this line in the place of the text's \
                 start: {smallest} "
            )
        };
        assert!(in_one_line(told).contains(&smallest), "{told}");
    }
}

/// How often the same search looks up once both faults are found.
fn looks_behind_the_faults() -> usize {
    let asked = Asked::new();
    let mut looks = 0;
    search(
        &asked.model,
        &asked.questions,
        Limits::memory(3_000_000),
        &mut |so_far, _| {
            let broken = so_far.found.never.iter().flatten().count();
            looks += usize::from(broken == 2 && so_far.found.store.len() > 10_000);
        },
    );
    looks
}

/// The large hall with its questions.
struct Asked {
    understood: Understood,
    model: Model,
    questions: Questions,
}

impl Asked {
    fn new() -> Asked {
        let understood = understand(&Source::new("", large_hall())).unwrap();
        let model = Model::of(&understood.table);
        let binder = Binder::new(&understood.table, &understood.program);
        let read = |asks, text| binder.read(asks, text).unwrap();
        let questions = Questions {
            never: NEVER.iter().map(|text| read(Asks::Never, text)).collect(),
            ends: vec![read(Asks::Ends, "t0 = 8")],
            ..Questions::default()
        };
        Asked {
            understood,
            model,
            questions,
        }
    }

    /// What a search has found when it looks up with so many situations.
    fn found_with(&self, situations: u64, memory: usize) -> Option<Found> {
        let mut then = None;
        let limits = Limits::memory(memory);
        search(&self.model, &self.questions, limits, &mut |so_far, _| {
            if then.is_none() && so_far.found.situations == situations {
                then = Some(so_far.found.clone());
            }
        });
        then
    }

    /// The object of a search whose time was over with so many situations. What
    /// it may use has to be enough for them.
    fn object_with(&self, situations: u64, memory: usize) -> Option<String> {
        let mut found = self.found_with(situations, memory)?;
        found.cut = Some(Cut::Time);
        let over = Limits {
            until: Some(Instant::now()),
            ..Limits::memory(memory)
        };
        let Understood { table, program, .. } = &self.understood;
        let mut explored = investigate(table, &self.questions, over, &mut |_, _| {});
        assert_eq!(explored.exact, Exact::No(Doubt::Cut(Cut::Time)));
        explored.found = found;
        let facts = Collector {
            table,
            program,
            explored: &explored,
            questions: &self.questions,
            limits: over,
            most_ends: 1000,
        };
        let facts = facts.collect().unwrap();
        Some(objects::object(program, &explored, &facts, 0.0).written())
    }
}

#[cfg(target_os = "linux")]
mod sent {
    use super::{in_one_line, large_hall, options, told_early, Asked};
    use crate::common::{hall_in, scratch};
    use crate::json::parsed;
    use std::fs;
    use std::io::{BufRead as _, BufReader, Read};
    use std::os::unix::process::ExitStatusExt as _;
    use std::path::PathBuf;
    use std::process::{Child, Command, Stdio};

    const SIGINT: u32 = 2;
    const SIGTERM: u32 = 15;

    fn folder(name: &str) -> PathBuf {
        let folder = scratch(name);
        fs::write(folder.join("large.hall"), large_hall()).unwrap();
        folder
    }

    /// A command that does not ignore Ctrl-C, though whoever runs the tests in the
    /// background may do so.
    fn listening() -> Command {
        let mut command = Command::new("env");
        command.arg("--default-signal=INT");
        command
    }

    /// The program on its way, called by a shell's line in front of it.
    fn begun(name: &str, before: &str, options: &[&str]) -> Child {
        listening()
            .args(["sh", "-c", &format!("{before} exec \"$0\" explore \"$@\"")])
            .args([env!("CARGO_BIN_EXE_hall"), "large.hall"])
            .args(options)
            .current_dir(folder(name))
            .stdin(Stdio::null())
            .stdout(Stdio::piped())
            .stderr(Stdio::piped())
            .spawn()
            .unwrap()
    }

    /// Whether a set of signals in the system's record of a process has one.
    fn has(child: &Child, set: &str, signal: u32) -> bool {
        let record = fs::read_to_string(format!("/proc/{}/status", child.id())).unwrap();
        assert!(!record.contains("State:\tZ"), "the program has ended");
        let line = record.lines().find_map(|line| line.strip_prefix(set));
        let signals = u64::from_str_radix(line.unwrap().trim(), 16).unwrap();
        signals >> (signal - 1) & 1 == 1
    }

    fn wait_until(is_so: impl Fn() -> bool) {
        while !is_so() {
            std::thread::yield_now();
        }
    }

    /// Until the search catches the signal: before that it ends the program.
    fn wait_until_caught(child: &Child, signal: u32) {
        wait_until(|| has(child, "SigCgt:", signal));
    }

    fn send(child: &Child, signal: u32) {
        let line = format!("kill -{signal} {}", child.id());
        let status = Command::new("sh").args(["-c", &line]).status().unwrap();
        assert!(status.success());
    }

    fn rest_of(mut stream: impl Read) -> String {
        let mut rest = String::new();
        stream.read_to_string(&mut rest).unwrap();
        rest
    }

    /// What a signal ended is told as what the end of the time would have ended
    /// with the same situations.
    #[test]
    fn a_signal_tells_what_was_seen() {
        let asked = Asked::new();
        for (signal, name) in [(SIGINT, "int"), (SIGTERM, "term")] {
            let mut child = begun(&format!("signal-{name}"), "", &options(&["--json"]));
            let mut early = BufReader::new(child.stderr.take().unwrap());
            let mut first = String::new();
            early.read_line(&mut first).unwrap();
            assert!(first.starts_with("never t3 = 2: broken after "), "{first}");
            send(&child, signal);
            let object = rest_of(child.stdout.take().unwrap());
            let code = child.wait().unwrap().code();
            assert_eq!(code, i32::try_from(128 + signal).ok(), "{object}");
            let early = first + &rest_of(early);
            assert_eq!(told_early(&early)[0], 1, "{early}");
            let told = parsed(&without_seconds(object.trim_end()));
            assert_eq!(told.words("exact_by"), "cut short by a signal");
            let memory = usize::try_from(told.number("memory")).unwrap();
            let foretold = asked.object_with(told.number("situations"), 2 * memory);
            let foretold = foretold.expect("the search looks up with as many situations");
            let foretold = foretold.replace("--seconds", "a signal");
            assert_eq!(told, parsed(&without_seconds(&foretold)));
        }
    }

    /// Seconds are another number each time.
    fn without_seconds(object: &str) -> String {
        let (before, rest) = object.split_once("\"seconds\": ").unwrap();
        let (_, behind) = rest.split_once(',').unwrap();
        format!("{before}{behind}")
    }

    #[test]
    fn a_signal_is_told_in_words() {
        for (signal, name) in [(SIGINT, "int"), (SIGTERM, "term")] {
            let name = format!("signal-words-{name}");
            let mut child = begun(&name, "", &options(&[]));
            let mut out = BufReader::new(child.stdout.take().unwrap());
            let mut first = String::new();
            out.read_line(&mut first).unwrap();
            send(&child, signal);
            let out = first + &rest_of(out);
            let code = child.wait().unwrap().code();
            assert_eq!(code, i32::try_from(128 + signal).ok(), "{out}");
            assert!(
                out.contains("\nexact: no (cut short by a signal)\n"),
                "{out}"
            );
            let (_, report) = out.split_once("large.hall: ").unwrap();
            assert!(report.contains("never t3 = 2: broken after "), "{out}");
            assert!(!report.contains("the search goes on"), "{out}");
            assert!(
                report.contains("never t5 = 9: not known; nothing that was seen breaks it"),
                "{out}"
            );
        }
    }

    /// The engine's own steps are gone through no further either.
    #[test]
    fn a_signal_ends_the_engines_steps() {
        let child = begun("signal-engine", "", &options(&["--engine"]));
        wait_until_caught(&child, SIGTERM);
        send(&child, SIGTERM);
        let output = child.wait_with_output().unwrap();
        let out = String::from_utf8(output.stdout).unwrap();
        assert_eq!(output.status.code(), Some(143), "{out}");
        assert!(out.contains("cut short, there may be more"), "{out}");
        assert!(out.contains("not compared with the rules"), "{out}");
    }

    /// What they have broken by then was told at once, and is told again.
    #[test]
    fn a_signal_tells_what_the_engines_steps_broke() {
        let asked = ["--engine", "--never", "t1 = 1"];
        let mut child = begun("signal-engine-fault", "", &asked);
        let mut out = BufReader::new(child.stdout.take().unwrap());
        let mut first = String::new();
        out.read_line(&mut first).unwrap();
        let head = "never t1 = 1: broken after 2 steps, found among ";
        assert!(first.starts_with(head), "{first}");
        send(&child, SIGTERM);
        let report = rest_of(out);
        assert_eq!(child.wait().unwrap().code(), Some(143), "{report}");
        let (early, report) = report.split_once("large.hall: ").unwrap();
        assert!(in_one_line(&(first + early)).contains(" halls; the search goes on choices act "));
        assert!(report.contains("cut short, there may be more"), "{report}");
        assert!(
            report.contains("\nnever t1 = 1: broken after 2 steps\n  choices\n    act "),
            "{report}"
        );
    }

    #[test]
    fn a_signal_ends_the_groups() {
        let child = begun("signal-groups", "", &options(&["--groups"]));
        wait_until_caught(&child, SIGTERM);
        send(&child, SIGTERM);
        let output = child.wait_with_output().unwrap();
        let out = String::from_utf8(output.stdout).unwrap();
        assert_eq!(output.status.code(), Some(143), "{out}");
        let words = "then a signal asked for an end.";
        assert!(in_one_line(&out).contains(words), "{out}");
    }

    /// A program that can't tell what it has to ends with the second signal:
    /// here nobody reads, and the pipe is full.
    #[test]
    fn the_second_signal_ends_it() {
        let rules: Vec<String> = (0..10).map(|number| format!("r{number}")).collect();
        let rule = |name: &String| {
            format!("tray o{name}\nrule {name} is 4 of (take a then put o{name})\n")
        };
        let text: String = rules.iter().map(rule).collect();
        let text = format!("tray a has 4\n{text}start {}\n", rules.join(" beside "));
        let folder = folder("signal-twice");
        fs::write(folder.join("ends.hall"), text).unwrap();
        let arguments = ["explore", "ends.hall", "--json", "--all"];
        let whole = hall_in(&folder, &arguments, b"");
        assert!(whole.out.len() > 1 << 17, "{}", whole.out.len());
        let mut child = listening()
            .arg(env!("CARGO_BIN_EXE_hall"))
            .args(arguments)
            .current_dir(&folder)
            .stdout(Stdio::piped())
            .spawn()
            .unwrap();
        let mut out = child.stdout.take().unwrap();
        // It writes when the search is over.
        out.read_exact(&mut [0]).unwrap();
        send(&child, SIGINT);
        wait_until(|| !has(&child, "SigCgt:", SIGINT));
        assert!(has(&child, "SigCgt:", SIGTERM));
        assert_eq!(child.try_wait().unwrap(), None);
        send(&child, SIGINT);
        assert_eq!(child.wait().unwrap().signal(), Some(2));
    }

    /// What the caller ignores stays ignored, as behind `nohup` or in a script's
    /// background.
    #[test]
    fn an_ignored_signal_stays_ignored() {
        let child = begun("signal-ignored", "trap '' INT;", &options(&[]));
        wait_until_caught(&child, SIGTERM);
        assert!(has(&child, "SigIgn:", SIGINT));
        assert!(!has(&child, "SigCgt:", SIGINT));
        send(&child, SIGINT);
        send(&child, SIGTERM);
        assert_eq!(child.wait_with_output().unwrap().status.code(), Some(143));
    }

    /// Whoever ends the program without asking it has seen the fault by then.
    #[test]
    fn a_killed_search_has_told_its_fault() {
        for (name, more, on_error) in [("killed", "--all", false), ("killed-json", "--json", true)]
        {
            let mut child = begun(name, "", &["--never", "t3 = 2", "--moves", more]);
            let mut told = [0; 200];
            if on_error {
                child.stderr.take().unwrap().read_exact(&mut told).unwrap();
            } else {
                child.stdout.take().unwrap().read_exact(&mut told).unwrap();
            }
            // It has far to go yet.
            assert_eq!(child.try_wait().unwrap(), None);
            child.kill().unwrap();
            child.wait().unwrap();
            let told = String::from_utf8_lossy(&told);
            assert!(told.starts_with("never t3 = 2: broken after "), "{told}");
            assert!(told.contains(" steps, found among "), "{told}");
            let words = "; the search goes on choices act ";
            assert!(in_one_line(&told).contains(words), "{told}");
        }
    }
}
