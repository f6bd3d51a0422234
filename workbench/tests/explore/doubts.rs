//! Explorations that cannot be exact say so, and say of nothing that it holds;
//! and those that are exact by their notes.

use std::time::Instant;

use reference::build::Builder;
use reference::generator::Random;
use workbench::explore::facts::{Collector, Facts, ForEver, Verdict};
use workbench::explore::investigate::{investigate, Doubt, Exact, Explored};
use workbench::explore::model::Model;
use workbench::explore::question::Binder;
use workbench::explore::report::Report;
use workbench::explore::search::{search, Cut, Limits, Questions};
use workbench::style::Style;
use workbench::table::Table;
use workbench::text::asking::{self, Asked};
use workbench::text::source::Source;
use workbench::text::tree::Program;
use workbench::text::understand;

use crate::common::{all_replay, explore};
use crate::halls::tight;

/// A question that nothing breaks, asked of a hall with so much memory.
fn asked(table: &Table, memory: usize) -> (Explored, Facts, String) {
    crate::common::wide();
    let program = Program::of_table(table);
    let binder = Binder::new(table, &program);
    let mut questions = Questions::default();
    for text in [
        "never stations > 64",
        "at every end stations >= 0",
        "always possible stations >= 0",
        "stations >= 0 leads to stations < 65",
    ] {
        let asking = asking::read(text, &program).unwrap();
        questions.add(binder.bind(&asking).unwrap());
    }
    let limits = Limits::memory(memory);
    let explored = investigate(table, &questions, limits, &mut |_, _| {});
    let facts = Collector {
        table,
        program: &program,
        explored: &explored,
        questions: &questions,
        limits,
        most_ends: 12,
    }
    .collect()
    .unwrap();
    let report = Report {
        name: "hall",
        table,
        program: &program,
        moves: true,
        explored: &explored,
        facts: &facts,
        seconds: 0.0,
        style: Style::PLAIN,
    };
    let text = report.text();
    (explored, facts, text)
}

#[track_caller]
fn nothing_holds(explored: &Explored, facts: &Facts, text: &str) {
    assert!(!explored.complete());
    assert!(!facts.all_hold());
    for answer in &facts.answers {
        assert!(matches!(answer.verdict, Verdict::Open), "{answer:?}");
    }
    assert!(!matches!(facts.for_ever, ForEver::No));
    assert!(
        !text.contains("holds") && text.contains("exact: no ("),
        "{text}"
    );
    let text = text.replace('\n', " ");
    assert!(text.contains("trays, as far as seen:"), "{text}");
}

/// There is room for all situations without notes, and none for those with.
#[test]
fn notes_that_are_cut_short() {
    let mut met = 0;
    for seed in 0..60 {
        let table = Table::read(&tight(&mut Random::new(seed))).unwrap();
        let large = Limits::memory(100_000_000);
        let plain = search(
            &Model::of(&table),
            &Questions::default(),
            large,
            &mut |_, _| {},
        );
        let (explored, facts, text) = asked(&table, plain.memory() + 1);
        if plain.marks.full_hall.is_none() {
            assert_eq!(explored.exact, Exact::NeverFull);
            continue;
        }
        met += 1;
        assert_eq!(explored.exact, Exact::No(Doubt::NotesCut(Cut::Memory)));
        assert_eq!(explored.found.situations, plain.situations);
        let words = "\nexact: no (the limit of 64 stations was met, and exploring with notes was \
            cut short by --memory)\n";
        assert!(text.contains(words), "{text}");
        nothing_holds(&explored, &facts, &text);
        // With more room it is known after all.
        let (explored, facts, _) = asked(&table, 100_000_000);
        assert_eq!(explored.exact, Exact::WithNotes);
        assert!(explored.complete());
        for answer in &facts.answers {
            // What leads to something is not looked for among notes.
            let open = matches!(answer.verdict, Verdict::Open);
            assert_eq!(open, answer.asked == Asked::Leads, "{answer:?}");
        }
    }
    assert!(met > 20, "{met}");
}

/// 32 blocks of 8 ways have more sorts of notes than there are codes. They wait
/// behind a take that never comes, so the hall itself is as small as can be.
#[test]
fn too_many_sorts_of_notes() {
    let mut table = Builder::new();
    let end = table.end();
    let two = table.or_else(end, end);
    let four = table.or_else(two, two);
    let eight = table.or_else(four, four);
    let nothing = table.nil();
    let mut blocks = nothing;
    for tray in 0..16 {
        for body in [table.rd(tray, eight), table.wt(tray, eight)] {
            let block = table.atom(body);
            blocks = table.side_by_side(block, blocks);
        }
    }
    let never = table.take(0, blocks);
    let put = table.put(2);
    let puts = table.side_by_side(put, put);
    let barred = table.take(1, puts);
    let both = table.side_by_side(never, barred);
    let mut all = both;
    for _ in 0..62 {
        all = table.side_by_side(never, all);
    }
    table.tokens(1, 1);
    let table = Table::read(&table.start(all)).unwrap();
    assert_eq!(Model::with_notes(&table), None);
    let (explored, facts, text) = asked(&table, 100_000_000);
    assert_eq!(explored.exact, Exact::No(Doubt::TooManyNotes));
    assert_eq!(explored.found.situations, 1);
    nothing_holds(&explored, &facts, &text);
}

/// A round was found, and the look for one without a commit was cut short.
#[test]
fn a_round_of_which_not_all_is_known() {
    // A repeated take and its put.
    let table = Table::read(&[2, 0, 4, 0, 0, 12, 0, 1, 13, 1]).unwrap();
    let (explored, mut facts, _) = asked(&table, 100_000_000);
    assert!(matches!(facts.for_ever_no_commit, ForEver::Yes(..)));
    facts.for_ever_no_commit = ForEver::Unknown;
    let report = Report {
        name: "hall",
        table: &table,
        program: &Program::of_table(&table),
        moves: true,
        explored: &explored,
        facts: &facts,
        seconds: 0.0,
        style: Style::PLAIN,
    };
    let words = "runs that go on for ever: yes, whether without a commit is not known; the last 2 \
        choices can be\nmade again and again:\n";
    assert!(report.text().contains(words), "{}", report.text());
}

/// Time and memory are looked at before anything is done.
#[test]
fn no_room_at_all() {
    let table = Table::read(&[2, 0, 13, 0]).unwrap();
    let (explored, facts, text) = asked(&table, 0);
    assert_eq!(explored.exact, Exact::No(Doubt::Cut(Cut::Memory)));
    nothing_holds(&explored, &facts, &text);
}

#[test]
fn a_cut_run_never_says_that_something_holds() {
    let text = "tray a has 200\ntray b\ntray c\ntray d\n\
        rule one is repeatedly take a then put b\nrule two is repeatedly take b then put c\n\
        rule three is repeatedly take c then put d\nstart one beside two beside three\n";
    for options in [["--memory", "1"], ["--seconds", "0"], ["--seconds", "0.01"]] {
        let mut arguments = options.to_vec();
        arguments.extend(["--never", "d > 300", "--ends", "d >= 0"]);
        let (code, out, err) = explore(text, &arguments);
        assert_eq!((code, err.as_str()), (1, ""), "{out}");
        assert!(!out.contains("holds"), "{out}");
        assert!(out.contains("exact: no (cut short by "), "{out}");
        assert_eq!(
            out.matches("not known; nothing that was seen breaks it")
                .count(),
            2
        );
        assert!(out.contains("and there may be more"), "{out}");
        assert!(out.contains("runs that go on for ever: not known"), "{out}");
        assert!(!out.contains("always follow"), "{out}");
        arguments.push("--json");
        let (code, out, _) = explore(text, &arguments);
        assert_eq!(code, 1);
        assert!(
            out.contains("\"complete\": false, \"exact\": false"),
            "{out}"
        );
        assert!(!out.contains("\"verdict\": \"holds\""), "{out}");
        arguments.pop();
        arguments.push("--engine");
        let (code, out, _) = explore(text, &arguments);
        assert_eq!(code, 1);
        assert!(!out.contains("holds"), "{out}");
        assert!(out.contains("not compared"), "{out}");
        assert!(
            out.contains("limits of the engine met, as far as seen: "),
            "{out}"
        );
        // Asked nothing it has compared nothing either.
        let (code, out, _) = explore(text, &["--engine", options[0], options[1]]);
        assert_eq!(code, 1, "{out}");
        assert!(out.contains("not compared"), "{out}");
        // Of a small group it may well hold, but not of all of them.
        let asked = ["--groups", options[0], options[1], "--never", "d > 300"];
        let (code, out, _) = explore(text, &asked);
        assert_eq!(code, 1);
        assert!(!out.contains("No group shows the fault."), "{out}");
        assert!(out.contains(" known"), "{out}");
    }
}

/// What is found before the cut is found all the same.
#[test]
fn a_cut_run_may_find_a_fault() {
    let text = "tray a has 200\ntray b\ntray c\ntray d\n\
        rule one is repeatedly take a then put b\nrule two is repeatedly take b then put c\n\
        rule three is repeatedly take c then put d\nstart one beside two beside three\n";
    let (code, out, _) = explore(text, &["--memory", "1", "--never", "d > 0"]);
    assert_eq!(code, 1);
    assert!(out.contains("never d > 0: broken after 6 steps"), "{out}");
    assert!(all_replay(text, &out) > 0);
}

/// The desk opens while the giver still stands there, with no room for two puts;
/// the giver goes, and now there is room for what the desk saw before. Without
/// notes the desk would only ever see what the giver has put.
#[test]
fn a_fault_that_only_notes_show() {
    let text = "tray a\ntray c\ntray d\nrule giver is put a\n\
        rule desk is block (take a, end or else put c, put c, end)\n\
        rule idle is take d then nothing\nstart desk beside giver beside 62 of idle\n";
    let (code, out, err) = explore(text, &["--never", "c > 1"]);
    assert_eq!((code, err.as_str()), (1, ""), "{out}");
    let told = out.replace('\n', " ");
    assert!(
        told.contains("explored with notes of what each attempt found"),
        "{out}"
    );
    assert!(
        told.contains("never c > 1: broken after 5 steps: a 1, c 2"),
        "{out}"
    );
    assert!(told.contains("ways never taken: none"), "{out}");
    assert_eq!(all_replay(text, &out), 4, "{out}");
    let (_, out, _) = explore(text, &["--engine", "--never", "c > 1"]);
    assert!(
        out.contains("the same situations, the same ends and the same rounds"),
        "{out}"
    );
    assert!(out.contains("never c > 1: broken"), "{out}");
    assert_eq!(all_replay(text, &out), 1, "{out}");
    // Three puts have no room even then: the desk opens and never acts.
    let tighter = text.replace("put c, put c, end", "put c, put c, put c, end");
    let tighter = tighter.replace("take a, end", "take a, take a, end");
    let (_, out, _) = explore(&tighter, &[]);
    assert!(
        out.contains("stations that never act: desk, idle\n"),
        "{out}"
    );
    // With one station fewer there is room, and no need for notes.
    let roomy = text.replace("62 of", "61 of");
    let (code, out, _) = explore(&roomy, &["--never", "c > 1"]);
    assert_eq!(code, 1);
    assert!(
        out.contains("the limit of 64 stations was never met"),
        "{out}"
    );
}

/// So many stations take one of the letters each, and every way that they are
/// parted among is an end.
fn many_ends() -> String {
    let mut text = String::from("tray a has 4\n");
    let rules: Vec<String> = (0..10).map(|number| format!("r{number}")).collect();
    for rule in &rules {
        text += &format!("tray o{rule}\nrule {rule} is 4 of (take a then put o{rule})\n");
    }
    text + "start " + &rules.join(" beside ") + "\n"
}

/// The nearest ends are told whatever the limits are, all others within them.
#[test]
fn limits_bound_the_telling_too() {
    let text = many_ends();
    let numbered = |out: &str| {
        out.lines()
            .filter(|line| line.contains(" after 8 steps"))
            .count()
    };
    let (code, out, _) = explore(&text, &["--all"]);
    assert_eq!((code, numbered(&out)), (0, 715));
    assert!(!out.contains("cut short"), "{out}");
    let (code, out, _) = explore(&text, &["--all", "--memory", "4"]);
    let told = numbered(&out);
    assert!(code == 0 && told > 12 && told < 600, "{told}");
    let words = format!(
        "\n  and {} more at least: the telling was cut short by --memory\n",
        715 - told
    );
    assert!(out.contains(&words), "{out}");
    assert!(out.contains("all of them seen"), "{out}");
    let (_, out, _) = explore(&text, &["--all", "--memory", "4", "--json"]);
    assert!(
        out.contains("\"end_sorts\": 715, \"ends_cut_by\": \"--memory\""),
        "{out}"
    );
    // What is asked is answered all the same.
    let (code, out, _) = explore(&text, &["--memory", "4", "--all", "--ends", "a = 0"]);
    assert!(
        code == 0 && out.contains("at every end a = 0: holds"),
        "{out}"
    );
}

/// The telling of rounds is bounded as that of ends: the same hall beside a clock
/// has a round in the place of each end.
#[test]
fn limits_bound_the_telling_of_rounds() {
    let clock =
        "tray tick has 1\nrule clock is repeatedly take tick then put tick\nstart clock beside ";
    let text = many_ends().replace("start ", clock);
    let understood = understand(&Source::new("", text)).unwrap();
    let (table, program) = (&understood.table, &understood.program);
    let questions = Questions::default();
    let large = Limits::memory(100_000_000);
    let explored = investigate(table, &questions, large, &mut |_, _| {});
    let told = |limits: Limits, most_ends: usize| {
        let facts = Collector {
            table,
            program,
            explored: &explored,
            questions: &questions,
            limits,
            most_ends,
        };
        let facts = facts.collect().unwrap();
        let rounds = facts.rounds.unwrap();
        let nearest = rounds
            .windows(2)
            .all(|pair| pair[0].witness.steps <= pair[1].witness.steps);
        assert!(nearest && facts.ends.is_empty());
        (rounds.len(), facts.rounds_cut)
    };
    assert_eq!(told(large, usize::MAX), (715, None));
    assert_eq!(told(large, 20), (20, None));
    let over = Limits {
        until: Some(Instant::now()),
        ..large
    };
    assert_eq!(told(over, usize::MAX), (12, Some(Cut::Time)));
    let full = Limits::memory(explored.found.memory());
    assert_eq!(told(full, usize::MAX), (12, Some(Cut::Memory)));
    let more = Limits::memory(explored.found.memory() + 400_000);
    let (some, cut) = told(more, usize::MAX);
    assert!(
        some > 12 && some < 600 && cut == Some(Cut::Memory),
        "{some}"
    );
}

/// The time may be over when all was seen: then the nearest ends are told.
#[test]
fn the_time_is_over_before_the_telling() {
    let source = Source::new("", many_ends());
    let understood = understand(&source).unwrap();
    let (table, program) = (&understood.table, &understood.program);
    let questions = Questions::default();
    let large = Limits::memory(100_000_000);
    let explored = investigate(table, &questions, large, &mut |_, _| {});
    let over = Limits {
        until: Some(Instant::now()),
        ..large
    };
    for (limits, cut) in [
        (over, Cut::Time),
        (Limits::memory(explored.found.memory()), Cut::Memory),
    ] {
        let facts = Collector {
            table,
            program,
            explored: &explored,
            questions: &questions,
            limits,
            most_ends: usize::MAX,
        };
        let facts = facts.collect().unwrap();
        assert_eq!((facts.ends.len(), facts.sorts), (12, 715));
        assert_eq!(facts.ends_cut, Some(cut));
    }
}

/// There is room for all situations and none to look for rounds: then nothing is
/// said to hold at every end, though no end breaks it.
#[test]
fn rounds_that_are_not_looked_for() {
    let text = "tray a has 3\ntray b\nrule there is repeatedly take a then put b\n\
        rule back is repeatedly take b then put a\nstart there beside back\n";
    let understood = understand(&Source::new("", text)).unwrap();
    let table = &understood.table;
    let model = Model::of(table);
    let all = search(
        &model,
        &Questions::default(),
        Limits::memory(100_000_000),
        &mut |_, _| {},
    );
    let (explored, facts, text) = asked(table, all.memory());
    assert!(explored.complete() && !explored.ends_known());
    let verdicts = facts.answers.iter().map(|answer| &answer.verdict);
    let verdicts: Vec<bool> = verdicts.map(|it| matches!(it, Verdict::Holds)).collect();
    assert_eq!(verdicts, [true, false, false, false], "{text}");
    assert!(!facts.all_hold());
    let words = "\nWhether there are rounds that are never left is not known.\n";
    assert!(text.contains(words), "{text}");
    let (explored, facts, text) = asked(table, 100_000_000);
    assert!(explored.ends_known() && facts.all_hold(), "{text}");
    assert_eq!(facts.rounds.map(|rounds| rounds.len()), Some(1));
}

/// Looking for rounds is cut short behind one that breaks what is asked: that is
/// told, and nothing is said to hold.
#[test]
fn a_round_that_was_found_before_the_cut() {
    let text = "tray turn has 1\ntray tick\ntray a\ntray b\ntray c\n\
        rule near is take turn then put tick\n\
        rule far is take turn then (6 of put a)\n\
        rule clock is repeatedly take tick then put tick\n\
        rule one is repeatedly take a then put b\nrule two is repeatedly take b then put c\n\
        rule three is repeatedly take c then put a\n\
        start near beside far beside clock beside one beside two beside three\n";
    let understood = understand(&Source::new("", text)).unwrap();
    let (table, program) = (&understood.table, &understood.program);
    let question = Binder::new(table, program)
        .read(Asked::Ends, "tick = 0 and stations < 60")
        .unwrap();
    let questions = Questions {
        ends: vec![question],
        ..Questions::default()
    };
    let large = Limits::memory(100_000_000);
    let whole = investigate(table, &questions, large, &mut |_, _| {});
    assert!(whole.ends_known());
    let mut cut_behind_a_fault = 0;
    for memory in (whole.found.memory()..3 * whole.found.memory()).step_by(500) {
        let limits = Limits::memory(memory);
        let explored = investigate(table, &questions, limits, &mut |_, _| {});
        if !explored.complete() || explored.rounds.is_some() {
            continue;
        }
        let facts = Collector {
            table,
            program,
            explored: &explored,
            questions: &questions,
            limits,
            most_ends: 12,
        };
        let answers = facts.answers().unwrap();
        let [answer] = answers.as_slice() else {
            panic!("{answers:?}");
        };
        match &answer.verdict {
            Verdict::Broken(witness, _) => {
                cut_behind_a_fault += 1;
                let who = answer.round.as_ref().unwrap();
                assert_eq!(who.go_on, ["clock"]);
                assert!(witness.steps >= 2, "{witness:?}");
            }
            Verdict::Open => {}
            Verdict::Holds => panic!("not all is known"),
        }
    }
    assert!(cut_behind_a_fault > 0);
}
