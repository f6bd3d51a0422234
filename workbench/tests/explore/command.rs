//! `hall explore` as it is called: words, exit codes, files, ways that replay.
use std::fs;
use std::path::PathBuf;

use reference::generator::{accepted_table, damaged_table, nearly_full_table, Random, Shape};

use crate::common::{all_replay, explore, hall, BALLOTS};

fn philosophers(how_many: usize) -> String {
    let mut text = String::new();
    let mut start = Vec::new();
    for left in 0..how_many {
        text += &format!("tray stick{left} has 1\ntray sat{left}\n");
    }
    text += "tray eaten\n";
    for left in 0..how_many {
        let right = (left + 1) % how_many;
        text += &format!(
            "rule hungry{left} is block (take stick{left}, take stick{right}, put sat{left}, end)\n\
             rule meal{left} is take sat{left} then\n  \
             (put eaten beside put stick{left} beside put stick{right})\n"
        );
        start.push(format!("hungry{left} beside meal{left}"));
    }
    text + "start " + &start.join(" beside ") + "\n"
}

fn leader() -> String {
    let mut text = String::from("tray token tray win tray lose\n");
    for number in 0..3 {
        text += &format!("tray yes{number} tray no{number}\n");
    }
    let mut start = vec!["put token".to_owned()];
    for number in 0..3 {
        text += &format!(
            "rule ask{number} is block (take token, put yes{number}, end or else put no{number}, end)\n\
             rule won{number} is take yes{number} then (put win beside put token)\n\
             rule lost{number} is take no{number} then put lose\n"
        );
        start.push(format!(
            "ask{number} beside won{number} beside lost{number}"
        ));
    }
    text + "start " + &start.join(" beside ") + "\n"
}

const SEVEN: &str = "tray ballot has 1\ntray done\n\
    rule desk is block (take ballot, put done, end)\nstart 7 of desk\n";

fn number_in(json: &str, field: &str) -> u64 {
    let front = format!("\"{field}\": ");
    let at = json.find(&front).unwrap() + front.len();
    let digits: String = json[at..]
        .chars()
        .take_while(char::is_ascii_digit)
        .collect();
    digits.parse().unwrap()
}

#[test]
fn situations_of_named_halls() {
    let handover = "tray batch tray done start put batch beside (take batch then put done)\n";
    for (text, situations, ends) in [
        (philosophers(3), 219, 1),
        (philosophers(4), 1_177, 1),
        (leader(), 892, 8),
        (SEVEN.to_owned(), 3, 1),
        (handover.to_owned(), 4, 1),
    ] {
        let (code, out, err) = explore(&text, &["--json"]);
        assert_eq!((code, err.as_str()), (0, ""), "{out}");
        assert_eq!(number_in(&out, "situations"), situations, "{text}");
        assert_eq!(number_in(&out, "end_situations"), ends, "{text}");
        assert!(out.contains("\"exact\": true"), "{out}");
    }
}

#[test]
fn the_engine_comes_to_the_same() {
    let (code, out, _) = explore(leader(), &["--engine", "--json", "--never", "win > 1"]);
    assert_eq!(code, 1);
    assert_eq!(number_in(&out, "halls"), 46_753);
    assert_eq!(number_in(&out, "situations"), 892);
    assert_eq!(number_in(&out, "ends"), 8);
    assert!(out.contains("\"compared\": true"), "{out}");
    let (_, told, _) = explore(leader(), &["--json"]);
    assert_eq!(number_in(&told, "end_sorts"), 4);
    assert_eq!(number_in(&told, "steps"), 2_249);
}

#[test]
fn printed_ways_replay() {
    let idle = "tray a has 255\ntray b has 2\ntray c\n\
        rule late is take b then (put a beside put a)\n\
        rule crowd is take c then nothing\n\
        rule turner is repeatedly take b then put b\n\
        start late beside turner beside put a beside 60 of crowd\n";
    for (text, options, ways) in [
        (leader(), vec!["--never", "win > 1", "--ends", "win = 1"], 6),
        (BALLOTS.to_owned(), vec!["--never", "aside > 0"], 3),
        (philosophers(3), vec!["--never", "eaten = 3"], 2),
        (idle.to_owned(), vec![], 4),
    ] {
        let (_, out, err) = explore(&text, &options);
        assert_eq!(err, "");
        assert_eq!(all_replay(&text, &out), ways, "{out}");
    }
}

/// What a long search finds is told on its way, also where the last situation of
/// all shows it; what a short one finds is told once.
#[test]
fn faults_are_told_on_the_way() {
    let moved = |stations: usize| {
        let trays = "tray a\ntray b\ntray c\n";
        let rules = "rule one is put a\nrule two is put b\nrule three is put c\n";
        let start = ["one", "two", "three"].map(|rule| format!("{stations} of {rule}"));
        format!("{trays}{rules}start {}\n", start.join(" beside "))
    };
    for (stations, situations, told) in [(20, "9,261", false), (21, "10,648", true)] {
        let (code, out, err) = explore(moved(stations), &["--ends", "a = 0"]);
        assert_eq!((code, err.as_str()), (1, ""));
        let steps = 3 * stations;
        let early = format!(
            "at every end a = 0: broken after {steps} steps, found among {situations} situations; \
             the search goes on\n  choices\n"
        );
        assert_eq!(out.starts_with(&early), told, "{out}");
        assert_eq!(
            out.matches("at every end a = 0: broken").count(),
            1 + usize::from(told)
        );
        assert!(out.contains(&format!("standard input: {situations} situations")));
    }
}

/// With `--first` a search stops soon behind its first fault.
#[test]
fn the_first_fault_ends_the_search() {
    let rules =
        "tray a\ntray b\ntray c\nrule one is put a\nrule two is put b\nrule three is put c\n";
    let text = format!("{rules}start 21 of one beside 21 of two beside 21 of three\n");
    let options = ["--json", "--never", "a = 1", "--never", "c = 21"];
    let (code, out, _) = explore(&text, &options);
    assert_eq!((code, number_in(&out, "situations")), (1, 10_648));
    let options = [&options[..], &["--first"]].concat();
    let (code, out, _) = explore(&text, &options);
    let seen = number_in(&out, "situations");
    assert!(code == 1 && seen < 1_000, "{seen}");
    assert!(out.contains("cut short by --first"), "{out}");
    assert!(
        out.contains(
            "\"question\": \"c = 21\", \"expected\": \"holds\", \"cost\": null, \
             \"verdict\": \"not known\""
        ),
        "{out}"
    );
    let (code, out, _) = explore(&text, &["--first", "--never", "a = 1"]);
    assert_eq!(code, 1);
    assert!(
        out.contains("never a = 1: broken after 1 step: a 1\n"),
        "{out}"
    );
}

/// Every example but the refused ones can be explored to the end, and each way
/// printed is one that `hall run` goes.
#[test]
fn examples() {
    let folder = PathBuf::from(env!("CARGO_MANIFEST_DIR")).join("examples");
    let mut explored = 0;
    for entry in fs::read_dir(folder).unwrap() {
        let file = entry.unwrap().path();
        if file.extension().map_or(true, |ending| ending != "hall") {
            continue;
        }
        let lesson = fs::read_to_string(&file).unwrap();
        let rules = |line: &&str| !line.starts_with("choices");
        let lines: Vec<&str> = lesson.lines().take_while(rules).collect();
        let text = lines.join("\n") + "\n";
        let (code, out, err) = explore(&text, &[]);
        assert_eq!((code, err.as_str()), (0, ""), "{}", file.display());
        assert!(out.contains("exact: yes"), "{}\n{out}", file.display());
        all_replay(&text, &out);
        explored += 1;
    }
    assert!(explored >= 20, "{explored}");
}

/// Whatever the file holds, it is explored or refused, and nothing else.
#[test]
fn any_table() {
    let mut explored = 0;
    for seed in 0..300 {
        let mut random = Random::new(seed);
        let table = match seed % 3 {
            0 => damaged_table(&mut random),
            1 => nearly_full_table(&mut random),
            _ => {
                let shape = Shape::any(&mut random);
                accepted_table(&mut random, shape)
            }
        };
        let options = ["--binary", "--memory", "1", "--never", "stations > 64"];
        let (code, out, err) = explore(&table, &options);
        let refused = code == 1 && out.is_empty() && err.contains("refused");
        let open = code == 1 && err.is_empty() && out.contains("not known; nothing");
        let holds = code == 0 && err.is_empty() && out.contains("never stations > 64: holds");
        assert!(refused || open || holds, "{table:?}: {code}\n{out}{err}");
        explored += usize::from(open || holds);
    }
    assert!(explored > 150, "{explored}");
}

/// A name of a file that is this test's alone.
fn scratch(name: &str) -> PathBuf {
    let folder = std::env::temp_dir().join(format!("hall-explore-{}", std::process::id()));
    fs::create_dir_all(&folder).unwrap();
    folder.join(name)
}

#[test]
fn saved_ways_are_whole_and_replay() {
    let text = "tray a\ntray b\nrule one is take a then put b\n\
        start 40 of put a beside 40 of one\n";
    let text = text.replace("40 of put", "24 of put");
    let hall_file = scratch("long.hall");
    fs::write(&hall_file, &text).unwrap();
    let prefix = scratch("long");
    let (name, prefix) = (hall_file.to_str().unwrap(), prefix.to_str().unwrap());
    let (code, out, err) = hall(
        &["explore", name, "--save", prefix, "--never", "b = 24"],
        "",
    );
    assert_eq!((code, err.as_str()), (1, ""), "{out}");
    for (what, choices) in [("end-1", 72), ("never-1", 72)] {
        let file = format!("{prefix}-{what}.choices");
        let saved = fs::read_to_string(&file).unwrap();
        assert_eq!(saved.matches("act ").count(), choices, "{saved}");
        let (code, out, err) = hall(&["run", name, &file, "--quiet"], "");
        assert_eq!((code, err.as_str()), (0, ""));
        assert!(out.contains("72 choices done"), "{out}");
    }
}

#[test]
fn a_question_holds_or_is_broken() {
    let (code, out, _) = explore(BALLOTS, &["--never", "counted > 1", "--never", "aside > 1"]);
    assert_eq!(code, 0, "{out}");
    assert!(out.contains("never counted > 1: holds\n"), "{out}");
    assert!(out.contains("never aside > 1: holds\n"), "{out}");
    let (code, out, _) = explore(BALLOTS, &["--ends", "counted = 1"]);
    assert_eq!(code, 1, "{out}");
    let broken = "at every end counted = 1: broken after 6 steps: screen 1, aside 1\n";
    assert!(out.contains(broken), "{out}");
    let (code, out, _) = explore(BALLOTS, &["--ends", "counted + aside = 1 and stations = 0"]);
    assert_eq!(code, 0, "{out}");
    assert!(out.contains("holds\n"), "{out}");
}

#[test]
fn wrong_calls() {
    for (options, words) in [
        (vec!["--never"], "--never wants something behind it"),
        (vec!["--memory", "0"], "--memory wants megabytes"),
        (vec!["--memory", "x"], "--memory wants megabytes"),
        (
            vec!["--memory", "99999999999999999999"],
            "--memory wants megabytes",
        ),
        (vec!["--seconds", "soon"], "--seconds wants a number"),
        (vec!["--seconds", "-1"], "--seconds wants a number"),
        (vec!["--seconds", "nan"], "--seconds wants a number"),
        (vec!["--seconds", "1e300"], "--seconds wants a number"),
        (vec!["--board"], "there is no option '--board'"),
        (
            vec!["--engine", "--groups", "--never", "a = 1"],
            "one of --groups and --engine",
        ),
        (
            vec!["--engine", "--dot", "x"],
            "--dot, --svg and --save are not for --engine",
        ),
    ] {
        let (code, out, err) = explore("tray a start put a\n", &options);
        assert_eq!((code, out.as_str()), (2, ""), "{options:?}");
        assert!(err.contains(words), "{err}");
    }
    let (code, _, err) = explore("tray a start put b\n", &[]);
    assert_eq!(code, 1);
    assert!(err.contains("no tray is called 'b'"), "{err}");
    let (code, out, _) = hall(&["explore", "--help"], "");
    assert_eq!(code, 0);
    assert!(
        out.lines().count() <= 24 && out.lines().all(|line| line.len() <= 80),
        "{out}"
    );
}

#[test]
fn a_picture() {
    let file = scratch("ballots.dot");
    let name = file.to_str().unwrap();
    let (code, _, err) = explore(BALLOTS, &["--dot", name]);
    assert_eq!((code, err.as_str()), (0, ""));
    let dot = fs::read_to_string(&file).unwrap();
    assert!(dot.starts_with("digraph hall {\n") && dot.ends_with("}\n"));
    assert_eq!(dot.matches(" -> ").count(), 39);
    assert_eq!(dot.matches("peripheries=2").count(), 2);
    let (code, _, err) = explore(philosophers(4), &["--dot", name]);
    assert_eq!(code, 3);
    assert!(err.contains("more than 400 situations"), "{err}");
}

/// A block that never acts takes none of its ways.
#[test]
fn ways_of_a_block_that_never_acts() {
    let text = "tray a\ntray b\nrule desk is block (take a, put b, end or else take b, end)\n\
        rule guest is take a then desk\n";
    for start in ["desk", "guest"] {
        let (_, out, _) = explore(format!("{text}start {start}\n"), &[]);
        let ways = "ways never taken: way 1 of desk (take a, put b); way 2 of desk (take b)\n";
        assert!(out.contains(ways), "{out}");
    }
}

/// The examples called `pattern-..` do what their words say, and what the error
/// messages advise does too.
#[test]
fn patterns_do_what_they_say() {
    let folder = PathBuf::from(env!("CARGO_MANIFEST_DIR")).join("examples");
    let pattern = |name: &str| fs::read_to_string(folder.join(name)).unwrap();
    // Nobody is left who could still put the first.
    let order = pattern("pattern-one-after-the-other.hall");
    let (code, out, _) = explore(&order, &["--never", "signed = 1 and stations > 0"]);
    assert_eq!(code, 0, "{out}");
    let (code, out, _) = explore(&order, &["--ends", "signed = 1"]);
    assert_eq!(code, 0, "{out}");
    let trays = "tray first tray second tray ready start ";
    let asked = ["--never", "second = 1 and stations > 0"];
    let (_, _, err) = hall(
        &["check", "-"],
        format!("{trays} put first then put second\n"),
    );
    let advice = err.lines().last().unwrap().trim_start_matches([' ', '=']);
    let (code, out, _) = explore(format!("{trays}{advice}\n"), &asked);
    assert_eq!(code, 0, "{advice}\n{out}");
    // Puts of one block are not ordered.
    for unordered in [
        "block (put first, put ready, end) beside (take ready then put second)",
        "put first beside block (take first, put first, put second, end)",
    ] {
        let (code, out, _) = explore(format!("{trays}{unordered}\n"), &asked);
        assert_eq!(code, 1, "{unordered}\n{out}");
    }
    // The second batch stays in its tray until somebody finishes.
    let busy = pattern("pattern-busy-until-done.hall");
    let (code, out, _) = explore(&busy, &["--never", "working > 1", "--ends", "done = 2"]);
    assert_eq!(code, 0, "{out}");
    // The free token may come down before the result.
    let (code, out, _) = explore(&busy, &["--never", "batch = 0 and done = 0"]);
    assert_eq!(code, 1, "{out}");
    let alone = busy.replace("start begin beside finish", "start begin");
    let alone = alone.split("ask ").next().unwrap();
    let (code, out, _) = explore(alone, &["--never", "batch = 0", "--ends", "batch = 1"]);
    assert_eq!(code, 0, "{out}");
}

#[test]
fn what_the_report_says() {
    let text = "tray a\ntray b has 1\ntray c\n\
        rule server is repeatedly take b then put b\n\
        rule lonely is take a then put c\n\
        rule stuck is block (take a, take a, put c, end or else take c, end)\n\
        rule quick is block (end or else take b, put c, end)\n\
        start server beside lonely beside stuck beside quick\n";
    let (code, out, _) = explore(text, &[]);
    assert_eq!(code, 0);
    for words in [
        "No end: whatever happens, something can always follow.",
        "trays: a always 0, b 0 to 1, c always 0\n",
        "stations that never act: lonely, stuck\n",
        "stations that never stand in the hall: lonely (at 'put c') / quick's put c / stuck's put c\n",
        "ways never taken: way 1 of stuck (take a, take a, put c); way 2 of stuck (take c); way 2 of\n",
        "                  quick (take b, put c)\n",
        "runs that go on for ever: yes, even without a commit; the last 2 choices can be made",
        "limits of the engine met: none\n",
    ] {
        assert!(out.contains(words), "{words}\n{out}");
    }
    let (_, out, _) = explore(
        "tray a\nrule two is block (take a, end or else retry)\nrule one is block (retry)\n\
         start two beside one\n",
        &[],
    );
    for words in [
        "     two tries for ever: in way 1 a is short by 1; way 2 gives up by itself\n",
        "     one tries for ever: its way gives up by itself\n",
    ] {
        assert!(out.contains(words), "{words}\n{out}");
    }
    let (_, out, _) = explore(
        "tray a has 1\ntray b\nrule stuck is block (take a, take a, put b, end or else take b, end)\n\
         rule other is take b then nothing\nrule next is repeatedly take b then nothing\n\
         start 2 of stuck beside other beside next\n",
        &[],
    );
    for words in [
        "1 end, of 1 sort by what the trays have:\n  1  a 1 at the opening\n",
        "     stuck 1, stuck 2: each tries for ever: in way 1 a is short by 1; in way 2 b is short by 1\n",
        "     other waits for b\n     next is ready for the next b\n",
        "runs that go on for ever: none\n",
    ] {
        assert!(out.contains(words), "{words}\n{out}");
    }
}

#[test]
fn runs_for_ever_with_commits_alone() {
    let text = "tray a has 1\ntray again has 1\n\
        rule turn is repeatedly take again then block (take a, put a, put again, end)\n\
        start turn\n";
    let (_, out, _) = explore(text, &[]);
    let words = "runs that go on for ever: yes, but not without a commit; the last";
    assert!(out.contains(words), "{out}");
    assert_eq!(all_replay(text, &out), 1);
}

#[test]
fn limits_at_an_end() {
    let text =
        "tray a has 255\ntray b has 1\ntray c\nrule two is take b then (put c beside put c)\n\
        rule many is block (take b, put c, put c, put c, end)\n\
        start put a beside two beside many beside 61 of (take c then nothing)\n";
    let (code, out, _) = explore(text, &[]);
    assert_eq!(code, 0);
    for words in [
        "put a cannot put: a has 255, the most there can be (20)",
        "two could take b, but what follows has no room among 64 stations (19)",
        "many could commit, but what it puts has no room among 64 stations (19)",
        "exact: yes (the limit of 64 stations was met, and no block has two ways)",
        "limit met: 19, more than 64 stations",
        "limit met: 20, more than 255 tokens",
    ] {
        assert!(
            out.replace("\n     ", " ").contains(words),
            "{words}\n{out}"
        );
    }
}

#[test]
fn json_is_one_object_of_ascii() {
    let (_, out, _) = explore(
        leader(),
        &["--json", "--never", "win > 1", "--ends", "win = 1"],
    );
    assert_eq!(out.matches('\n').count(), 1);
    assert!(out.is_ascii() && out.starts_with('{') && out.ends_with("}\n"));
    let mut depth = 0;
    let mut quoted = false;
    let mut escaped = false;
    for letter in out.chars() {
        match letter {
            _ if escaped => escaped = false,
            '\\' if quoted => escaped = true,
            '"' => quoted = !quoted,
            '{' | '[' if !quoted => depth += 1,
            '}' | ']' if !quoted => depth -= 1,
            _ => {}
        }
        assert!(depth > 0 || matches!(letter, '}' | '\n'));
    }
    assert_eq!((depth, quoted), (0, false));
    assert_eq!(out.matches("\"verdict\": \"broken\"").count(), 2);
}
