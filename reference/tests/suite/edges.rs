//! The list of edges that the proved program runs: its expected output is what
//! this implementation prints, and each name says what comes out.

use std::fs;
use std::path::Path;

use reference::edges::{lines, printed, Line};
use reference::run::Tally;

fn file(name: &str) -> String {
    let folder = Path::new(env!("CARGO_MANIFEST_DIR")).join("../crates/program_edges");
    fs::read_to_string(folder.join(name)).expect("a file of the list")
}

/// The numbers of a line that begins with this letter.
fn numbers(text: &str, letter: &str) -> Option<Vec<usize>> {
    let line = text.lines().find_map(|line| line.strip_prefix(letter))?;
    let number = |word: &str| word.parse().expect("a number");
    Some(line.split_whitespace().map(number).collect())
}

/// The numbers that follow these words in a name, `at` and `node` between them
/// or not.
fn said(name: &str, words: &str) -> Option<Vec<usize>> {
    let rest = name.rsplit_once(words)?.1;
    let between = |word: &&str| *word == "at" || *word == "node";
    let words = rest.split_whitespace().filter(|word| !between(word));
    let number = |word: &str| word.trim_end_matches(',').parse().ok();
    Some(words.map_while(number).collect())
}

/// What an edge claims by its name and what it gives: the refusal with its
/// place, the rule of the first choice and what was short, the tally of the
/// run, and what is suggested for the hall that the run left.
struct Edge {
    name: String,
    stored: bool,
    text: String,
}

fn edges() -> Vec<Edge> {
    let mut found = Vec::new();
    for line in lines(&file("stdin")) {
        let text = printed(&line);
        let (name, stored) = match line {
            Line::Heading(_) => continue,
            Line::Input { name, .. } => (name, false),
            Line::Stored { name, .. } => (name, true),
        };
        let text = text[name.len() + 1..].to_string();
        found.push(Edge { name, stored, text });
    }
    found
}

/// Whether an edge gives what its name says.
fn as_said(edge: &Edge) -> bool {
    if edge.name.ends_with("is long") {
        return edge.text == "long\n";
    }
    let Some(run) = numbers(&edge.text, "R ") else {
        return false;
    };
    let refused = match said(&edge.name, "refused ") {
        Some(refusal) => run[..2] == refusal,
        None => run[0] == 0,
    };
    let by_rule = match said(&edge.name, "by rule ") {
        Some(rule) => numbers(&edge.text, "M ").is_some_and(|step| step[2..3] == rule),
        None => true,
    };
    let tally = match said(&edge.name, "tally ") {
        Some(tally) => numbers(&edge.text, "C ") == Some(tally),
        None => true,
    };
    refused && by_rule && tally && shortage_as_said(edge) && suggestion_as_said(edge)
}

/// Whether the line on the first choice tells what the name says was short.
/// Every call on a stored hall has that line, and no printed run has it. Beside
/// rules 6 and 9 something is short, by more than 0, and beside nothing else.
fn shortage_as_said(edge: &Edge) -> bool {
    let expected = shortage_said(&edge.name);
    if expected.is_none() && edge.name.contains("short by") {
        // Words that nothing could be held to.
        return false;
    }
    let Some(line) = numbers(&edge.text, "M ") else {
        return !edge.stored && expected.is_none();
    };
    let &[_, _, rule, tray, by] = &line[..] else {
        return false;
    };
    let fits_its_rule = if [6, 9].contains(&rule) {
        tray <= 15 && by > 0
    } else {
        (tray, by) == (0, 0)
    };
    let as_expected = match expected {
        Some(short) => short == (tray, by),
        None => true,
    };
    fits_its_rule && as_expected
}

/// What was short by the words of a name: the tray, and by how many.
fn shortage_said(name: &str) -> Option<(usize, usize)> {
    if name.ends_with("none is named") {
        return Some((0, 0));
    }
    let tray = said(name, "tray ")?;
    let by = said(name, "short by ")?;
    match (&tray[..], &by[..]) {
        (&[tray], &[by]) => Some((tray, by)),
        _ => None,
    }
}

/// Whether the line on a suggestion is what the name says. Every call on a
/// stored hall has that line, and no printed run has it.
fn suggestion_as_said(edge: &Edge) -> bool {
    let expected = suggestion_said(&edge.name);
    if expected.is_none() && edge.name.contains("suggest") {
        // Words that nothing could be held to.
        return false;
    }
    let Some(line) = numbers(&edge.text, "S ") else {
        return !edge.stored && expected.is_none();
    };
    if line.len() != 5 {
        return false;
    }
    let refusal = match said(&edge.name, "refused ") {
        // What is refused for its table or its hall suggests nothing either.
        Some(refusal) if refusal.first() <= Some(&11) => refusal,
        _ => vec![0, 0],
    };
    let as_expected = match expected {
        Some(choice) => line[2..] == choice,
        None => true,
    };
    let nothing_if_refused = line[0] == 0 || line[2..] == [0, 0, 0];
    line[..2] == refusal && nothing_if_refused && as_expected
}

/// What is suggested by the words of a name: kind, position and node. All are 0
/// for a hall that is still; kind 1 has no node, and its name says none.
fn suggestion_said(name: &str) -> Option<Vec<usize>> {
    if name.contains("is still") || name.contains("nothing is suggested") {
        return Some(vec![0, 0, 0]);
    }
    let mut choice = said(name, "suggested, kind ")?;
    if choice.first() == Some(&1) {
        choice.push(0);
    }
    Some(choice)
}

#[test]
fn the_expected_output_is_what_is_printed_now() {
    let printed: String = lines(&file("stdin")).iter().map(printed).collect();
    // Not assert_eq: the texts would fill many screens.
    assert!(
        printed == file("stdout"),
        "crates/program_edges/stdout is to be made again"
    );
}

#[test]
fn each_edge_gives_what_its_name_says() {
    let edges = edges();
    assert!(edges.len() >= 316, "{}", edges.len());
    for edge in &edges {
        assert!(as_said(edge), "{}:\n{}", edge.name, edge.text);
    }
}

#[test]
fn every_refusal_and_every_rule_is_there() {
    let edges = edges();
    let mut refusals = [0; 21];
    let mut rules = [0; 14];
    for edge in &edges {
        if let Some(run) = numbers(&edge.text, "R ") {
            refusals[run[0]] += 1;
        }
        if edge.stored {
            rules[numbers(&edge.text, "M ").expect("a step")[2]] += 1;
        }
    }
    assert!(refusals.iter().all(|times| *times > 0), "{refusals:?}");
    assert!(rules.iter().all(|times| *times > 0), "{rules:?}");
}

/// Names say a suggestion of either kind, of nodes above 0, of positions above
/// 0, and that there is none.
#[test]
fn every_sort_of_suggestion_is_named() {
    let edges = edges();
    let named: Vec<Vec<usize>> = edges
        .iter()
        .filter_map(|edge| suggestion_said(&edge.name))
        .collect();
    let times = |sort: fn(&[usize]) -> bool| named.iter().filter(|choice| sort(choice)).count();
    assert!(times(|choice| choice[0] == 0) >= 3, "{named:?}");
    assert!(times(|choice| choice[0] == 1) >= 3, "{named:?}");
    assert!(times(|choice| choice[0] == 2) >= 3, "{named:?}");
    assert!(times(|choice| choice[1] > 0) >= 2, "{named:?}");
    assert!(times(|choice| choice[2] > 0) >= 2, "{named:?}");
}

/// Names say that a commit lacks the lowest and the highest tray, and a read the
/// highest, by one and by as many as a log can read; and that nothing is short.
#[test]
fn every_sort_of_shortage_is_named() {
    let named: Vec<(usize, usize, usize)> = edges()
        .iter()
        .filter_map(|edge| {
            let (tray, by) = shortage_said(&edge.name)?;
            let step = numbers(&edge.text, "M ").expect("a step");
            Some((step[2], tray, by))
        })
        .collect();
    for expected in [
        (6, 0, 1),
        (6, 0, 16),
        (6, 15, 1),
        (6, 15, 16),
        (9, 3, 1),
        (9, 15, 1),
        (9, 15, 2),
        (9, 15, 16),
        (0, 0, 0),
    ] {
        assert!(named.contains(&expected), "{expected:?}");
    }
    for rule in [4, 5, 7, 8, 10, 11, 12, 13] {
        assert!(named.contains(&(rule, 0, 0)), "{rule}");
    }
}

/// Whether an edge is noticed to give something else than its name says.
fn wrong(name: &str, text: &str, stored: bool) -> bool {
    let (name, text) = (name.to_string(), text.to_string());
    !as_said(&Edge { name, stored, text })
}

#[test]
fn a_wrong_name_is_noticed() {
    assert!(wrong("refused 4 at 1", "R 4 0 0\n", false));
    assert!(wrong("refused 4 at 1", "R 5 1 0\n", false));
    assert!(!wrong("refused 4 at 1", "R 4 1 0\n", false));
    assert!(wrong("accepted", "R 4 1 0\n", false));
    assert!(wrong("this is long", "R 0 0 0\n", false));
    let stored = |name: &str, text: &str| wrong(name, &format!("{text}S 0 0 1 0 0\n"), true);
    assert!(stored("by rule 3", "M 0 2 2 0 0\nR 0 2 1\n"));
    assert!(wrong("by rule 3", "R 0 2 1\n", false));
    assert!(!stored("by rule 3", "M 0 2 3 0 0\nR 0 2 1\n"));
    let step = "M 0 2 3 0 0\n";
    assert!(stored("tally 1 0 2", &format!("{step}R 0 2 1\nC 1 0 3\n")));
    assert!(stored("tally 1 0 2", &format!("{step}R 0 2 1\n")));
    assert!(!stored("tally 1 0 2", &format!("{step}R 0 2 1\nC 1 0 2\n")));
}

#[test]
fn a_wrong_name_of_a_shortage_is_noticed() {
    let stored =
        |name: &str, step: &str| wrong(name, &format!("{step}R 0 2 1\nS 0 0 1 0 0\n"), true);
    let short = "a tray lacks, by rule 6, tray 3 short by 2";
    assert!(!stored(short, "M 0 2 6 3 2\n"));
    for other in [
        "M 0 2 6 3 1\n",
        "M 0 2 6 2 2\n",
        "M 0 2 6 2 3\n",
        "M 0 2 9 3 2\n",
        "M 0 2 6 0 0\n",
        "M 0 2 6\n",
        "M 0 2 6 3\n",
        "M 0 2 6 3 2 0\n",
        "",
    ] {
        assert!(stored(short, other), "{other}");
    }
    let none = "a tray has enough, by rule 7, none is named";
    assert!(!stored(none, "M 0 2 7 0 0\n"));
    assert!(stored(none, "M 0 2 7 0 1\n"));
    assert!(stored(none, "M 0 2 7\n"));
    assert!(stored(none, ""));
    // The name lacks a tray or how many.
    assert!(stored("it is short by 2", "M 0 2 6 3 2\n"));
    assert!(stored("tray 3 short by some", "M 0 2 6 3 2\n"));
    // Whatever the name says, something is short beside 6 and 9 alone.
    for rule in 1..=13 {
        let fails = [6, 9].contains(&rule);
        assert_eq!(stored("moved", &format!("M 0 2 {rule} 0 1\n")), !fails);
        assert_eq!(stored("moved", &format!("M 0 2 {rule} 0 0\n")), fails);
        assert!(stored("moved", &format!("M 0 2 {rule} 3 0\n")));
        assert!(stored("moved", &format!("M 0 2 {rule} 16 1\n")));
    }
    // A printed run has no such line.
    assert!(wrong(none, "R 0 0 0\n", false));
    assert!(wrong(short, "R 0 0 0\n", false));
}

#[test]
fn a_wrong_name_of_a_suggestion_is_noticed() {
    let stored = |name: &str, suggestion: &str| {
        let text = match said(name, "refused ") {
            Some(refusal) => format!("R {} {} 0\n{suggestion}", refusal[0], refusal[1]),
            None => format!("R 0 0 0\n{suggestion}"),
        };
        wrong(name, &format!("M 0 2 1 0 0\n{text}"), true)
    };
    let first = "the first is suggested, kind 1 at 3";
    assert!(!stored(first, "S 0 0 1 3 0\n"));
    for other in [
        "S 0 0 1 2 0\n",
        "S 0 0 2 3 0\n",
        "S 0 0 1 3 1\n",
        "S 0 0 0 0 0\n",
        "S 11 0 1 3 0\n",
        "S 0 1 1 3 0\n",
        "S 0 0 1 3\n",
        "S 0 0 1 3 0 0\n",
        "S 1\n",
        "",
    ] {
        assert!(stored(first, other), "{other}");
    }
    let lower = "the lower node is suggested, kind 2 at 3, node 1";
    assert!(!stored(lower, "S 0 0 2 3 1\n"));
    assert!(stored(lower, "S 0 0 2 3 2\n"));
    assert!(stored(lower, "S 0 0 2 1 3\n"));
    assert!(stored(lower, "S 0 0 1 3 1\n"));
    // The name lacks the node, or gives one to kind 1, or says nothing clear.
    assert!(stored("it is suggested, kind 2 at 3", "S 0 0 2 3 0\n"));
    assert!(stored(
        "it is suggested, kind 1 at 3, node 0",
        "S 0 0 1 3 0\n"
    ));
    assert!(stored("the first is suggested", "S 0 0 1 0 0\n"));
    for still in ["the hall is still", "is still, refused 19 at 0"] {
        assert!(!stored(still, "S 0 0 0 0 0\n"));
        assert!(stored(still, "S 0 0 1 0 0\n"));
        assert!(stored(still, "S 19 0 0 0 0\n"));
        assert!(stored(still, "S 0\n"));
        assert!(stored(still, ""));
    }
    for refused in ["refused 9 at 3", "nothing is suggested, refused 9 at 3"] {
        assert!(!stored(refused, "S 9 3 0 0 0\n"));
        assert!(stored(refused, "S 9 0 0 0 0\n"));
        assert!(stored(refused, "S 0 0 0 0 0\n"));
        assert!(stored(refused, "S 9 3 1 0 0\n"));
        assert!(stored(refused, "S 0 9 3\n"));
        assert!(stored(refused, ""));
    }
    // Whatever is suggested, the line is there and has its form.
    assert!(!stored("refused 14 at 0", "S 0 0 2 0 1\n"));
    assert!(stored("refused 14 at 0", "S 14 0 0 0 0\n"));
    assert!(stored("accepted", "S 0\n"));
    // A printed run has no such line.
    assert!(wrong("the hall is still", "R 0 0 0\n", false));
    assert!(wrong(first, "R 0 0 0\n", false));
}

/// The line on a suggestion: refused tables and halls, a hall that is still,
/// both kinds. It is about the hall that the run left.
#[test]
fn the_line_on_a_suggestion() {
    let table = "7 10 1 0 10 0 1 11 2 1 6 3 1 3 0 5 13 4";
    let fork = "21 4 16x0 22 23 2 17x0 23 1 17x0";
    for (parts, expected) in [
        ("1 13 0 1 / 11344x0 /".to_string(), "S 9 3 0 0 0"),
        (format!("{table} / 11343x0 /"), "S 10 0 0 0 0"),
        (format!("{table} / 16x0 24 0 99 11325x0 /"), "S 11 0 0 0 0"),
        (format!("{table} / 16x0 20 6 11326x0 /"), "S 0 0 0 0 0"),
        (format!("{table} / 16x0 20 6 20 4 11324x0 /"), "S 0 0 1 1 0"),
        (
            format!("{table} / 16x0 2x20,6 {fork} 11267x0 /"),
            "S 0 0 2 2 1",
        ),
        (format!("{table} / 16x0 20 6 24 0 11324x0 /"), "S 0 0 1 1 0"),
        (
            format!("{table} / 16x0 20 6 24 0 11324x0 / 1 1"),
            "S 0 0 1 0 0",
        ),
        (
            format!("{table} / 16x0 20 6 24 0 11324x0 / 1 1 1 0"),
            "S 0 0 0 0 0",
        ),
    ] {
        let list = format!("a name: {parts}\n");
        let text = printed(&lines(&list)[0]);
        assert_eq!(text.lines().last(), Some(expected), "{parts}");
    }
}

/// The line on the first choice alone: commits and reads that fail, what finds
/// nothing short, refusals, and a byte that is missing.
#[test]
fn the_line_on_the_first_choice() {
    let table = "7 9 5 0 6 1 1 3 0 3 13 2";
    let end = "21 2 16x0 23 0 3 5 2 2 13x0";
    let read = "21 2 2x0 2 13x0 23 1 3 5 2 2 13x0";
    for (parts, expected) in [
        (format!("{table} / 16x0 {end} 11291x0 / 1 0"), "M 0 2 6 2 2"),
        (
            format!("{table} / 2x0 1 13x0 {end} 11291x0 / 1 0 9"),
            "M 0 2 6 2 1",
        ),
        (
            format!("{table} / 2x0 2 13x0 {end} 11291x0 / 1 0"),
            "M 0 2 6 5 1",
        ),
        (
            format!("{table} / 2x0 2 2x0 1 10x0 {end} 11291x0 / 1"),
            "M 0 2 7 0 0",
        ),
        (
            format!("{table} / 16x9 {read} 11291x0 / 2 0 0"),
            "M 0 3 9 5 2",
        ),
        (format!("{table} / 16x0 {read} 11291x0 / 2"), "M 0 3 9 5 2"),
        (
            format!("{table} / 16x0 {read} 11291x0 / 1 0"),
            "M 15 0 0 0 0",
        ),
        (format!("{table} / 16x0 20 4 11326x0 / 1 0"), "M 18 0 0 0 0"),
        (
            format!("{table} / 16x0 {end} 11290x0 / 1 0"),
            "M 10 0 0 0 0",
        ),
        (format!("{table} / 16x0 20 2 11326x0 / 1 0"), "M 0 2 4 0 0"),
        (
            format!("{table} 9 / 16x0 {end} 11291x0 / 1 0"),
            "M 9 12 0 0 0",
        ),
    ] {
        let list = format!("a name: {parts}\n");
        let text = printed(&lines(&list)[0]);
        assert_eq!(text.lines().nth(3), Some(expected), "{parts}");
    }
}

/// Both forms of a word.
#[test]
fn bytes_of_a_line() {
    let all = lines(
        "a heading\nname: 1 3x2 2x0,255 13\nstored: 1 13 0/2x0/\nstored: 1/2/3/3x0 7 1 7x0\n",
    );
    assert_eq!(all[0], Line::Heading("a heading".to_string()));
    let input = vec![1, 2, 2, 2, 0, 255, 0, 255, 13];
    let name = "name".to_string();
    assert_eq!(all[1], Line::Input { name, input });
    let stored = Line::Stored {
        name: "stored".to_string(),
        table: vec![1, 13, 0],
        hall: vec![0, 0],
        choices: vec![],
        first: Tally::FRESH,
    };
    assert_eq!(all[2], stored);
    let stored = Line::Stored {
        name: "stored".to_string(),
        table: vec![1],
        hall: vec![2],
        choices: vec![3],
        first: Tally {
            commits: 7,
            failed: 1 << 24,
            retries: 0,
        },
    };
    assert_eq!(all[3], stored);
}
