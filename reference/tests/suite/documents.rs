//! The examples of the documents. A block marked `run` holds the bytes of an input and, below them, what is printed; one
//! marked `call` holds a table, a stored hall and choices, and what the calls on them answer; one marked `say` holds a
//! choice and its answer, and the sentence for them.

use std::path::Path;

use reference::edges::{lines, printed};
use reference::sentence::{sentence, Reply};
use reference::shortage::Shortage;

/// The text of a document.
fn text(document: &str) -> String {
    let path = Path::new(env!("CARGO_MANIFEST_DIR"))
        .join("..")
        .join(document);
    std::fs::read_to_string(&path).expect("the document can be read")
}

/// The blocks of a document with this mark, each as its lines.
fn blocks(document: &str, mark: &str) -> Vec<Vec<String>> {
    let text = text(document);
    let first = format!("```{mark}");
    let mut found = Vec::new();
    let mut open: Option<Vec<String>> = None;
    for line in text.lines() {
        match (&mut open, line) {
            (None, line) if line == first => open = Some(Vec::new()),
            (Some(_), "```") => found.extend(open.take()),
            (Some(lines), _) => lines.push(line.to_string()),
            (None, _) => {}
        }
    }
    found
}

/// Whether what is printed is what the block says. A last line `...` stands for any further lines.
fn agrees(block: &[String]) -> bool {
    let example = lines(&format!("example:{}\n", block[0]));
    let printed = printed(&example[0]);
    let printed: Vec<&str> = printed.lines().skip(1).collect();
    match block[1..].split_last() {
        Some((last, said)) if last == "..." => {
            printed.len() > said.len() && printed[..said.len()] == *said
        }
        _ => printed == block[1..],
    }
}

/// The sentence that the first line of a block asks for: kind, position, node, answer and its number; where something was
/// short, its tray and by how many behind them. Nothing where the line has another form.
fn asked(line: &str) -> Option<String> {
    let words: Vec<&str> = line.split(' ').collect();
    let ([kind, position, node, answer, number], short) = match words[..] {
        [kind, position, node, answer, number] => ([kind, position, node, answer, number], None),
        [kind, position, node, answer, number, tray, by] => {
            let (tray, by) = (tray.parse().ok()?, by.parse().ok()?);
            let short = Some(Shortage { tray, by });
            ([kind, position, node, answer, number], short)
        }
        _ => return None,
    };
    let number = number.parse().ok()?;
    let reply = match (answer, short) {
        ("moved", short) => Reply::Moved {
            rule: number,
            short,
        },
        ("refused", None) => Reply::Refused(number),
        _ => return None,
    };
    let (kind, position, node) = (
        kind.parse().ok()?,
        position.parse().ok()?,
        node.parse().ok()?,
    );
    Some(sentence(kind, position, node, reply))
}

/// Whether the sentence is what the block says, and it says no more.
fn says(block: &[String]) -> bool {
    match block {
        [line, said] => asked(line).as_ref() == Some(said),
        _ => false,
    }
}

#[test]
fn examples_of_the_byte_forms() {
    let runs = blocks("docs/FORMAT.md", "run");
    assert_eq!(runs.len(), 36, "for each rule and for most refusals");
    let calls = blocks("docs/FORMAT.md", "call");
    assert_eq!(calls.len(), 3, "for the refusals that no run shows");
    for block in runs.iter().chain(&calls) {
        assert!(agrees(block), "{block:?}");
    }
    let sentences = blocks("docs/FORMAT.md", "say");
    assert_eq!(
        sentences.len(),
        5,
        "a rule, a shortage, a refusal, a number alone, the longest"
    );
    for block in &sentences {
        assert!(says(block), "{block:?}");
    }
}

/// The numbers and their words in a table's rows, the numbers in the cell with this index and the words in the next.
fn column<'a>(rows: &[&'a str], index: usize) -> Vec<(u8, &'a str)> {
    let numbered = |row: &&'a str| {
        let cells: Vec<&str> = row.split('|').map(str::trim).collect();
        Some((cells[index].parse().ok()?, cells[index + 1]))
    };
    rows.iter().filter_map(numbered).collect()
}

/// The table of words: rules, the first refusals and the others stand beside each other.
#[test]
fn words_of_the_byte_forms() {
    let text = text("docs/FORMAT.md");
    let (_, table) = text
        .split_once("| rule | words | | refusal | words | | refusal | words |\n")
        .expect("the table of words");
    let rows: Vec<&str> = table.lines().take_while(|row| !row.is_empty()).collect();
    let rules = column(&rows, 1);
    let refusals = [column(&rows, 4), column(&rows, 7)].concat();
    assert!(rules.iter().map(|(number, _)| *number).eq(1..=13));
    assert!(refusals.iter().map(|(number, _)| *number).eq(1..=20));
    for (rule, words) in rules {
        let expected = format!("Kind 1 at station 0 moved by rule {rule}, {words}.");
        let reply = Reply::Moved { rule, short: None };
        assert_eq!(sentence(1, 0, 0, reply), expected);
    }
    for (number, words) in refusals {
        let expected = format!("Kind 1 at station 0 met refusal {number}, {words}.");
        assert_eq!(sentence(1, 0, 0, Reply::Refused(number)), expected);
    }
}

#[test]
fn a_wrong_example_is_noticed() {
    let agrees: fn(&[String]) -> bool = agrees;
    for (mark, right) in [("run", agrees), ("call", agrees), ("say", says)] {
        let mut block = blocks("docs/FORMAT.md", mark).remove(0);
        assert!(right(&block));
        block[1].push('0');
        assert!(!right(&block));
    }
}

#[test]
fn a_sentence_for_something_else_is_noticed() {
    let said = "Kind 2 at station 3, node 14 met refusal 17, no move at this node.";
    let block = |line: &str| [line.to_string(), said.to_string()];
    assert!(says(&block("2 3 14 refused 17")));
    for line in [
        "3 3 14 refused 17",
        "1 3 14 refused 17",
        "2 0 14 refused 17",
        "2 3 15 refused 17",
        "2 3 14 moved 17",
        "2 3 14 refused 16",
        "2 3 14 refused 273", // 17, were it cut down to a byte
        "2 3 14 failed 17",
        "2 3 14 17",
        "2 3 14 refused 17 0",
        "2 3 14 refused 17 0 0", // a refusal finds nothing short
    ] {
        assert!(!says(&block(line)), "{line}");
    }
    let said = "Kind 1 at station 0 moved by rule 6, commit failed, tray 3 short by 1.";
    let short = |line: &str| [line.to_string(), said.to_string()];
    assert!(says(&short("1 0 7 moved 6 3 1")));
    for line in [
        "1 0 7 moved 6",
        "1 0 7 moved 6 3",
        "1 0 7 moved 6 1 3",
        "1 0 7 moved 6 3 2",
        "1 0 7 moved 6 3 257", // 1, were it cut down to a byte
        "1 0 7 moved 6 3 1 0",
        "1 0 7 moved 9 3 1",
        "1 0 7 refused 6 3 1",
    ] {
        assert!(!says(&short(line)), "{line}");
    }
    // A line is missing, or left over.
    assert!(!says(&block("2 3 14 refused 17")[..1]));
    assert!(!says(
        &[&block("2 3 14 refused 17")[..], &[String::new()]].concat()
    ));
}
