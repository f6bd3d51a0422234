//! Every sentence of the sources is in an output that is compared to the byte:
//! a message that nobody has looked at does not stay unseen. Looked for is each
//! piece between two gaps of a sentence, from eight letters on; where two
//! messages share a piece, one output is enough for both.

use std::fs;
use std::path::{Path, PathBuf};

use crate::common::{files, package};
use crate::consoles::fenced;

/// Said, with exit 70, where the program is at odds with itself. No input leads
/// there; tests/explore/contradictions.rs makes some of them come about.
const AT_ODDS: [&str; 31] = [
    "'{words}' was not made: {unmade:?}",
    "a hall of the engine has a station of no table",
    "a question cannot be read again",
    "a run of the choices ends in another way",
    "a run of the choices leads to another hall",
    "an accepted table cannot be read",
    "an accepted table opens no hall",
    "an accepted table opens no hall that can be read",
    "code {code} makes no such step",
    "by its own steps the engine comes to the situation {situation:?}, to which the rules do not \
     lead",
    "by its own steps the engine never leaves what it leaves by the rules",
    "by its own steps the engine comes to {} and {}, by the rules there are {} and {}; rounds that \
     are never left are {}",
    "names and stations do not fit together",
    "no station can make {step:?}",
    "no station of code {code} stands",
    "refusal {number} was foretold, and the engine answered {other:?}",
    "rule {rule} was foretold, and the engine moved by {}",
    "the engine refused what the text cannot say",
    "the engine refuses a hall of its own: {refusal}",
    "the engine refuses its own hall",
    "the engine refuses what it has done before",
    "the engine took bytes for choices that are none",
    "the hall does not open: {unmade:?}",
    "the situation {foretold:?} was foretold, and the engine came to {situation:?}",
    "the table cannot be read back",
    "the table is not what the text says",
    "the table of a group is another one",
    "the table of a group is not accepted",
    "the text does not build its table again",
    "the turns of an opening lay down other stations than its hall has",
    "two situations that no step joins",
];

/// Compared whole by a test in code, since it takes a terminal, a full disk, a
/// name in other letters or a certain moment: the sentence and the test.
const IN_CODE: [(&str, &str); 19] = [
    (
        "build: bytes do not belong on a terminal: add -o FILE",
        "tests/suite/commands.rs",
    ),
    (
        "'{shown}' is not written in UTF-8: give the file another name, or hand it over as \
         standard input, which is called -",
        "tests/suite/commands.rs",
    ),
    ("hall: cannot write: {error} ", "tests/suite/commands.rs"),
    ("cannot read: {error}", "tests/suite/commands.rs"),
    (
        "{}: {}, found among {among}; the search goes on",
        "tests/suite/signals.rs",
    ),
    (
        "{} shows the fault; the search goes on",
        "tests/suite/signals.rs",
    ),
    ("a signal", "tests/suite/signals.rs"),
    ("a signal asked for an end", "tests/suite/signals.rs"),
    ("{} is closed", "tests/suite/commands.rs"),
    ("standard error", "tests/suite/commands.rs"),
    (
        " and {more} more at least: the telling was cut short by {}",
        "tests/explore/doubts.rs",
    ),
    (
        "hall: this program is at odds with itself: {words}. Nothing it printed counts. ",
        "src/commands/mod.rs",
    ),
    (
        "Tried: {tried}, {sizes} among them, then {why}.",
        "src/commands/explore/by_groups.rs",
    ),
    (
        "No group was seen to show the fault, and not all is known.",
        "tests/explore/grouped.rs",
    ),
    (
        "Smaller groups were cut short; the smallest that was seen to show the fault has",
        "tests/explore/grouped.rs",
    ),
    (
        "{} situations, {} still to go on from, {} s",
        "src/commands/explore/progress.rs",
    ),
    (
        "Whether there are rounds that are never left is not known.",
        "tests/explore/doubts.rs",
    ),
    (
        "whether without a commit is not known",
        "tests/explore/doubts.rs",
    ),
    (
        "the limit of 64 stations was met, and exploring with notes was cut short by {}",
        "tests/explore/doubts.rs",
    ),
];

#[test]
fn every_sentence_of_the_sources_is_there() {
    let said = all_that_is_compared();
    let mut excepted: Vec<&str> = AT_ODDS.to_vec();
    excepted.extend(IN_CODE.iter().map(|(sentence, _)| *sentence));
    let mut met = vec![false; excepted.len()];
    let mut looked_at = 0;
    let mut missing = Vec::new();
    for source in sources(&package().join("src")) {
        for sentence in sentences(&source) {
            looked_at += pieces(&sentence).len();
            if pieces(&sentence).iter().all(|piece| said.contains(piece)) {
                continue;
            }
            match excepted.iter().position(|it| *it == sentence) {
                Some(at) => met[at] = true,
                None => missing.push(format!("{}: {sentence}", source.display())),
            }
        }
    }
    assert!(missing.is_empty(), "no output has {missing:#?}");
    assert!(looked_at > 450, "only {looked_at} pieces were looked for");
    for (sentence, met) in excepted.iter().zip(met) {
        assert!(met, "'{sentence}' is no exception");
    }
}

/// What is said to be compared in code is there.
#[test]
fn sentences_compared_in_code() {
    for (sentence, test) in IN_CODE {
        let source = fs::read_to_string(package().join(test)).unwrap();
        let tests = match test.strip_prefix("src/") {
            Some(_) => source.split_once("#[cfg(test)]").expect("tests").1,
            None => &source,
        };
        let tests = plain(&tests.replace("\\\n", "\n").replace("\\n", " "));
        for piece in pieces(sentence) {
            assert!(tests.contains(&piece), "{test} has no '{piece}'");
        }
    }
}

/// Everything that a test compares with what is printed, from files.
fn all_that_is_compared() -> String {
    let mut said = String::new();
    let kept = [
        ("errors", "stderr"),
        ("told", "out"),
        ("screens", "out"),
        ("screens", "svg"),
    ];
    for (folder, ending) in kept {
        for file in files(&package().join("tests").join(folder), ending) {
            said.push_str(&fs::read_to_string(file).unwrap());
        }
    }
    let mut documents = files(&package().join("tests/calls"), "md");
    documents.push(package().join("../docs/WORKBENCH.md"));
    for document in documents {
        for piece in fenced(&fs::read_to_string(document).unwrap()) {
            if piece.kind == "console" || piece.kind.starts_with("written ") {
                said.push_str(&piece.lines.join("\n"));
                said.push('\n');
            }
        }
    }
    plain(&said)
}

fn sources(folder: &Path) -> Vec<PathBuf> {
    let mut sources = files(folder, "rs");
    for entry in fs::read_dir(folder).unwrap() {
        let path = entry.unwrap().path();
        if path.is_dir() {
            sources.extend(self::sources(&path));
        }
    }
    sources.sort();
    sources
}

/// Line ends and runs of spaces are one space: long sentences are broken into
/// lines in print and in the sources.
fn plain(words: &str) -> String {
    let mut plain = String::new();
    for character in words.chars() {
        let character = if character.is_whitespace() {
            ' '
        } else {
            character
        };
        if character != ' ' || !plain.ends_with(' ') {
            plain.push(character);
        }
    }
    plain
}

/// The string literals of a source that are sentences: those with a space, and
/// not in comments or tests.
fn sentences(source: &Path) -> Vec<String> {
    let text = fs::read_to_string(source).expect("a source");
    let code = text.split("#[cfg(test)]").next().unwrap_or("");
    let mut sentences = Vec::new();
    let mut characters = code.chars().peekable();
    let mut before = ' ';
    while let Some(character) = characters.next() {
        match character {
            '/' if characters.peek() == Some(&'/') => {
                for skipped in characters.by_ref() {
                    if skipped == '\n' {
                        break;
                    }
                }
            }
            // The sign alone, as '"', begins nothing.
            '"' if before != '\'' => {
                let literal = literal(&mut characters);
                if literal.trim().contains(' ') {
                    sentences.push(plain(&literal));
                }
            }
            _ => {}
        }
        before = character;
    }
    sentences
}

fn literal(characters: &mut impl Iterator<Item = char>) -> String {
    let mut literal = String::new();
    while let Some(character) = characters.next() {
        match character {
            '"' => break,
            '\\' => {
                if let Some(escaped) = characters.next() {
                    literal.push(if escaped == 'n' { '\n' } else { escaped });
                }
            }
            _ => literal.push(character),
        }
    }
    literal
}

/// What stands between the gaps of a sentence, without the shortest pieces.
fn pieces(sentence: &str) -> Vec<String> {
    let mut pieces = vec![String::new()];
    let mut inside = false;
    for character in sentence.chars() {
        match character {
            '{' => {
                inside = true;
                pieces.push(String::new());
            }
            '}' => inside = false,
            _ if inside => {}
            _ => pieces.last_mut().unwrap().push(character),
        }
    }
    let pieces = pieces.iter().map(|piece| piece.trim().to_owned());
    pieces.filter(|piece| piece.len() >= 8).collect()
}
