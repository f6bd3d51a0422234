//! The words of the language, and those that are taken for one.

/// Every word of the language. None of them can be a name.
pub const WORDS: [&str; 31] = [
    "act",
    "ask",
    "beside",
    "block",
    "board",
    "choices",
    "do",
    "else",
    "end",
    "exact",
    "has",
    "is",
    "may",
    "node",
    "nothing",
    "of",
    "or",
    "plan",
    "put",
    "refused",
    "repeatedly",
    "retry",
    "rule",
    "start",
    "step",
    "take",
    "term",
    "then",
    "tokens",
    "tray",
    "why",
];

/// Words that later versions of the engine will want.
pub const LATER: [&str; 5] = ["and", "choose", "deliver", "for", "private"];

/// Whether a word can't be a name.
#[must_use]
pub fn reserved(word: &str) -> bool {
    WORDS.contains(&word) || LATER.contains(&word)
}

/// Words with which an item of a text begins.
const ITEMS: [&str; 6] = ["tray", "rule", "plan", "start", "ask", "choices"];

/// Whether an item of a text begins with this word.
#[must_use]
pub fn begins_item(word: &str) -> bool {
    ITEMS.contains(&word)
}

/// The word that begins an item and was probably meant by this one: with other
/// letters, with capitals, or taken from elsewhere.
#[must_use]
pub fn item_meant(word: &str) -> Option<&'static str> {
    let small = word.to_lowercase();
    let foreign = || instead_of(word).filter(|instead| begins_item(instead));
    nearest(&small, ITEMS).or_else(foreign)
}

/// Words with which a line of a lesson begins.
#[must_use]
pub fn begins_line(word: &str) -> bool {
    matches!(word, "do" | "act" | "step" | "board" | "why")
}

/// What to write instead of a word that comes from the calculus, from another
/// language or from everyday speech.
#[must_use]
pub fn instead_of(word: &str) -> Option<&'static str> {
    Some(match word {
        "atom" | "atomic" | "atomically" | "transaction" => "block",
        "rd" | "read" | "reads" | "get" | "in" | "input" => "take",
        "wt" | "write" | "writes" | "lay" | "out" | "output" => "put",
        "orElse" | "orelse" | "or-else" | "else-try" | "otherwise" => "or else",
        "nil" | "stop" | "skip" | "done-here" => "nothing",
        "holds" | "hold" | "starts" | "with" | "contains" => "has",
        "par" | "parallel" | "plus" => "beside",
        "loop" | "repeat" | "forever" | "rep" | "always" => "repeatedly",
        "process" | "station" => "rule",
        "expression" | "expr" => "plan",
        "hall" | "open" | "begin" | "main" => "start",
        _ => return None,
    })
}

/// What to do where other languages have a word for which there is none here.
#[must_use]
pub fn advice_for(word: &str) -> &'static [&'static str] {
    match word {
        "if" | "when" | "unless" | "case" => &[
            "a take waits for its token; a block tries its ways in order:",
            "block (take batch, put done, end or else put missed, end)",
        ],
        "while" | "until" => &["what goes on for ever is 'repeatedly take ... then ...'"],
        _ => &[],
    }
}

/// Whether a word counts tokens: more than one, or all of them.
#[must_use]
pub fn counts_several(word: &str) -> bool {
    matches!(
        word,
        "two"
            | "three"
            | "four"
            | "five"
            | "six"
            | "seven"
            | "eight"
            | "nine"
            | "ten"
            | "both"
            | "all"
            | "several"
            | "some"
    )
}

/// Whether a word says where something comes from or goes to.
#[must_use]
pub fn says_where(word: &str) -> bool {
    matches!(
        word,
        "from" | "into" | "in" | "to" | "at" | "on" | "onto" | "off" | "of" | "with"
    )
}

/// The name that is nearest to a word, if one is near: at most two letters
/// apart, and at most a third of the word.
#[must_use]
pub fn nearest<'a>(word: &str, names: impl IntoIterator<Item = &'a str>) -> Option<&'a str> {
    let most = (word.chars().count() / 3).min(2);
    names
        .into_iter()
        .map(|name| (distance(word, name), name))
        .filter(|(distance, _)| *distance <= most)
        .min_by_key(|(distance, _)| *distance)
        .map(|(_, name)| name)
}

/// How many letters must be added, dropped or changed.
fn distance(from: &str, to: &str) -> usize {
    let to: Vec<char> = to.chars().collect();
    let mut row: Vec<usize> = (0..=to.len()).collect();
    for (line, letter) in from.chars().enumerate() {
        let mut next = vec![line + 1];
        for (column, other) in to.iter().enumerate() {
            let cell = |row: &[usize], at: usize| row.get(at).copied().unwrap_or(usize::MAX);
            let changed = cell(&row, column) + usize::from(letter != *other);
            let dropped = cell(&row, column + 1) + 1;
            let added = cell(&next, column) + 1;
            next.push(changed.min(dropped).min(added));
        }
        row = next;
    }
    row.last().copied().unwrap_or(0)
}

#[cfg(test)]
mod tests {
    use super::{distance, nearest};

    #[test]
    fn near_names() {
        assert_eq!(distance("screen", "screeen"), 1);
        assert_eq!(distance("", "abc"), 3);
        assert_eq!(distance("batch", "catch"), 1);
        let names = ["batch", "screen", "sheet"];
        assert_eq!(nearest("screeen", names), Some("screen"));
        assert_eq!(nearest("shet", names), Some("sheet"));
        assert_eq!(nearest("be", names), None);
        assert_eq!(nearest("printer", names), None);
    }
}
