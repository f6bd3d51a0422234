//! The sentence for a choice and its answer (document 02, Q-1), which names what
//! was short. The words are those of `docs/FORMAT.md`, "Sentences".

use crate::shortage::Shortage;

/// A buffer that is lent for a sentence has at least this many bytes (refusal
/// 21), and no sentence has more.
pub const SENTENCE_ROOM: usize = 96;

/// What a sentence tells of an answer: its number, and what was short. The place
/// of a refusal is not told. Any numbers will do, also those that no hall answers.
#[derive(Clone, Copy, Debug, PartialEq, Eq, Hash)]
pub enum Reply {
    /// One rule was done.
    Moved {
        /// Its number.
        rule: u8,
        /// What was short, if anything was. It is named beside any rule, a tray 0
        /// that is short by 0 as well.
        short: Option<Shortage>,
    },
    /// The number of the refusal.
    Refused(u8),
}

/// The words of rules 1 to 13, in order.
const RULES: &[&str] = &[
    "token put",
    "token taken",
    "token taken, repeats",
    "attempt begun",
    "attempt given up",
    "commit failed",
    "block committed",
    "read noted",
    "read failed",
    "write noted",
    "two ways opened",
    "second way kept",
    "first way kept",
];

/// The words of refusals 1 to 20, in order.
const REFUSALS: &[&str] = &[
    "table: unknown record",
    "table: record cut short",
    "table: too many terms",
    "table: no such tray",
    "table: term not earlier",
    "table: wrong term class",
    "table: term too large",
    "table: wrong tokens",
    "table: no start at end",
    "hall: wrong length",
    "hall: not well formed",
    "no such kind",
    "choice cut short",
    "no such station",
    "station cannot do this",
    "no such node",
    "no move at this node",
    "tray empty",
    "too many stations",
    "tray full",
];

/// The sentence for any bytes. Kind 1 has no node: one that comes with it is
/// passed over.
pub fn sentence(kind: u8, position: u8, node: u8, reply: Reply) -> String {
    let node = match kind {
        1 => String::new(),
        _ => format!(", node {node}"),
    };
    let reply = match reply {
        Reply::Moved { rule, short } => {
            let short = short.map_or(String::new(), what_was_short);
            format!("moved by rule {}{short}", with_words(rule, RULES))
        }
        Reply::Refused(number) => format!("met refusal {}", with_words(number, REFUSALS)),
    };
    format!("Kind {kind} at station {position}{node} {reply}.")
}

/// What stands behind the rule where something was short.
fn what_was_short(short: Shortage) -> String {
    format!(", tray {} short by {}", short.tray, short.by)
}

/// The number and, where it has some, its words; the first are those of 1.
fn with_words(number: u8, words: &[&str]) -> String {
    let index = usize::from(number).checked_sub(1);
    match index.and_then(|index| words.get(index)) {
        Some(words) => format!("{number}, {words}"),
        None => number.to_string(),
    }
}
