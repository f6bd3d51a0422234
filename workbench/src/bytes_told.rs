//! Refusals of bytes that have no text: the byte, with the records before it.

use std::fmt::Write as _;

use ruonfidd::{check_table, Refusal};

use crate::style::Style;
use crate::table::{split_choices, whole_records};
use crate::text::problems::{answer_line, Answered};

/// How many bytes of the refused place are shown.
const SHOWN: usize = 8;

/// A refusal of these bytes, a table or a hall, in plain words.
#[must_use]
pub fn words(bytes: &[u8], refusal: Refusal) -> &'static str {
    match refusal.number {
        Refusal::UNKNOWN_KIND => "the kind is not 1 to 13",
        Refusal::RECORD_CUT_SHORT => "the record is cut short",
        Refusal::TOO_MANY_TERMS => "a table has at most 200 terms",
        Refusal::UNKNOWN_TRAY => "the tray is not 0 to 15",
        Refusal::NOT_EARLIER => "it refers to a term that does not stand before it",
        Refusal::WRONG_CLASS => {
            "it refers to a process where an expression is wanted, or the other way round"
        }
        Refusal::TERM_TOO_LARGE => {
            "it is over 64 stations wide, has over 8 ways or a way of over 16 steps"
        }
        Refusal::BAD_TOKENS => "tokens of 0, or for a tray that was given some before",
        Refusal::START_NOT_LAST if refusal.place < bytes.len() => "a byte follows the start record",
        Refusal::START_NOT_LAST => "the table ends without a start record",
        Refusal::HALL_LENGTH => "a stored hall has 11344 bytes",
        Refusal::HALL_FORM => "these bytes are no hall of this table",
        _ => refusal.reason(),
    }
}

/// A refused table, told with the two records before the place.
#[must_use]
pub fn told(name: &str, bytes: &[u8], refusal: Refusal, style: Style) -> String {
    let Refusal { place, .. } = refusal;
    let mut lines = format!(
        "{name}: byte {place}: {}: {}\n",
        style.bad("error"),
        words(bytes, refusal)
    );
    let records = whole_records(bytes);
    let mut term = 0;
    let mut before = Vec::new();
    for (offset, record) in records.iter().take_while(|(offset, _)| *offset < place) {
        let label = match record.first() {
            Some(12) => "tokens".to_owned(),
            Some(13) => "start".to_owned(),
            _ => {
                term += 1;
                format!("term {}", term - 1)
            }
        };
        before.push(line(*offset, &label, record));
    }
    let first = before.len().saturating_sub(2);
    lines.extend(before.into_iter().skip(first));
    let here = bytes.get(place..).unwrap_or(&[]);
    let carets = refused_length(here);
    let here = here.get(..SHOWN).unwrap_or(here);
    lines.push_str(&line(place, "?", here));
    let _ = writeln!(lines, "      |           {}", "^".repeat(carets));
    if let Some(help) = help(bytes, refusal) {
        let _ = writeln!(lines, "      = {help}");
    }
    let _ = writeln!(lines, "      = {}", answered(refusal));
    lines
}

/// A refused hall.
#[must_use]
pub fn hall_told(name: &str, bytes: &[u8], refusal: Refusal, style: Style) -> String {
    format!(
        "{name}: {}: {}\n      = {}\n",
        style.bad("error"),
        words(bytes, refusal),
        answered(refusal)
    )
}

fn answered(refusal: Refusal) -> String {
    answer_line(Answered {
        number: refusal.number,
        place: Some(refusal.place),
    })
}

/// One record a line, in decimal.
fn line(offset: usize, label: &str, record: &[u8]) -> String {
    let bytes: Vec<String> = record.iter().map(u8::to_string).collect();
    let line = format!("{offset:>5} | {label:<10}{}", bytes.join(" "));
    format!("{}\n", line.trim_end())
}

/// As many carets as the first byte has digits.
fn refused_length(here: &[u8]) -> usize {
    here.first().map_or(1, |byte| byte.to_string().len())
}

/// A table with choices behind it is what `build --choices` writes, and what
/// begins with no record is some other file: say so.
fn help(bytes: &[u8], refusal: Refusal) -> Option<String> {
    if refusal.number == Refusal::UNKNOWN_KIND && refusal.place == 0 {
        let words = "no table begins with this byte: it is some other binary file";
        return Some(words.to_owned());
    }
    let (table, behind) = split_choices(bytes);
    let is_table = refusal.number == Refusal::START_NOT_LAST
        && !behind.is_empty()
        && check_table(table).is_ok();
    is_table.then(|| {
        format!(
            "the first {} bytes are an accepted table; what follows, {} more, may be its choices: see hall run",
            table.len(),
            behind.len()
        )
    })
}
