//! Exact texts: one line a record.

use std::fmt::Write as _;

use super::Labels;
use crate::table::{Record, Table, Term};

/// The column of the comments that name rules.
const COMMENTS: usize = 44;

/// The exact text of a table; it rebuilds the very bytes.
#[must_use]
pub fn exact(table: &Table, labels: &Labels) -> String {
    let mut text = String::from("exact\n");
    for tray in labels.trays_of(table) {
        let _ = writeln!(text, "tray {tray} {}", labels.tray(tray));
    }
    let mut number: u8 = 0;
    for record in table.records() {
        match *record {
            Record::Term(term) => {
                let line = format!("term {number} is {}", said(term, labels));
                let _ = match labels.terms.get(&number) {
                    Some(name) => writeln!(text, "{line:<COMMENTS$}# {name}"),
                    None => writeln!(text, "{line}"),
                };
                number = number.saturating_add(1);
            }
            Record::Tokens { tray, count } => {
                let _ = writeln!(text, "tokens {} {count}", labels.tray(tray));
            }
            Record::Start(term) => {
                let _ = writeln!(text, "start term {term}");
            }
        }
    }
    text
}

fn said(term: Term, labels: &Labels) -> String {
    let tray = |number| labels.tray(number);
    match term {
        Term::Nothing => "nothing".to_owned(),
        Term::Put { tray: t } => format!("put {}", tray(t)),
        Term::Take { tray: t, then } => format!("take {} then term {then}", tray(t)),
        Term::Repeatedly { tray: t, then } => {
            format!("repeatedly take {} then term {then}", tray(t))
        }
        Term::Beside { left, right } => format!("term {left} beside term {right}"),
        Term::Block { body } => format!("block (term {body})"),
        Term::End => "end".to_owned(),
        Term::Retry => "retry".to_owned(),
        Term::NoteTake { tray: t, rest } => format!("take {}, term {rest}", tray(t)),
        Term::NotePut { tray: t, rest } => format!("put {}, term {rest}", tray(t)),
        Term::OrElse { left, right } => format!("term {left} or else term {right}"),
    }
}
