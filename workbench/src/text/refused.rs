//! The engine's refusals of a table, put back onto the text it was made of.

use ruonfidd::Refusal;

use super::assembly::Assembled;
use super::problems::Problem;
use super::source::Span;
use super::tree::Program;
use crate::measures::{measures, Measures};
use crate::table::{terms_before, Term};

/// A refusal told on a readable text. None where the engine gave a number that
/// no such text can get: then this program is at fault.
#[must_use]
pub fn on_rules(refusal: Refusal, assembled: &Assembled, program: &Program) -> Option<Problem> {
    let span = span_at(&assembled.places, refusal.place)?;
    let problem = match refusal.number {
        Refusal::TOO_MANY_TERMS => Problem::error(span, "the table has more than 200 terms")
            .label("this is the 201st")
            .help(format!(
                "equal parts are kept once already{}",
                biggest(assembled, program)
            )),
        Refusal::TERM_TOO_LARGE => too_large(&assembled.bytes, refusal.place, span)?,
        _ => return None,
    };
    Some(problem.answered(refusal.number, refusal.place))
}

/// A refusal told on an exact text: any number may come, and the carets are
/// under the whole line.
#[must_use]
pub fn on_records(refusal: Refusal, bytes: &[u8], places: &[(usize, Span)]) -> Option<Problem> {
    let span = span_at(places, refusal.place)?;
    let message = match refusal.number {
        Refusal::TERM_TOO_LARGE => {
            let problem = too_large(bytes, refusal.place, span)?;
            return Some(problem.answered(refusal.number, refusal.place));
        }
        Refusal::TOO_MANY_TERMS => "a table has at most 200 terms",
        Refusal::UNKNOWN_TRAY => "trays are 0 to 15",
        Refusal::NOT_EARLIER => "this refers to a term that does not stand above it",
        Refusal::WRONG_CLASS => {
            "this refers to a station where a way is wanted, or the other way round"
        }
        Refusal::BAD_TOKENS => "tokens of 0, or for a tray that was given some above",
        _ => return None,
    };
    Some(Problem::error(span, message).answered(refusal.number, refusal.place))
}

fn span_at(places: &[(usize, Span)], place: usize) -> Option<Span> {
    places
        .iter()
        .find(|(offset, _)| *offset == place)
        .map(|(_, span)| *span)
}

/// Which measure is over its limit, and by how much.
fn too_large(bytes: &[u8], place: usize, span: Span) -> Option<Problem> {
    let terms = terms_before(bytes, place)?;
    let term = *terms.last()?;
    let Measures {
        width,
        branches,
        length,
    } = *measures(&terms).last()?;
    Some(match term {
        Term::Beside { .. } => {
            Problem::error(span, format!("{width} stations side by side is too much"))
                .label("with this")
                .help("a hall has at most 64 stations side by side, 'nothing' counted too")
        }
        Term::OrElse { .. } => {
            Problem::error(span, format!("a block with {branches} ways is too much"))
                .label("with this")
                .help("a block has at most 8 ways")
        }
        _ => Problem::error(span, format!("a way of {length} steps is too much"))
            .label("counted from here to its end")
            .help("a way has at most 16 steps, takes and puts together"),
    })
}

/// The three rules or plans with the most terms.
fn biggest(assembled: &Assembled, program: &Program) -> String {
    let Some(terms) = terms_before(&assembled.bytes, usize::MAX) else {
        return String::new();
    };
    let mut sizes: Vec<(usize, &str)> = program
        .definitions
        .iter()
        .zip(&assembled.terms)
        .filter_map(|(definition, term)| Some((size(&terms, (*term)?), definition.name.as_str())))
        .collect();
    sizes.sort_by_key(|(size, _)| std::cmp::Reverse(*size));
    let named: Vec<String> = sizes
        .iter()
        .take(3)
        .map(|(size, name)| format!("{name} ({size})"))
        .collect();
    if named.is_empty() {
        String::new()
    } else {
        format!("; the biggest rules and plans: {}", named.join(", "))
    }
}

/// How many different terms a term is made of.
fn size(terms: &[Term], term: u8) -> usize {
    let mut seen = vec![false; terms.len()];
    let mut to_see = vec![term];
    while let Some(number) = to_see.pop() {
        let number = usize::from(number);
        if let (Some(slot), Some(term)) = (seen.get_mut(number), terms.get(number)) {
            if !*slot {
                *slot = true;
                to_see.extend(term.references());
            }
        }
    }
    seen.into_iter().filter(|seen| *seen).count()
}
