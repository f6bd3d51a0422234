//! Width, branches and length of terms: how much of the limits a table uses,
//! and by how much one is passed. They explain what the engine answered.

use crate::table::Term;

/// The measures of one term, over the whole term with its references followed.
#[derive(Clone, Copy, Debug, Default, PartialEq, Eq)]
pub struct Measures {
    /// Stations that a process may open into.
    pub width: u64,
    /// Ways of an expression.
    pub branches: u64,
    /// Steps of its longest way.
    pub length: u64,
}

/// The measures of all terms, by number.
#[must_use]
pub fn measures(terms: &[Term]) -> Vec<Measures> {
    let mut all: Vec<Measures> = Vec::new();
    for term in terms {
        let of = |number: u8| all.get(usize::from(number)).copied().unwrap_or_default();
        all.push(measure(*term, of));
    }
    all
}

fn measure(term: Term, of: impl Fn(u8) -> Measures) -> Measures {
    let process = |width| Measures {
        width,
        ..Measures::default()
    };
    match term {
        Term::Beside { left, right } => process(of(left).width.saturating_add(of(right).width)),
        Term::End | Term::Retry => Measures {
            branches: 1,
            ..Measures::default()
        },
        Term::NoteTake { rest, .. } | Term::NotePut { rest, .. } => Measures {
            width: 0,
            branches: of(rest).branches,
            length: of(rest).length.saturating_add(1),
        },
        Term::OrElse { left, right } => Measures {
            width: 0,
            branches: of(left).branches.saturating_add(of(right).branches),
            length: of(left).length.max(of(right).length),
        },
        _ => process(1),
    }
}
