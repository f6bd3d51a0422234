//! Reading a rule table (document 01, "The rule table", and refusals 1 to 9
//! of "Reasons to turn a request down").

/// Trays are 0 to 15.
pub const TRAYS: usize = 16;
/// A table holds at most this many terms (refusal 3).
pub const MOST_TERMS: usize = 200;
/// The limit of a process's width (refusal 7).
pub const MOST_WIDTH: usize = 64;
/// The limit of an expression's branches (refusal 7).
pub const MOST_BRANCHES: usize = 8;
/// The limit of an expression's length (refusal 7).
pub const MOST_LENGTH: usize = 16;

/// One count for each tray.
pub type Counts = [u8; TRAYS];

/// One term of the table. References are numbers of earlier terms.
#[derive(Clone, Copy, Debug, PartialEq, Eq)]
pub enum Term {
    /// Kind 1.
    Nil,
    /// Kind 2.
    Put {
        /// The tray that gains a token.
        tray: u8,
    },
    /// Kind 3.
    Take {
        /// The tray that loses a token.
        tray: u8,
        /// The process that opens then.
        then: usize,
    },
    /// Kind 4.
    RepeatedTake {
        /// The tray that loses a token.
        tray: u8,
        /// The process that opens each time.
        then: usize,
    },
    /// Kind 5.
    SideBySide {
        /// The left process.
        left: usize,
        /// The right process.
        right: usize,
    },
    /// Kind 6.
    Atom {
        /// The block's expression.
        body: usize,
    },
    /// Kind 7.
    End,
    /// Kind 8.
    Retry,
    /// Kind 9.
    Rd {
        /// The tray read.
        tray: u8,
        /// The expression that follows.
        rest: usize,
    },
    /// Kind 10.
    Wt {
        /// The tray written.
        tray: u8,
        /// The expression that follows.
        rest: usize,
    },
    /// Kind 11.
    OrElse {
        /// The expression tried first.
        left: usize,
        /// The expression for when the first says retry.
        right: usize,
    },
}

/// An accepted table.
#[derive(Clone, Debug, PartialEq, Eq)]
pub struct Table {
    /// Its terms, by their numbers.
    pub terms: Vec<Term>,
    /// The count named for each tray, 0 where no record names it.
    pub tokens: Counts,
    /// The term that the start record names.
    pub start: usize,
}

/// Why a request was turned down: one number, one place.
#[derive(Clone, Copy, Debug, PartialEq, Eq)]
pub struct Refusal {
    /// Which condition was met, 1 to 21.
    pub number: u8,
    /// The offset of the byte at which it was met.
    pub place: usize,
}

/// What one byte of a record's body means.
#[derive(Clone, Copy, PartialEq, Eq)]
enum Field {
    Tray,
    Process,
    Expression,
    Count,
}

/// The fields of a record's body, or nothing for a kind that is not 1 to 13.
fn fields(kind: u8) -> Option<&'static [Field]> {
    match kind {
        1 | 7 | 8 => Some(&[]),
        2 => Some(&[Field::Tray]),
        3 | 4 => Some(&[Field::Tray, Field::Process]),
        5 => Some(&[Field::Process, Field::Process]),
        6 => Some(&[Field::Expression]),
        9 | 10 => Some(&[Field::Tray, Field::Expression]),
        11 => Some(&[Field::Expression, Field::Expression]),
        12 => Some(&[Field::Tray, Field::Count]),
        13 => Some(&[Field::Process]),
        _ => None,
    }
}

/// How many body bytes follow this kind, or nothing for an unknown kind.
pub fn body_length(kind: u8) -> Option<usize> {
    fields(kind).map(<[Field]>::len)
}

fn is_term_kind(kind: u8) -> bool {
    (1..=11).contains(&kind)
}

impl Term {
    /// The kind byte of the term's record.
    pub fn kind(self) -> u8 {
        match self {
            Term::Nil => 1,
            Term::Put { .. } => 2,
            Term::Take { .. } => 3,
            Term::RepeatedTake { .. } => 4,
            Term::SideBySide { .. } => 5,
            Term::Atom { .. } => 6,
            Term::End => 7,
            Term::Retry => 8,
            Term::Rd { .. } => 9,
            Term::Wt { .. } => 10,
            Term::OrElse { .. } => 11,
        }
    }

    /// Kinds 1 to 6 are processes.
    pub fn is_process(self) -> bool {
        self.kind() <= 6
    }

    /// Kinds 7 to 11 are expressions.
    pub fn is_expression(self) -> bool {
        self.kind() >= 7
    }
}

/// Width over the unfolded process. A take does not look into what follows
/// it, and nil counts as 1.
pub fn width(terms: &[Term], term: usize) -> usize {
    match terms[term] {
        Term::SideBySide { left, right } => width(terms, left) + width(terms, right),
        _ => 1,
    }
}

/// Branches of the unfolded expression.
pub fn branches(terms: &[Term], term: usize) -> usize {
    match terms[term] {
        Term::Rd { rest, .. } | Term::Wt { rest, .. } => branches(terms, rest),
        Term::OrElse { left, right } => branches(terms, left) + branches(terms, right),
        _ => 1,
    }
}

/// Length of the unfolded expression.
pub fn length(terms: &[Term], term: usize) -> usize {
    match terms[term] {
        Term::Rd { rest, .. } | Term::Wt { rest, .. } => 1 + length(terms, rest),
        Term::OrElse { left, right } => length(terms, left).max(length(terms, right)),
        _ => 0,
    }
}

/// True when a term's measures are within the limits of refusal 7.
pub fn measures_fit(terms: &[Term], term: usize) -> bool {
    if terms[term].is_process() {
        width(terms, term) <= MOST_WIDTH
    } else {
        branches(terms, term) <= MOST_BRANCHES && length(terms, term) <= MOST_LENGTH
    }
}

/// The byte of a number that is known to fit into one.
///
/// # Panics
///
/// On a number above 255.
pub fn byte_of(number: usize) -> u8 {
    u8::try_from(number).expect("a number that fits into a byte")
}

/// What was read before the record now looked at.
struct SoFar {
    terms: Vec<Term>,
    tokens: Counts,
}

/// Reads a table from any bytes. Records are tested one by one, each test on
/// the whole record before the next test.
///
/// # Errors
///
/// Refusals 1 to 9.
pub fn read_table(bytes: &[u8]) -> Result<Table, Refusal> {
    let mut so_far = SoFar {
        terms: Vec::new(),
        tokens: [0; TRAYS],
    };
    let mut offset = 0;
    while offset < bytes.len() {
        let refuse = |number| Refusal {
            number,
            place: offset,
        };
        let kind = bytes[offset];
        let body_length = body_length(kind).ok_or(refuse(1))?;
        let next = offset + 1 + body_length;
        if next > bytes.len() {
            return Err(refuse(2));
        }
        let body = &bytes[offset + 1..next];
        let number = test_record(&so_far, kind, body);
        if number != 0 {
            return Err(refuse(number));
        }
        if kind == 13 {
            return close_table(so_far, body[0], next, bytes.len());
        } else if kind == 12 {
            so_far.tokens[usize::from(body[0])] = body[1];
        } else {
            so_far.terms.push(term_of(kind, body));
        }
        offset = next;
    }
    // The table ends without a start record.
    Err(Refusal {
        number: 9,
        place: bytes.len(),
    })
}

/// The start record was read: nothing may follow it.
fn close_table(so_far: SoFar, start: u8, next: usize, end: usize) -> Result<Table, Refusal> {
    if next < end {
        return Err(Refusal {
            number: 9,
            place: next,
        });
    }
    Ok(Table {
        terms: so_far.terms,
        tokens: so_far.tokens,
        start: usize::from(start),
    })
}

/// Refusals 3 to 8 on one record of known kind with its whole body, in number
/// order; 0 for none.
fn test_record(so_far: &SoFar, kind: u8, body: &[u8]) -> u8 {
    if is_term_kind(kind) && so_far.terms.len() >= MOST_TERMS {
        3
    } else if has_bad_tray(kind, body) {
        4
    } else if has_late_reference(so_far, kind, body) {
        5
    } else if has_wrong_class(so_far, kind, body) {
        6
    } else if is_term_kind(kind) && !would_fit(so_far, kind, body) {
        7
    } else if kind == 12 && (body[1] == 0 || so_far.tokens[usize::from(body[0])] != 0) {
        8
    } else {
        0
    }
}

fn has_bad_tray(kind: u8, body: &[u8]) -> bool {
    for (field, byte) in fields(kind).unwrap_or(&[]).iter().zip(body) {
        if *field == Field::Tray && usize::from(*byte) >= TRAYS {
            return true;
        }
    }
    false
}

fn has_late_reference(so_far: &SoFar, kind: u8, body: &[u8]) -> bool {
    for (field, byte) in fields(kind).unwrap_or(&[]).iter().zip(body) {
        let is_reference = *field == Field::Process || *field == Field::Expression;
        if is_reference && usize::from(*byte) >= so_far.terms.len() {
            return true;
        }
    }
    false
}

fn has_wrong_class(so_far: &SoFar, kind: u8, body: &[u8]) -> bool {
    for (field, byte) in fields(kind).unwrap_or(&[]).iter().zip(body) {
        let reference = usize::from(*byte);
        if *field == Field::Process && !so_far.terms[reference].is_process() {
            return true;
        }
        if *field == Field::Expression && !so_far.terms[reference].is_expression() {
            return true;
        }
    }
    false
}

fn would_fit(so_far: &SoFar, kind: u8, body: &[u8]) -> bool {
    let mut terms = so_far.terms.clone();
    terms.push(term_of(kind, body));
    measures_fit(&terms, terms.len() - 1)
}

/// The term of a record of kind 1 to 11.
fn term_of(kind: u8, body: &[u8]) -> Term {
    let reference = |index: usize| usize::from(body[index]);
    match kind {
        1 => Term::Nil,
        2 => Term::Put { tray: body[0] },
        3 => Term::Take {
            tray: body[0],
            then: reference(1),
        },
        4 => Term::RepeatedTake {
            tray: body[0],
            then: reference(1),
        },
        5 => Term::SideBySide {
            left: reference(0),
            right: reference(1),
        },
        6 => Term::Atom { body: reference(0) },
        7 => Term::End,
        8 => Term::Retry,
        9 => Term::Rd {
            tray: body[0],
            rest: reference(1),
        },
        10 => Term::Wt {
            tray: body[0],
            rest: reference(1),
        },
        11 => Term::OrElse {
            left: reference(0),
            right: reference(1),
        },
        _ => unreachable!("only kinds 1 to 11 are terms"),
    }
}
