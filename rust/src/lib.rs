//! Safe calls of the proved hall engine.
//!
//! The engine is a static library, `libruonfidd.a`, that is proved to answer
//! as the scope's definitions say. This package links it and adds nothing to
//! its answers: only its number and its place become a [`Result`], those of a
//! step with its choice, and two bytes an optional [`Shortage`] or [`Station`].
//!
//! # Which calls to use
//!
//! - A [`Session`] owns a table, its hall and its tally. It is the one to begin
//!   with: nobody else can write what it owns, so that all that is proved holds.
//! - A [`Hall`] owns its bytes alone; table and tally are lent to each call. It is
//!   for programs that keep many halls of one table, as a search does.
//! - [`open_hall`], [`run`], [`step`] and the others take lent bytes, for programs
//!   with memory of their own.
//!
//! # Linking
//!
//! `make`, run in the repository's top folder, writes the library to
//! `target/staticlib`, where this package looks for it. Another folder can be
//! named in the environment variable `RUONFIDD_LIB_DIR`, as an absolute path or
//! from this package's folder on: the folder `lib` of an installation will do. The
//! library is part of the program that is built: nothing has to be installed
//! beside it.
//!
//! # What a call may be relied on for
//!
//! - It takes any bytes. There is no input on which it stops the program.
//! - It keeps nothing from one call to the next and needs little stack, a
//!   printed run some 20 KB, so any thread may call it at any time. A [`Session`],
//!   a [`Hall`] and a [`Printed`] own memory for their bytes, and a session copies
//!   some where it asks or prints; nothing else is allocated.
//! - The same bytes always get the same answer.
//! - An opening lays its stations down by turns, at most one a turn, in the order
//!   of the hall. [`opening_turn`] gives any of them, [`opening_stations`] the
//!   stations one after the other; both read the table alone.
//! - A suggestion is the first accepted choice: the one with the lowest
//!   position, and of several there the one with the lowest node.
//! - Refused by table or hall, 1 to 11, hall and tally stay as they are.
//!   Where a choice is refused, those before it stay done.
//! - Where a commit or a read fails, the step tells the lowest tray that was short
//!   and by how many; no other answer tells one.
//! - The answer of a step, moved or refused, displays as one English sentence
//!   of at most [`SENTENCE_BYTES`] bytes, which no other choice, rule, shortage or
//!   number of a refusal has; where a refusal was, is not told.
//!   [`say`] gives the sentence of any choice and answer.
//!
//! What is proved of a whole list of calls, that each committed block acts in
//! one moment, is proved of calls with the same table, and with hall and tally as
//! the last call left them. It says nothing where somebody else has written
//! hall or tally in between. A [`Session`] sees to that. With the other calls it is
//! the caller's duty; the tally is no part of the hall and is kept beside it.
//!
//! # Example
//!
//! ```
//! use ruonfidd::{Choice, Moved, Refusal, Session};
//!
//! // A block that reads a token from tray 0 and writes one to tray 1; tray 0
//! // holds one token.
//! let table = [7, 10, 1, 0, 9, 0, 1, 6, 2, 12, 0, 1, 13, 3];
//! let mut session = Session::open(&table)?;
//! assert_eq!(session.counts()[..2], [1, 0]);
//!
//! // The block begins; its attempt reads, writes and is committed; the token
//! // is put.
//! let choices = [1, 0, 2, 0, 0, 2, 0, 0, 1, 0, 1, 0];
//! assert_eq!(session.run(&choices), Ok(5));
//! assert_eq!(session.counts()[..2], [0, 1]);
//! assert_eq!(session.tally().commits, 1);
//!
//! // Nothing is left to do.
//! assert_eq!(session.suggest(), None);
//! let refused = session.step(Choice::Act { position: 0 }).unwrap_err();
//! assert_eq!(refused.refusal.number, Refusal::NO_STATION);
//! assert_eq!(refused.to_string(), "Kind 1 at station 0 met refusal 14, no such station.");
//!
//! // The same by suggestions, step by step, and no more than a hundred.
//! let mut session = Session::open(&table)?;
//! let (mut rules, mut board) = (Vec::new(), String::new());
//! for moved in session.suggested_steps().take(100) {
//!     rules.push(moved.rule);
//!     board += &format!("{moved}\n");
//! }
//! use Moved as M;
//! assert_eq!(rules, [M::ATST, M::ARDOK, M::AWR, M::ATOK, M::OUT]);
//! assert_eq!(
//!     board,
//!     "Kind 1 at station 0 moved by rule 4, attempt begun.\n\
//!      Kind 2 at station 0, node 0 moved by rule 8, read noted.\n\
//!      Kind 2 at station 0, node 0 moved by rule 10, write noted.\n\
//!      Kind 1 at station 0 moved by rule 7, block committed.\n\
//!      Kind 1 at station 0 moved by rule 1, token put.\n"
//! );
//! assert_eq!(session.counts()[..2], [0, 1]);
//! # Ok::<(), Refusal>(())
//! ```

mod choice;
mod ffi;
mod hall;
mod printed;
mod refusal;
mod sentence;
mod session;
mod shortage;
mod suggested;
mod tally;
mod turns;

pub use choice::{Choice, Moved, Refused, Stopped};
pub use hall::Hall;
pub use printed::Printed;
pub use refusal::Refusal;
pub use sentence::{Answer, Sentence};
pub use session::{Session, SessionSteps};
pub use shortage::Shortage;
pub use suggested::{Followed, SuggestedSteps};
pub use tally::Tally;
pub use turns::{opening_stations, opening_turn, opening_turns};
pub use turns::{OpeningStations, OpeningTurns, Station, Turn};

/// The length of a stored hall.
pub const HALL_BYTES: usize = 11_344;

/// The length of the memory that a run is printed into. No printed run is
/// longer.
pub const REPORT_BYTES: usize = 1_024;

/// The least length of the memory that a sentence is written into. No sentence
/// is longer.
pub const SENTENCE_BYTES: usize = 96;

/// Whether a rule table is accepted.
///
/// Records are tested from the first one on, and on each record the tests are
/// made in the order of their numbers.
///
/// # Errors
///
/// The first refusal met, 1 to 9; [`Refusal`] says what its number and its
/// place mean.
///
/// ```
/// use ruonfidd::Refusal;
///
/// let refusal = ruonfidd::check_table(&[1, 2, 16]).unwrap_err();
/// assert_eq!((refusal.number, refusal.place), (Refusal::UNKNOWN_TRAY, 1));
/// assert_eq!(refusal.reason(), "a tray above 15");
/// ```
pub fn check_table(table: &[u8]) -> Result<(), Refusal> {
    let mut place = 0;
    let number = ffi::check_table(table, &mut place);
    Refusal::unless_zero(number, place)
}

/// Opens a hall from a rule table in lent memory, whatever stood there, and
/// gives the fresh tally. [`Hall::open`] brings its own memory.
///
/// # Errors
///
/// 1 to 9 by the table; 10, place 0, where the hall is not [`HALL_BYTES`] long.
/// Refused, not a byte of the hall is changed.
///
/// ```
/// use ruonfidd::{check_hall, open_hall, HALL_BYTES};
///
/// let table = [7, 10, 1, 0, 9, 0, 1, 6, 2, 12, 0, 1, 13, 3];
/// let mut hall = vec![99; HALL_BYTES];
/// let tally = open_hall(&table, &mut hall).unwrap();
/// assert_eq!(tally.commits, 0);
/// assert_eq!(hall[..2], [1, 0]); // one token in tray 0
/// assert_eq!(hall[16..19], [20, 3, 0]); // one station, waiting with term 3
/// assert_eq!(check_hall(&table, &hall), Ok(()));
/// ```
pub fn open_hall(table: &[u8], hall: &mut [u8]) -> Result<Tally, Refusal> {
    let mut place = 0;
    let number = ffi::open_hall(table, hall, &mut place);
    Refusal::unless_zero(number, place).map(|()| Tally::fresh())
}

/// Whether a stored hall is well formed for a rule table. [`Hall::from_bytes`]
/// keeps the bytes too.
///
/// # Errors
///
/// 1 to 9 by the table; 10, place 0, where the hall is not [`HALL_BYTES`] long;
/// 11, place 0, where it is not well formed.
pub fn check_hall(table: &[u8], hall: &[u8]) -> Result<(), Refusal> {
    let mut place = 0;
    let number = ffi::check_hall(table, hall, &mut place);
    Refusal::unless_zero(number, place)
}

/// Runs a list of choices, up to its end or to the first one refused.
/// [`Hall::run`] is the same on a hall that owns its bytes.
///
/// Hall and tally are brought up to date choice by choice. The answer is how
/// many choices were done.
///
/// # Errors
///
/// 1 to 9 by the table, 10 and 11 by the hall, 12 to 20 by a choice; hall and
/// tally are then as the choices done have made them, and under 1 to 11 as they
/// were.
///
/// ```
/// use ruonfidd::{open_hall, run, Refusal, HALL_BYTES};
///
/// let table = [7, 10, 1, 0, 9, 0, 1, 6, 2, 12, 0, 1, 13, 3];
/// let mut hall = vec![0; HALL_BYTES];
/// let mut tally = open_hall(&table, &mut hall).unwrap();
///
/// // The block begins; it cannot end yet.
/// let stopped = run(&table, &mut hall, &[1, 0, 1, 0], &mut tally).unwrap_err();
/// assert_eq!(stopped.done, 1);
/// assert_eq!(stopped.refusal.number, Refusal::WRONG_STATION);
/// assert_eq!(stopped.refusal.place, 2);
///
/// // What was done stays.
/// assert_eq!(run(&table, &mut hall, &[2, 0, 0, 2, 0, 0, 1, 0], &mut tally), Ok(3));
/// assert_eq!(tally.commits, 1);
/// ```
pub fn run(
    table: &[u8],
    hall: &mut [u8],
    choices: &[u8],
    tally: &mut Tally,
) -> Result<usize, Stopped> {
    let mut words = tally.to_words();
    let (mut place, mut done) = (0, 0);
    let number = ffi::run(table, hall, choices, &mut words, &mut place, &mut done);
    *tally = Tally::from_words(words);
    match Refusal::unless_zero(number, place) {
        Ok(()) => Ok(done),
        Err(refusal) => Err(Stopped { refusal, done }),
    }
}

/// Makes one choice and says by which rule, and where a commit or a read fails,
/// which tray was short. [`Hall::step`] is the same on a hall that owns its bytes.
/// The answer, moved or refused, displays as its sentence.
///
/// # Errors
///
/// 1 to 9 by the table, 10 and 11 by the hall, 14 to 20, place 0, by the
/// choice. Hall and tally are then as they were.
///
/// ```
/// use ruonfidd::{open_hall, step, Choice, Moved, Refusal, Shortage, HALL_BYTES};
///
/// let table = [7, 10, 1, 0, 9, 0, 1, 6, 2, 12, 0, 1, 13, 3];
/// let mut hall = vec![0; HALL_BYTES];
/// let mut tally = open_hall(&table, &mut hall).unwrap();
/// let act = Choice::Act { position: 0 };
/// let moved = step(&table, &mut hall, act, &mut tally).unwrap();
/// assert_eq!((moved.rule, moved.place, moved.shortage), (Moved::ATST, 2, None));
/// assert_eq!(moved.to_string(), "Kind 1 at station 0 moved by rule 4, attempt begun.");
///
/// // The attempt has not come to its end.
/// let refused = step(&table, &mut hall, act, &mut tally).unwrap_err();
/// assert_eq!(refused.refusal.number, Refusal::WRONG_STATION);
/// assert_eq!(
///     refused.to_string(),
///     "Kind 1 at station 0 met refusal 15, station cannot do this."
/// );
///
/// // Without its token the attempt finds tray 0 empty.
/// let mut hall = vec![0; HALL_BYTES];
/// let mut tally = open_hall(&table, &mut hall).unwrap();
/// hall[0] = 0;
/// step(&table, &mut hall, act, &mut tally).unwrap();
/// let inside = Choice::Inside { position: 0, node: 0 };
/// let moved = step(&table, &mut hall, inside, &mut tally).unwrap();
/// assert_eq!((moved.rule, moved.shortage), (Moved::ARDF, Shortage::new(0, 1)));
/// assert_eq!(
///     moved.to_string(),
///     "Kind 2 at station 0, node 0 moved by rule 9, read failed, tray 0 short by 1."
/// );
/// ```
pub fn step(
    table: &[u8],
    hall: &mut [u8],
    choice: Choice,
    tally: &mut Tally,
) -> Result<Moved, Refused> {
    let mut words = tally.to_words();
    let (mut rule, mut shortage, mut place) = (0, [0; 2], 0);
    let number = ffi::step(
        table,
        hall,
        choice.to_bytes(),
        &mut words,
        &mut rule,
        &mut shortage,
        &mut place,
    );
    *tally = Tally::from_words(words);
    match Refusal::unless_zero(number, place) {
        Ok(()) => Ok(Moved {
            choice,
            rule,
            place,
            shortage: Shortage::from_bytes(shortage),
        }),
        Err(refusal) => Err(Refused { choice, refusal }),
    }
}

/// Suggests the first accepted choice; none where no choice is accepted.
/// [`Hall::suggest`] is the same on a hall that owns its bytes.
///
/// Of all accepted choices it is the one with the lowest position, and of
/// several there the one with the lowest node. This leaves one: a station that
/// can act has no move inside.
///
/// # Errors
///
/// 1 to 9 by the table, 10 and 11 by the hall.
///
/// ```
/// use ruonfidd::{open_hall, suggest, Choice, HALL_BYTES};
///
/// // A take from tray 0, which is empty, and two puts into tray 1.
/// let table = [1, 3, 0, 0, 2, 1, 5, 2, 2, 5, 1, 3, 13, 4];
/// let mut hall = vec![0; HALL_BYTES];
/// assert_eq!(suggest(&table, &hall), Ok(None)); // no station yet
/// open_hall(&table, &mut hall).unwrap();
/// // The take cannot move. Of the two puts the first is suggested.
/// assert_eq!(suggest(&table, &hall), Ok(Some(Choice::Act { position: 1 })));
/// // With a token in tray 0 it is the take.
/// hall[0] = 1;
/// assert_eq!(suggest(&table, &hall), Ok(Some(Choice::Act { position: 0 })));
/// ```
pub fn suggest(table: &[u8], hall: &[u8]) -> Result<Option<Choice>, Refusal> {
    let (mut choice, mut place) = ([0; 3], 0);
    let number = ffi::suggest(table, hall, &mut choice, &mut place);
    Refusal::unless_zero(number, place).map(|()| Choice::from_bytes(choice))
}

/// Prints a run into lent memory and gives how many bytes it has: a rule table
/// up to its first start record is opened, the bytes behind it are run as
/// choices, and the lines say what came out. [`print_run`] brings its own
/// memory.
///
/// There is nothing to refuse: a refused table or choice is what the lines say.
/// The lines stand at the front of the output, at most 947 bytes; what follows
/// them there is as it was. `docs/FORMAT.md` has an example of each line.
///
/// ```
/// let mut output = [b'.'; ruonfidd::REPORT_BYTES];
/// // A put into tray 3, and the choice that does it.
/// let length = ruonfidd::print_run_into(&[2, 3, 13, 0, 1, 0], &mut output);
/// assert_eq!(output[..length], *b"R 0 2 1\nC 0 0 0\nT 3 0 1 1\n");
/// assert!(output[length..].iter().all(|byte| *byte == b'.'));
/// ```
pub fn print_run_into(input: &[u8], output: &mut [u8; REPORT_BYTES]) -> usize {
    let mut length = 0;
    ffi::report(input, output, &mut length);
    length
}

/// Prints a run: [`print_run_into`] in memory of its own.
///
/// ```
/// // A block that reads tray 0 and writes tray 1; it begins, reads, writes, is
/// // committed, and the token is put.
/// let table = [7, 10, 1, 0, 9, 0, 1, 6, 2, 12, 0, 1, 13, 3];
/// let choices = [1, 0, 2, 0, 0, 2, 0, 0, 1, 0, 1, 0];
/// let printed = ruonfidd::print_run(&[&table[..], &choices[..]].concat());
/// assert_eq!(printed.as_str(), "R 0 12 5\nC 1 0 0\nT 0 1 -1 0\nT 1 0 1 1\n");
///
/// // Above 16,384 bytes nothing is run.
/// assert_eq!(ruonfidd::print_run(&[0; 16_385]).as_str(), "long\n");
/// ```
#[must_use]
pub fn print_run(input: &[u8]) -> Printed {
    Printed::of(input)
}

/// Writes the sentence of a choice and its answer into lent memory and gives how
/// many bytes it has. [`say`] brings its own memory.
///
/// The choice is its kind, position and node, any bytes, also those that no hall
/// takes; with kind 1 the node counts for nothing. The sentence stands at the
/// front of the buffer, and what follows it there is as it was. `docs/FORMAT.md`
/// has the words.
///
/// # Errors
///
/// 21, place 0, where the buffer is shorter than [`SENTENCE_BYTES`]; nothing is
/// written then.
///
/// ```
/// use ruonfidd::{say_into, Answer, Refusal, SENTENCE_BYTES};
///
/// let mut buffer = [b'.'; SENTENCE_BYTES];
/// let length = say_into([1, 0, 0], Answer::moved(7), &mut buffer)?;
/// assert_eq!(buffer[..length], *b"Kind 1 at station 0 moved by rule 7, block committed.");
/// assert!(buffer[length..].iter().all(|byte| *byte == b'.'));
///
/// let refusal = say_into([1, 0, 0], Answer::moved(7), &mut buffer[1..]).unwrap_err();
/// assert_eq!((refusal.number, refusal.place), (Refusal::BUFFER_TOO_SHORT, 0));
/// # Ok::<(), Refusal>(())
/// ```
pub fn say_into(choice: [u8; 3], answer: Answer, buffer: &mut [u8]) -> Result<usize, Refusal> {
    let (moved, number, shortage) = answer.to_bytes();
    let mut length = 0;
    let refused = ffi::sentence(choice, moved, number, shortage, buffer, &mut length);
    Refusal::unless_zero(refused, 0).map(|()| length)
}

/// The sentence of a choice and its answer: [`say_into`] in memory of its own.
///
/// The answers of a step have theirs already: see [`Moved`] and [`Refused`].
///
/// ```
/// use ruonfidd::{say, Answer, Shortage};
///
/// let sentence = say([2, 3, 14], Answer::Refused(17));
/// assert_eq!(
///     sentence.to_string(),
///     "Kind 2 at station 3, node 14 met refusal 17, no move at this node."
/// );
/// // No hall gives this one.
/// let shortage = Shortage::new(255, 255);
/// let sentence = say([255; 3], Answer::Moved { rule: 255, shortage });
/// assert_eq!(
///     sentence.to_string(),
///     "Kind 255 at station 255, node 255 moved by rule 255, tray 255 short by 255."
/// );
/// ```
#[must_use]
pub fn say(choice: [u8; 3], answer: Answer) -> Sentence {
    Sentence::of(choice, answer)
}

/// The README's example.
#[cfg(doctest)]
#[doc = include_str!("../../README.md")]
struct Readme;
