//! The one-step run and the steps of its converse (document 01, "The one-step
//! run"). Blocks act whole here: there are no logs, forks or leaves. Nothing
//! of the moves, the run or the stored hall is called.

use crate::choice::{whole_choices, Choice};
use crate::hall::{Action, Hall, Station, MOST_STATIONS};
use crate::run::Tally;
use crate::table::{Counts, Table, Term};

/// What a block has noted at its opening.
#[derive(Clone, Debug, PartialEq, Eq)]
pub struct Note {
    /// The counts at that moment.
    pub counts: Counts,
    /// Whether an OUT was done after the note was made. The run itself never
    /// looks at this; it is there for the clause on the path at commit.
    pub gained_since: bool,
}

/// A station of the one-step run.
#[derive(Clone, Debug, PartialEq, Eq)]
pub enum Place {
    /// A put that is still to be done.
    Putting {
        /// Its tray.
        tray: u8,
    },
    /// A take, a repeated take or a block.
    Waiting {
        /// Its term.
        term: usize,
        /// What a block has noted, if it was opened.
        note: Option<Note>,
    },
}

/// The state of the one-step run.
#[derive(Clone, Debug, PartialEq, Eq)]
pub struct OneStep {
    /// One count for each tray.
    pub counts: Counts,
    /// The stations in order.
    pub places: Vec<Place>,
    /// The tally.
    pub tally: Tally,
}

impl OneStep {
    /// The stations in order, without what they have noted.
    pub fn without_notes(&self) -> Vec<Place> {
        let mut places = self.places.clone();
        for place in &mut places {
            if let Place::Waiting { note, .. } = place {
                *note = None;
            }
        }
        places
    }

    /// Feeds what one call has done: so many choices at the front of its list.
    ///
    /// # Errors
    ///
    /// Why one of them cannot be taken.
    ///
    /// # Panics
    ///
    /// When the list has fewer choices.
    pub fn feed_done(
        &mut self,
        table: &Table,
        choices: &[u8],
        done: usize,
    ) -> Result<(), NotPossible> {
        for choice in &whole_choices(choices)[..done] {
            feed(table, self, *choice)?;
        }
        Ok(())
    }
}

/// The stations of a hall as the one-step run has them: an open attempt is a
/// block that was not begun.
pub fn not_begun(hall: &Hall) -> Vec<Place> {
    let mut places = Vec::new();
    for station in &hall.stations {
        places.push(match *station {
            Station::Putting { tray } => Place::Putting { tray },
            Station::Waiting { term } | Station::Attempt { term, .. } => {
                Place::Waiting { term, note: None }
            }
        });
    }
    places
}

/// A branch of a block that finishes in end: its actions in order.
pub type Path = Vec<Action>;

/// What one choice did.
#[derive(Clone, Debug, PartialEq, Eq)]
pub enum Happened {
    /// Nothing: a choice of kind 2.
    Nothing,
    /// A put was done.
    Out {
        /// The tray that gained a token.
        tray: u8,
    },
    /// A take was done.
    In {
        /// The tray that lost a token.
        tray: u8,
    },
    /// A repeated take was done once.
    Rep {
        /// The tray that lost a token.
        tray: u8,
    },
    /// A block has noted the counts.
    Noted,
    /// A block had no path readable at its note.
    Retried,
    /// A block's path was not readable any more.
    Failed,
    /// A block was committed.
    Committed {
        /// The path taken.
        path: Path,
        /// The first path readable at the counts of the commit.
        first_now: Option<Path>,
        /// Whether a tray has gained since the opening.
        gained_since: bool,
    },
}

/// A choice or step that cannot be taken here.
#[derive(Clone, Copy, Debug, PartialEq, Eq)]
pub enum NotPossible {
    /// There is no station at the position.
    NoStation,
    /// The station is of another kind.
    WrongStation,
    /// A take meets a count of 0.
    EmptyTray,
    /// A put meets a count of 255.
    FullTray,
    /// More than 64 stations would stand.
    FullHall,
    /// A block has no path readable now.
    NoReadablePath,
}

/// The state at the start of the run, with the tally as first lent.
pub fn start(table: &Table, tally: Tally) -> OneStep {
    OneStep {
        counts: table.tokens,
        places: lay_down(table, table.start),
        tally,
    }
}

/// The stations of a process term: left side first, nil none.
fn lay_down(table: &Table, term: usize) -> Vec<Place> {
    let mut places = Vec::new();
    let mut to_do = vec![term];
    while let Some(next) = to_do.pop() {
        match table.terms[next] {
            Term::Nil => {}
            Term::Put { tray } => places.push(Place::Putting { tray }),
            Term::SideBySide { left, right } => {
                to_do.push(right);
                to_do.push(left);
            }
            _ => places.push(Place::Waiting {
                term: next,
                note: None,
            }),
        }
    }
    places
}

/// All paths of an expression, left to right.
///
/// # Panics
///
/// On a process.
pub fn paths(table: &Table, expression: usize) -> Vec<Path> {
    match table.terms[expression] {
        Term::End => vec![vec![]],
        Term::Retry => vec![],
        Term::Rd { tray, rest } => with_first(Action::Read(tray), paths(table, rest)),
        Term::Wt { tray, rest } => with_first(Action::Write(tray), paths(table, rest)),
        Term::OrElse { left, right } => {
            let mut all = paths(table, left);
            all.extend(paths(table, right));
            all
        }
        _ => panic!("a process has no paths"),
    }
}

fn with_first(action: Action, tails: Vec<Path>) -> Vec<Path> {
    let mut all = Vec::new();
    for tail in tails {
        let mut path = vec![action];
        path.extend(tail);
        all.push(path);
    }
    all
}

/// The counts with a path's reads taken away, or nothing when a tray has too
/// few tokens.
fn without_reads(counts: &Counts, path: &[Action]) -> Option<Counts> {
    let mut left = *counts;
    for action in path {
        if let Action::Read(tray) = action {
            let count = &mut left[usize::from(*tray)];
            if *count == 0 {
                return None;
            }
            *count -= 1;
        }
    }
    Some(left)
}

/// True when for each tray the path's reads are at most the count.
pub fn readable(counts: &Counts, path: &[Action]) -> bool {
    without_reads(counts, path).is_some()
}

/// The first path of a block, left to right, readable at these counts.
///
/// # Panics
///
/// On a term that is no block.
pub fn first_readable_path(table: &Table, block: usize, counts: &Counts) -> Option<Path> {
    let Term::Atom { body } = table.terms[block] else {
        panic!("only a block has paths");
    };
    paths(table, body)
        .into_iter()
        .find(|path| readable(counts, path))
}

/// Feeds one choice that the engine has done.
///
/// # Errors
///
/// Why it cannot be taken; the state is then as it was.
pub fn feed(table: &Table, state: &mut OneStep, choice: Choice) -> Result<Happened, NotPossible> {
    let Choice::Act { position } = choice else {
        return Ok(Happened::Nothing);
    };
    let position = usize::from(position);
    let place = state
        .places
        .get(position)
        .ok_or(NotPossible::NoStation)?
        .clone();
    match place {
        Place::Putting { .. } => put(state, position),
        Place::Waiting { term, note } => match table.terms[term] {
            Term::Atom { .. } => match note {
                None => {
                    state.places[position] = Place::Waiting {
                        term,
                        note: Some(Note {
                            counts: state.counts,
                            gained_since: false,
                        }),
                    };
                    Ok(Happened::Noted)
                }
                Some(note) => settle(table, state, position, term, &note),
            },
            _ => take(table, state, position),
        },
    }
}

/// OUT.
fn put(state: &mut OneStep, position: usize) -> Result<Happened, NotPossible> {
    let Some(Place::Putting { tray }) = state.places.get(position).cloned() else {
        return Err(NotPossible::WrongStation);
    };
    let count = &mut state.counts[usize::from(tray)];
    if *count == 255 {
        return Err(NotPossible::FullTray);
    }
    *count += 1;
    state.places.remove(position);
    for place in &mut state.places {
        if let Place::Waiting {
            note: Some(note), ..
        } = place
        {
            note.gained_since = true;
        }
    }
    Ok(Happened::Out { tray })
}

/// IN or REP.
fn take(table: &Table, state: &mut OneStep, position: usize) -> Result<Happened, NotPossible> {
    let Some(Place::Waiting { term, .. }) = state.places.get(position).cloned() else {
        return Err(NotPossible::WrongStation);
    };
    let (tray, then, stays) = match table.terms[term] {
        Term::Take { tray, then } => (tray, then, false),
        Term::RepeatedTake { tray, then } => (tray, then, true),
        _ => return Err(NotPossible::WrongStation),
    };
    if state.counts[usize::from(tray)] == 0 {
        return Err(NotPossible::EmptyTray);
    }
    let mut places = lay_down(table, then);
    if stays {
        places.push(Place::Waiting { term, note: None });
    }
    replace(state, position, places)?;
    state.counts[usize::from(tray)] -= 1;
    if stays {
        Ok(Happened::Rep { tray })
    } else {
        Ok(Happened::In { tray })
    }
}

/// A block acts that has a note: its attempt ends.
fn settle(
    table: &Table,
    state: &mut OneStep,
    position: usize,
    term: usize,
    note: &Note,
) -> Result<Happened, NotPossible> {
    let no_note = Place::Waiting { term, note: None };
    let Some(path) = first_readable_path(table, term, &note.counts) else {
        state.places[position] = no_note;
        raise(&mut state.tally.retries);
        return Ok(Happened::Retried);
    };
    if !readable(&state.counts, &path) {
        state.places[position] = no_note;
        raise(&mut state.tally.failed);
        return Ok(Happened::Failed);
    }
    let first_now = first_readable_path(table, term, &state.counts);
    commit_path(state, position, &path)?;
    raise(&mut state.tally.commits);
    Ok(Happened::Committed {
        path,
        first_now,
        gained_since: note.gained_since,
    })
}

/// The block at the position acts in one step, by a path readable now.
fn commit_path(state: &mut OneStep, position: usize, path: &[Action]) -> Result<(), NotPossible> {
    let left = without_reads(&state.counts, path).ok_or(NotPossible::NoReadablePath)?;
    let mut putting = Vec::new();
    for action in path {
        if let Action::Write(tray) = action {
            putting.push(Place::Putting { tray: *tray });
        }
    }
    replace(state, position, putting)?;
    state.counts = left;
    Ok(())
}

/// Puts these in the place of the station, unless the hall would get too full.
fn replace(state: &mut OneStep, position: usize, by: Vec<Place>) -> Result<(), NotPossible> {
    if state.places.len() - 1 + by.len() > MOST_STATIONS {
        return Err(NotPossible::FullHall);
    }
    state.places.splice(position..=position, by);
    Ok(())
}

/// One more, but never past the top.
fn raise(counter: &mut u32) {
    const TOP: u32 = 4_294_967_295;
    *counter = if *counter == TOP { TOP } else { *counter + 1 };
}

/// A step of the converse: no notes, no choices.
#[derive(Clone, Copy, Debug, PartialEq, Eq)]
pub enum Step {
    /// A put.
    Out {
        /// At which station.
        position: usize,
    },
    /// A take.
    In {
        /// At which station.
        position: usize,
    },
    /// A repeated take.
    Rep {
        /// At which station.
        position: usize,
    },
    /// A block acts whole, by its first path readable now.
    Commit {
        /// At which station.
        position: usize,
    },
}

/// Takes a step of the converse. The tally has no part in it.
///
/// # Errors
///
/// Why the step is not within the limits; the state is then as it was.
pub fn take_step(table: &Table, state: &mut OneStep, step: Step) -> Result<(), NotPossible> {
    match step {
        Step::Out { position } => {
            place_of(state, position)?;
            put(state, position).map(|_| ())
        }
        Step::In { position } => {
            let term = term_of(place_of(state, position)?)?;
            match table.terms[term] {
                Term::Take { .. } => take(table, state, position).map(|_| ()),
                _ => Err(NotPossible::WrongStation),
            }
        }
        Step::Rep { position } => {
            let term = term_of(place_of(state, position)?)?;
            match table.terms[term] {
                Term::RepeatedTake { .. } => take(table, state, position).map(|_| ()),
                _ => Err(NotPossible::WrongStation),
            }
        }
        Step::Commit { position } => {
            let term = term_of(place_of(state, position)?)?;
            let Term::Atom { .. } = table.terms[term] else {
                return Err(NotPossible::WrongStation);
            };
            let path = first_readable_path(table, term, &state.counts);
            commit_path(state, position, &path.ok_or(NotPossible::NoReadablePath)?)
        }
    }
}

fn place_of(state: &OneStep, position: usize) -> Result<&Place, NotPossible> {
    state.places.get(position).ok_or(NotPossible::NoStation)
}

fn term_of(place: &Place) -> Result<usize, NotPossible> {
    match place {
        Place::Waiting { term, .. } => Ok(*term),
        Place::Putting { .. } => Err(NotPossible::WrongStation),
    }
}

/// All steps of the converse that can be taken now within the limits.
pub fn possible_steps(table: &Table, state: &OneStep) -> Vec<Step> {
    let mut possible = Vec::new();
    for position in 0..state.places.len() {
        for step in [
            Step::Out { position },
            Step::In { position },
            Step::Rep { position },
            Step::Commit { position },
        ] {
            if take_step(table, &mut state.clone(), step).is_ok() {
                possible.push(step);
            }
        }
    }
    possible
}
