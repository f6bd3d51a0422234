//! A lesson: choices made one by one, and in the end once more as whole runs.
//!
//! A refused choice ends a call of the engine. A lesson may go on behind it with
//! a new call, on the hall as it stands.

use ruonfidd::{Choice, Hall, Refusal, Tally};

use crate::names::Lost;
use crate::rehearsal::{position_of, Happened, Moment, Rehearsal, Unmade};
use crate::table::Table;
use crate::text::choices::{Ask, Called, Line};
use crate::text::tree::Program;

/// What the engine said to a choice.
#[derive(Clone, Debug, PartialEq, Eq)]
pub enum Answer {
    /// It moved.
    Moved(Box<Happened>),
    /// It was refused, and the call is over.
    Refused(Refusal),
}

/// What came of a step that was made whole.
#[derive(Clone, Debug, PartialEq, Eq)]
pub struct Whole {
    /// The choices that moved, in order.
    pub moved: Vec<Happened>,
    /// The choice behind them that was refused, where the step has no end.
    pub refused: Option<(Choice, Refusal)>,
}

/// The choices of one call, and how it ended.
#[derive(Clone, Debug, Default, PartialEq, Eq)]
pub struct Call {
    /// The list of choices.
    pub choices: Vec<u8>,
    /// How many of them moved.
    pub done: usize,
    /// The number of the refusal that ended it.
    pub refused: Option<u8>,
}

/// A lesson under way.
#[derive(Clone, Debug)]
pub struct Lesson<'a> {
    rehearsal: Rehearsal<'a>,
    calls: Vec<Call>,
}

/// This program's steps and the engine's runs are at odds.
#[derive(Clone, Copy, Debug, PartialEq, Eq)]
pub struct Contradiction(pub &'static str);

const NAMES: Contradiction = Contradiction("names and stations do not fit together");

impl<'a> Lesson<'a> {
    /// At the opening of a hall.
    ///
    /// # Errors
    ///
    /// Where the program is not the table's.
    pub fn open(table: &'a Table, program: &'a Program) -> Result<Lesson<'a>, Contradiction> {
        let rehearsal = Rehearsal::open(table, program).map_err(|_| NAMES)?;
        Ok(Lesson {
            rehearsal,
            calls: vec![Call::default()],
        })
    }

    /// The hall under way.
    #[must_use]
    pub fn rehearsal(&self) -> &Rehearsal<'a> {
        &self.rehearsal
    }

    /// The hall as it stands.
    #[must_use]
    pub fn now(&self) -> &Moment {
        self.rehearsal.now()
    }

    /// The calls so far; the last one is open.
    #[must_use]
    pub fn calls(&self) -> &[Call] {
        &self.calls
    }

    /// How many choices moved.
    #[must_use]
    pub fn done(&self) -> usize {
        self.calls.iter().map(|call| call.done).sum()
    }

    /// How many choices were refused.
    #[must_use]
    pub fn refused(&self) -> usize {
        let refused = self.calls.iter().filter(|call| call.refused.is_some());
        refused.count()
    }

    /// The choice that a line asks for, of several the first; none where it asks
    /// for no choice.
    ///
    /// # Errors
    ///
    /// Where its words lead to no station.
    pub fn choice(&self, ask: &Ask) -> Result<Option<Choice>, Lost> {
        Ok(match ask {
            Ask::Act(called) => Some(Choice::Act {
                position: self.position(called)?,
            }),
            Ask::Step(called, node) => Some(Choice::Inside {
                position: self.position(called)?,
                node: *node,
            }),
            Ask::Do(called) => Some(self.rehearsal.next_of(self.position(called)?)),
            Ask::Board | Ask::Why(_) => None,
        })
    }

    /// The position that words call.
    ///
    /// # Errors
    ///
    /// Where they lead to no station.
    pub fn position(&self, called: &Called) -> Result<u8, Lost> {
        let program = self.rehearsal.program();
        let position = self.now().names.find(program, called)?;
        Ok(u8::try_from(position).unwrap_or(u8::MAX))
    }

    /// Makes a choice.
    ///
    /// # Errors
    ///
    /// Where this program and the engine are at odds.
    pub fn make(&mut self, choice: Choice) -> Result<Answer, Contradiction> {
        let mut bytes = Vec::new();
        choice.write_to(&mut bytes);
        match self.rehearsal.make(choice) {
            Ok(happened) => {
                self.write(&bytes);
                self.count_one();
                Ok(Answer::Moved(Box::new(happened)))
            }
            Err(Unmade::Refused(refusal)) => {
                self.write(&bytes);
                self.end_call(refusal.number);
                Ok(Answer::Refused(refusal))
            }
            Err(Unmade::Contradiction) => Err(NAMES),
        }
    }

    /// Makes a put, a take or an attempt to its end, from where it stands.
    ///
    /// # Errors
    ///
    /// Where this program and the engine are at odds.
    pub fn make_whole(&mut self, position: u8) -> Result<Whole, Contradiction> {
        let mut moved = Vec::new();
        loop {
            let choice = self.rehearsal.next_of(position);
            match self.make(choice)? {
                Answer::Moved(happened) => {
                    let over = happened.rule.ends_step();
                    moved.push(*happened);
                    if over {
                        let refused = None;
                        return Ok(Whole { moved, refused });
                    }
                }
                Answer::Refused(refusal) => {
                    let refused = Some((choice, refusal));
                    return Ok(Whole { moved, refused });
                }
            }
        }
    }

    /// Makes all choices of a line, of which this is the first.
    ///
    /// # Errors
    ///
    /// Where this program and the engine are at odds.
    pub fn make_line(&mut self, line: &Line, first: Choice) -> Result<Whole, Contradiction> {
        if let Ask::Do(_) = line.ask {
            return self.make_whole(u8::try_from(position_of(first)).unwrap_or(u8::MAX));
        }
        Ok(match self.make(first)? {
            Answer::Moved(happened) => Whole {
                moved: vec![*happened],
                refused: None,
            },
            Answer::Refused(refusal) => Whole {
                moved: Vec::new(),
                refused: Some((first, refusal)),
            },
        })
    }

    /// Bytes that are no choice, handed to the engine at the end of a list; it
    /// says which number that has.
    ///
    /// # Errors
    ///
    /// Where it takes them for choices.
    pub fn make_bytes(&mut self, bytes: &[u8]) -> Result<Answer, Contradiction> {
        let mut hall = self.rehearsal.hall().clone();
        let mut tally = self.rehearsal.tally();
        let table = self.rehearsal.table().bytes();
        match hall.run(table, bytes, &mut tally) {
            Err(stopped) if stopped.done == 0 => {
                self.write(bytes);
                self.end_call(stopped.refusal.number);
                Ok(Answer::Refused(stopped.refusal))
            }
            _ => Err(Contradiction(
                "the engine took bytes for choices that are none",
            )),
        }
    }

    fn write(&mut self, bytes: &[u8]) {
        if let Some(call) = self.calls.last_mut() {
            call.choices.extend(bytes);
        }
    }

    fn count_one(&mut self) {
        if let Some(call) = self.calls.last_mut() {
            call.done += 1;
        }
    }

    fn end_call(&mut self, number: u8) {
        if let Some(call) = self.calls.last_mut() {
            call.refused = Some(number);
        }
        self.calls.push(Call::default());
    }

    /// Runs each call's list as a whole, from a hall opened anew: hall, tally,
    /// counts and refusals must be those of the steps.
    ///
    /// # Errors
    ///
    /// Where they are not.
    pub fn agrees(&self) -> Result<(), Contradiction> {
        let table = self.rehearsal.table().bytes();
        let (mut hall, mut tally) =
            Hall::open(table).map_err(|_| Contradiction("an accepted table opens no hall"))?;
        for call in &self.calls {
            if !same_call(table, call, &mut hall, &mut tally) {
                return Err(Contradiction("a run of the choices ends in another way"));
            }
        }
        let same = hall == *self.rehearsal.hall() && tally == self.rehearsal.tally();
        if same {
            Ok(())
        } else {
            Err(Contradiction("a run of the choices leads to another hall"))
        }
    }
}

fn same_call(table: &[u8], call: &Call, hall: &mut Hall, tally: &mut Tally) -> bool {
    match hall.run(table, &call.choices, tally) {
        Ok(done) => call.refused.is_none() && done == call.done,
        Err(stopped) => call.refused == Some(stopped.refusal.number) && stopped.done == call.done,
    }
}

/// Bytes as choices, up to the first that is none; and the bytes from there on.
#[must_use]
pub fn choices_of(bytes: &[u8]) -> (Vec<Choice>, &[u8]) {
    let mut choices = Vec::new();
    let mut rest = bytes;
    loop {
        match *rest {
            [1, position, ..] => {
                choices.push(Choice::Act { position });
                rest = rest.get(2..).unwrap_or(&[]);
            }
            [2, position, node, ..] => {
                choices.push(Choice::Inside { position, node });
                rest = rest.get(3..).unwrap_or(&[]);
            }
            _ => return (choices, rest),
        }
    }
}

/// A choice in the words of a lesson.
#[must_use]
pub fn choice_words(now: &Moment, choice: Choice) -> String {
    match choice {
        Choice::Act { position } => format!("act {}", now.names.name(position.into())),
        Choice::Inside { position, node: 0 } => {
            format!("step {}", now.names.name(position.into()))
        }
        Choice::Inside { position, node } => {
            format!("step {} node {node}", now.names.name(position.into()))
        }
        _ => String::new(),
    }
}

#[cfg(test)]
#[allow(clippy::unwrap_used, clippy::indexing_slicing)]
mod tests {
    use super::{choices_of, Answer, Lesson};
    use crate::table::Table;
    use crate::text::tree::Program;
    use ruonfidd::Choice;

    /// Two blocks that want the one token.
    const TABLE: [u8; 14] = [7, 9, 0, 0, 6, 1, 5, 2, 2, 12, 0, 1, 13, 3];

    fn lesson<'a>(table: &'a Table, program: &'a Program) -> Lesson<'a> {
        let mut lesson = Lesson::open(table, program).unwrap();
        let (choices, rest) = choices_of(&[1, 0, 1, 1, 2, 0, 0, 1, 7, 2, 1, 0, 1, 0, 1, 0]);
        assert!(rest.is_empty());
        for choice in choices {
            lesson.make(choice).unwrap();
        }
        lesson
    }

    #[test]
    fn steps_that_are_not_the_runs_are_noticed() {
        let table = Table::read(&TABLE).unwrap();
        let program = Program::of_table(&table);
        let right = lesson(&table, &program);
        assert_eq!(right.agrees(), Ok(()));
        assert_eq!((right.done(), right.refused()), (6, 1));
        let changed = |change: fn(&mut Lesson<'_>)| {
            let mut wrong = right.clone();
            change(&mut wrong);
            wrong.agrees()
        };
        assert!(changed(|it| it.calls[0].choices[1] = 1).is_err());
        assert!(changed(|it| it.calls[0].done -= 1).is_err());
        assert!(changed(|it| it.calls[0].refused = None).is_err());
        assert!(changed(|it| it.calls[0].refused = Some(15)).is_err());
        assert!(changed(|it| it.calls.truncate(1)).is_err());
        assert!(changed(|it| {
            it.rehearsal.make(Choice::Act { position: 0 }).unwrap();
        })
        .is_err());
    }

    #[test]
    fn a_refused_choice_ends_its_call_and_changes_nothing() {
        let table = Table::read(&TABLE).unwrap();
        let program = Program::of_table(&table);
        let mut lesson = lesson(&table, &program);
        let before = lesson.rehearsal().hall().clone();
        let answer = lesson.make(Choice::Act { position: 9 }).unwrap();
        assert!(matches!(answer, Answer::Refused(refusal) if refusal.number == 14));
        assert_eq!(*lesson.rehearsal().hall(), before);
        assert_eq!(lesson.calls().len(), 3);
        assert_eq!(lesson.calls()[1].refused, Some(14));
    }

    #[test]
    fn bytes_that_are_no_choice() {
        assert_eq!(choices_of(&[1, 2, 2, 3, 4]).0.len(), 2);
        assert_eq!(choices_of(&[1, 2, 3]).1, [3]);
        assert_eq!(choices_of(&[2, 0]).1, [2, 0]);
        let table = Table::read(&TABLE).unwrap();
        let program = Program::of_table(&table);
        let mut lesson = lesson(&table, &program);
        for (bytes, number) in [(&[3][..], 12), (&[1][..], 13), (&[2, 0][..], 13)] {
            let answer = lesson.make_bytes(bytes);
            assert!(matches!(answer, Ok(Answer::Refused(it)) if it.number == number));
        }
        assert!(lesson.make_bytes(&[1, 0]).is_err());
        assert_eq!(lesson.agrees(), Ok(()));
    }
}
