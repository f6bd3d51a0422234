//! A session against the second implementation: every answer, and all that the
//! session owns after every call.

mod by_chance;
mod by_hand;
mod stored;

use reference::calls::{self, StepAnswer};
use reference::choice::{whole_choices, Choice as Second};
use reference::hall::decode;
use reference::print::printed_run;
use reference::run::Tally as SecondTally;
use reference::sentence::{sentence, Reply};
use ruonfidd::{Choice, Session, Tally};

use crate::common::by_chance::accepted;

/// A session, and beside it the second implementation's table, hall and tally,
/// with all choices that were accepted since the opening.
#[derive(Clone, Debug)]
struct Both {
    session: Session,
    table: Vec<u8>,
    hall: Vec<u8>,
    tally: SecondTally,
    made: Vec<u8>,
}

/// A choice of the package.
fn of_second(choice: Second) -> Choice {
    match choice {
        Second::Act { position } => Choice::Act { position },
        Second::Inside { position, node } => Choice::Inside { position, node },
    }
}

/// A tally of the package.
fn tally_of(second: SecondTally) -> Tally {
    Tally {
        commits: second.commits,
        failed: second.failed,
        retries: second.retries,
    }
}

impl Both {
    #[track_caller]
    fn open(table: &[u8]) -> Both {
        let mut hall = vec![170; ruonfidd::HALL_BYTES];
        let tally = calls::open(table, &mut hall).expect("an accepted table");
        let both = Both {
            session: Session::open(table).expect("an accepted table"),
            table: table.to_vec(),
            hall,
            tally,
            made: Vec::new(),
        };
        both.compare();
        both
    }

    /// All that the session owns is what the second implementation has.
    #[track_caller]
    fn compare(&self) {
        let Both {
            session,
            table,
            hall,
            tally,
            ..
        } = self;
        assert_eq!(session.table(), table);
        assert!(session.hall().as_bytes()[..] == *hall, "{session:?}");
        assert_eq!(session.counts(), &hall[..16]);
        assert_eq!(session.tally(), tally_of(*tally));
        let (saved, beside) = session.save();
        assert!(saved[..] == *hall && beside == session.tally());
    }

    /// The second implementation's answer to one choice, on a copy.
    fn answer(&self, choice: Second) -> (StepAnswer, Vec<u8>, SecondTally) {
        let (mut hall, mut tally) = (self.hall.clone(), self.tally);
        let answer = calls::step(&self.table, &mut hall, &mut tally, &choice.bytes());
        (answer, hall, tally)
    }

    /// What a choice would answer, in numbers and in words; nothing changes.
    #[track_caller]
    fn ask(&self, choice: Second) -> u8 {
        let (answer, _, _) = self.answer(choice);
        let asked = self.session.ask(of_second(choice));
        let (number, reply) = match answer {
            StepAnswer::Moved { rule, short } => {
                let moved = asked.expect("an accepted choice");
                let told = moved.shortage.map(|it| (it.tray, it.by.get()));
                assert_eq!(moved.choice, of_second(choice));
                assert_eq!((moved.rule, moved.place), (rule, choice.size()));
                assert_eq!(told, short.map(|it| (it.tray, it.by)));
                (0, Reply::Moved { rule, short })
            }
            StepAnswer::Refused(refusal) => {
                let refused = asked.expect_err("a refused choice");
                let told = (refused.refusal.number, refused.refusal.place);
                assert_eq!(refused.choice, of_second(choice));
                assert_eq!(told, (refusal.number, refusal.place));
                assert!((14..=20).contains(&refusal.number), "{refusal:?}");
                (refusal.number, Reply::Refused(refusal.number))
            }
        };
        let [kind, position, node] = of_second(choice).to_bytes();
        let expected = sentence(kind, position, node, reply);
        assert_eq!(self.session.say(of_second(choice)).as_str(), expected);
        self.compare();
        number
    }

    /// Makes one choice, which answers what was asked before.
    #[track_caller]
    fn step(&mut self, choice: Second) -> u8 {
        let number = self.ask(choice);
        let asked = self.session.ask(of_second(choice));
        let answered = self.session.step(of_second(choice));
        assert_eq!(answered, asked);
        let (_, hall, tally) = self.answer(choice);
        if number == 0 {
            self.made.extend(choice.bytes());
            (self.hall, self.tally) = (hall, tally);
        }
        self.compare();
        number
    }

    /// Runs a list: the number of its refusal, 0 for none.
    #[track_caller]
    fn run(&mut self, choices: &[u8]) -> u8 {
        let second = calls::run(&self.table, &mut self.hall, &mut self.tally, choices);
        let (number, place, done) = match self.session.run(choices) {
            Ok(done) => (0, choices.len(), done),
            Err(stopped) => {
                let refusal = stopped.refusal;
                (refusal.number, refusal.place, stopped.done)
            }
        };
        let expected = (second.number, second.place, second.done);
        assert_eq!((number, place, done), expected, "{choices:?}");
        assert!(number == 0 || (12..=20).contains(&number), "{number}");
        for choice in &whole_choices(choices)[..done] {
            self.made.extend(choice.bytes());
        }
        self.compare();
        number
    }

    /// The suggestion; none where the hall is still.
    #[track_caller]
    fn suggest(&self) -> Option<Second> {
        let second = calls::suggest(&self.table, &self.hall).expect("a hall");
        assert_eq!(self.session.suggest(), second.map(of_second));
        second
    }

    /// Follows suggestions for at most so many choices, one by one on the other
    /// side.
    #[track_caller]
    fn follow(&mut self, most: usize) {
        let mut done = 0;
        for _ in 0..most {
            let Ok(Some(choice)) = calls::suggest(&self.table, &self.hall) else {
                break;
            };
            let (_, hall, tally) = self.answer(choice);
            (self.hall, self.tally) = (hall, tally);
            self.made.extend(choice.bytes());
            done += 1;
        }
        let followed = self.session.follow(most);
        assert_eq!(
            (followed.done, followed.still),
            (done, self.suggest().is_none())
        );
        self.compare();
    }

    /// The printed run of the choices made, which says nothing of the session's
    /// own hall.
    #[track_caller]
    fn print(&self, choices: &[u8]) {
        let expected = printed_run(&[&self.table[..], choices].concat());
        assert_eq!(self.session.print(choices).as_bytes(), expected);
        self.compare();
    }

    /// Stored, and read again.
    #[track_caller]
    fn stored_and_restored(&mut self) {
        let (hall, tally) = self.session.save();
        assert_eq!(self.session.check(hall), Ok(()));
        let restored = Session::restore(self.session.table(), hall, tally);
        let restored = restored.expect("a stored session");
        assert_eq!(restored, self.session);
        self.session = restored;
        self.compare();
    }

    /// The opening and one run of all choices that were accepted lead to the same
    /// hall and the same tally: nothing else has been written in between.
    #[track_caller]
    fn as_one_run(&self) {
        let mut hall = vec![0; ruonfidd::HALL_BYTES];
        let mut tally = calls::open(&self.table, &mut hall).expect("an accepted table");
        let answer = calls::run(&self.table, &mut hall, &mut tally, &self.made);
        assert_eq!((answer.number, answer.place), (0, self.made.len()));
        assert!(self.session.hall().as_bytes()[..] == hall);
        assert_eq!(self.session.tally(), tally_of(tally));
    }

    /// The hall as the second implementation reads it.
    fn decoded(&self) -> reference::hall::Hall {
        decode(&accepted(&self.table), &self.hall).expect("a hall")
    }
}
