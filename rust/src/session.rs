//! A hall in use, with all that its calls need.

use std::iter::FusedIterator;

use crate::{check_hall, opening_stations, opening_turns, print_run};
use crate::{
    Choice, Followed, Hall, Moved, OpeningStations, OpeningTurns, Printed, Refusal, Refused,
    Sentence, Stopped, Tally, HALL_BYTES,
};

/// What a session rests on: its table was accepted and its hall was well formed
/// when they came in, nobody has written them since, and it is proved of the
/// engine that a choice leaves a hall of the same table.
const ACCEPTED: &str = "the session's table and hall are accepted";

/// A hall in use: it owns its rule table, its hall and its tally.
///
/// What is proved of a whole list of calls, that each committed block acts in one
/// moment and that abandoned attempts leave no trace but in the tally, asks
/// something of the caller: each call gets the same table, and hall and tally as
/// the last call left them, and nobody else writes them in between. Here this
/// holds by construction. Nothing outside this type can write the three: they go
/// out as copies, or lent for reading. So the hall is always the one that the
/// choices accepted so far lead to, from the opening or from what was restored.
///
/// A clone goes its own way from there on, and the same holds for it.
///
/// ```
/// use ruonfidd::{Choice, Moved, Refusal, Session};
///
/// // A block that reads a token from tray 0 and writes one to tray 1.
/// let table = [7, 10, 1, 0, 9, 0, 1, 6, 2, 12, 0, 1, 13, 3];
/// let mut session = Session::open(&table)?;
/// let moved = session.step(Choice::Act { position: 0 })?;
/// assert_eq!(moved.rule, Moved::ATST);
///
/// let followed = session.follow(100);
/// assert_eq!((followed.done, followed.still), (4, true));
/// assert_eq!(session.counts()[..2], [0, 1]);
/// assert_eq!(session.tally().commits, 1);
/// # Ok::<(), Refusal>(())
/// ```
///
/// Its hall can be read, and not be written:
///
/// ```compile_fail,E0596
/// # let table = [2, 0, 13, 0];
/// # let session = ruonfidd::Session::open(&table).unwrap();
/// let mut tally = session.tally();
/// session.hall().run(&table, &[1, 0], &mut tally).unwrap();
/// ```
///
/// Nor can its tally, nor its table:
///
/// ```compile_fail,E0616
/// # let mut session = ruonfidd::Session::open(&[2, 0, 13, 0]).unwrap();
/// session.tally.commits = 7;
/// ```
///
/// ```compile_fail,E0594
/// # let session = ruonfidd::Session::open(&[2, 0, 13, 0]).unwrap();
/// session.table()[1] = 5;
/// ```
#[derive(Clone, Debug, PartialEq, Eq, Hash)]
pub struct Session {
    table: Box<[u8]>,
    hall: Hall,
    tally: Tally,
}

/// Beginnings, and what is kept for a later one.
impl Session {
    /// Opens a rule table, of which the session keeps a copy. The tally is fresh.
    ///
    /// # Errors
    ///
    /// 1 to 9 by the table.
    pub fn open(table: &[u8]) -> Result<Session, Refusal> {
        let (hall, tally) = Hall::open(table)?;
        Ok(Session {
            table: table.into(),
            hall,
            tally,
        })
    }

    /// What must be stored beside the table, for [`Session::restore`]: the hall's
    /// bytes and the tally.
    #[must_use]
    pub fn save(&self) -> (&[u8; HALL_BYTES], Tally) {
        (self.hall.as_bytes(), self.tally)
    }

    /// Goes on from a stored hall and the tally that was stored beside it.
    ///
    /// It is tested that the bytes are a hall of this table, and not where they
    /// come from: a hall that no run led to is taken too. What is proved of a
    /// whole list of calls holds over such a break where table, hall and tally are
    /// what one session had at one moment.
    ///
    /// # Errors
    ///
    /// 1 to 9 by the table; 10, place 0, where the hall is not [`HALL_BYTES`] long;
    /// 11, place 0, where it is no hall of this table.
    ///
    /// ```
    /// use ruonfidd::{Refusal, Session};
    ///
    /// let table = [7, 10, 1, 0, 9, 0, 1, 6, 2, 12, 0, 1, 13, 3];
    /// let mut session = Session::open(&table)?;
    /// session.follow(2);
    /// let (hall, tally) = session.save();
    /// let mut stored = hall.to_vec();
    /// assert_eq!(Session::restore(&table, &stored, tally)?, session);
    ///
    /// // A byte that is none of a station's.
    /// stored[16] = 99;
    /// let refusal = Session::restore(&table, &stored, tally).unwrap_err();
    /// assert_eq!((refusal.number, refusal.place), (Refusal::HALL_FORM, 0));
    /// // A table that is cut short.
    /// let refusal = Session::restore(&table[..13], &stored, tally).unwrap_err();
    /// assert_eq!((refusal.number, refusal.place), (Refusal::RECORD_CUT_SHORT, 12));
    /// # Ok::<(), Refusal>(())
    /// ```
    pub fn restore(table: &[u8], hall: &[u8], tally: Tally) -> Result<Session, Refusal> {
        Ok(Session {
            hall: Hall::from_bytes(table, hall)?,
            table: table.into(),
            tally,
        })
    }

    /// Whether these bytes are a stored hall of this session's table, and could be
    /// restored with it.
    ///
    /// # Errors
    ///
    /// 10, place 0, where they are not [`HALL_BYTES`] long; 11, place 0, where they
    /// are no hall of the table.
    pub fn check(&self, stored: &[u8]) -> Result<(), Refusal> {
        check_hall(&self.table, stored)
    }
}

/// Choices.
impl Session {
    /// Makes one choice. The answer, moved or refused, displays as its sentence.
    ///
    /// # Errors
    ///
    /// 14 to 20, place 0, by the choice. Hall and tally are then as they were.
    pub fn step(&mut self, choice: Choice) -> Result<Moved, Refused> {
        self.hall.step(&self.table, choice, &mut self.tally)
    }

    /// Runs a list of choices, up to its end or to the first one refused. The
    /// answer is how many choices were done.
    ///
    /// # Errors
    ///
    /// 12 to 20 by a choice. Those before it stay done.
    ///
    /// ```
    /// use ruonfidd::{Refusal, Session};
    ///
    /// let table = [7, 10, 1, 0, 9, 0, 1, 6, 2, 12, 0, 1, 13, 3];
    /// let mut session = Session::open(&table)?;
    /// let stopped = session.run(&[1, 0, 2, 0, 0, 1, 0]).unwrap_err();
    /// assert_eq!((stopped.done, stopped.refusal.place), (2, 5));
    /// assert_eq!(stopped.refusal.number, Refusal::WRONG_STATION);
    /// assert_eq!(session.run(&[2, 0, 0, 1, 0, 1, 0]), Ok(3));
    /// # Ok::<(), Refusal>(())
    /// ```
    pub fn run(&mut self, choices: &[u8]) -> Result<usize, Stopped> {
        self.hall.run(&self.table, choices, &mut self.tally)
    }

    /// What a choice would answer now. It is made on a copy: nothing changes.
    ///
    /// # Errors
    ///
    /// 14 to 20, place 0, by the choice.
    ///
    /// ```
    /// use ruonfidd::{Choice, Moved, Refusal, Session};
    ///
    /// let session = Session::open(&[2, 3, 13, 0])?;
    /// let put = session.ask(Choice::Act { position: 0 })?;
    /// assert_eq!((put.rule, session.counts()[3]), (Moved::OUT, 0));
    /// # Ok::<(), Refusal>(())
    /// ```
    pub fn ask(&self, choice: Choice) -> Result<Moved, Refused> {
        let (mut hall, mut tally) = (self.hall.clone(), self.tally);
        hall.step(&self.table, choice, &mut tally)
    }

    /// What a choice would answer now, in words: the sentence of what
    /// [`Session::ask`] gives.
    ///
    /// ```
    /// use ruonfidd::{Choice, Refusal, Session};
    ///
    /// let session = Session::open(&[2, 3, 13, 0])?;
    /// let said = |position| session.say(Choice::Act { position }).to_string();
    /// assert_eq!(said(0), "Kind 1 at station 0 moved by rule 1, token put.");
    /// assert_eq!(said(1), "Kind 1 at station 1 met refusal 14, no such station.");
    /// # Ok::<(), Refusal>(())
    /// ```
    #[must_use]
    pub fn say(&self, choice: Choice) -> Sentence {
        match self.ask(choice) {
            Ok(moved) => moved.sentence(),
            Err(refused) => refused.sentence(),
        }
    }

    /// The first accepted choice, by position and then by node; none where the
    /// hall is still.
    ///
    /// # Panics
    ///
    /// Never: table and hall are accepted.
    #[must_use]
    pub fn suggest(&self) -> Option<Choice> {
        self.hall.suggest(&self.table).expect(ACCEPTED)
    }

    /// The steps that lead on from here, each suggested and then made, up to a
    /// still hall. They may have no end: see [`SessionSteps`].
    pub fn suggested_steps(&mut self) -> SessionSteps<'_> {
        SessionSteps { session: self }
    }

    /// Follows suggestions for at most so many choices, and says whether the hall
    /// is still then.
    ///
    /// A waiting block can always begin, so a hall with one is never still. A
    /// block that finds too little begins again and again, and no station behind
    /// it gets its turn.
    pub fn follow(&mut self, most: usize) -> Followed {
        let done = self.suggested_steps().take(most).count();
        let still = self.suggest().is_none();
        Followed { done, still }
    }
}

/// What the table alone answers: neither hall nor tally is looked at.
impl Session {
    /// The turns of the table's opening, from the first to the last.
    ///
    /// # Panics
    ///
    /// Never: the table is accepted.
    pub fn turns(&self) -> OpeningTurns<'_> {
        opening_turns(&self.table).expect(ACCEPTED)
    }

    /// The stations that the table opens, in the order of the hall.
    ///
    /// # Panics
    ///
    /// Never: the table is accepted.
    pub fn stations(&self) -> OpeningStations<'_> {
        opening_stations(&self.table).expect(ACCEPTED)
    }

    /// Prints the run of these choices from the table's opening, as
    /// [`print_run`] does, wherever the session's own hall is by now.
    ///
    /// ```
    /// use ruonfidd::{Refusal, Session};
    ///
    /// let session = Session::open(&[2, 3, 13, 0])?;
    /// assert_eq!(session.print(&[1, 0]).as_str(), "R 0 2 1\nC 0 0 0\nT 3 0 1 1\n");
    /// # Ok::<(), Refusal>(())
    /// ```
    #[must_use]
    pub fn print(&self, choices: &[u8]) -> Printed {
        // The table ends with its start record, so that the choices begin there.
        print_run(&[&self.table, choices].concat())
    }
}

/// What can be read.
impl Session {
    /// The rule table.
    #[must_use]
    pub fn table(&self) -> &[u8] {
        &self.table
    }

    /// The hall as it stands.
    #[must_use]
    pub fn hall(&self) -> &Hall {
        &self.hall
    }

    /// How many tokens each tray holds, tray 0 first.
    #[must_use]
    pub fn counts(&self) -> &[u8] {
        self.hall.counts()
    }

    /// What the calls have counted.
    #[must_use]
    pub fn tally(&self) -> Tally {
        self.tally
    }
}

/// Steps that are suggested and made, one for each item, which says what it did;
/// from [`Session::suggested_steps`]. Each is the first accepted choice of the hall
/// that the one before it left.
///
/// They end where the hall is still. A waiting block can always begin, so they
/// may go on for ever: whoever wants an end takes so many of them, or uses
/// [`Session::follow`].
///
/// ```
/// use ruonfidd::{Refusal, Session};
///
/// let table = [7, 10, 1, 0, 9, 0, 1, 6, 2, 12, 0, 1, 13, 3];
/// let mut session = Session::open(&table)?;
/// let rules: Vec<u8> = session.suggested_steps().map(|moved| moved.rule).collect();
/// assert_eq!(rules, [4, 8, 10, 7, 1]);
/// # Ok::<(), Refusal>(())
/// ```
#[derive(Debug)]
#[must_use = "a step is made when it is asked for"]
pub struct SessionSteps<'a> {
    session: &'a mut Session,
}

impl Iterator for SessionSteps<'_> {
    type Item = Moved;

    fn next(&mut self) -> Option<Moved> {
        let choice = self.session.suggest()?;
        let moved = self.session.step(choice);
        Some(moved.expect("a suggested choice is accepted"))
    }
}

/// A still hall stays so: no choice is left that could change it.
impl FusedIterator for SessionSteps<'_> {}
