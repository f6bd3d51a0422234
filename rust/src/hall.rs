//! A hall that owns its bytes.

use std::fmt;

use crate::{check_hall, open_hall, run, step, suggest};
use crate::{
    Choice, Followed, Moved, Refusal, Refused, Stopped, SuggestedSteps, Tally, HALL_BYTES,
};

/// How many trays there are: a stored hall begins with so many counts.
const TRAYS: usize = 16;

/// A hall that is well formed for the table of the last call that changed it.
///
/// It holds its [`HALL_BYTES`] bytes and nothing else: the calls on it take the
/// rule table with them, and another table is refused where the hall does not
/// fit it. The tally is no part of it and is lent to each call beside it. That
/// these are always the same ones is up to the caller; a
/// [`Session`](crate::Session) owns all three. Callers that keep a hall in memory
/// of their own lend it to [`open_hall`], [`run`] and the others instead.
///
/// ```
/// use ruonfidd::{Hall, Refusal};
///
/// let table = [7, 10, 1, 0, 9, 0, 1, 6, 2, 12, 0, 1, 13, 3];
/// let (hall, tally) = Hall::open(&table)?;
/// assert_eq!(hall.counts()[..2], [1, 0]); // one token in tray 0
/// assert_eq!(tally.commits, 0);
///
/// // Stored somewhere, and read again.
/// let stored = hall.as_bytes().to_vec();
/// assert_eq!(Hall::from_bytes(&table, &stored)?, hall);
///
/// // Bytes that are not of this table's halls are turned down.
/// let refusal = Hall::from_bytes(&table, &stored[1..]).unwrap_err();
/// assert_eq!(refusal.number, Refusal::HALL_LENGTH);
/// # Ok::<(), Refusal>(())
/// ```
#[derive(Clone, PartialEq, Eq, Hash)]
pub struct Hall {
    bytes: Box<[u8; HALL_BYTES]>,
}

impl Hall {
    /// The hall that a rule table opens, and the fresh tally.
    ///
    /// # Errors
    ///
    /// 1 to 9 by the table.
    pub fn open(table: &[u8]) -> Result<(Hall, Tally), Refusal> {
        let mut hall = Hall::zeroed();
        let tally = open_hall(table, hall.bytes.as_mut_slice())?;
        Ok((hall, tally))
    }

    /// A hall from stored bytes, which must be well formed for the table.
    ///
    /// # Errors
    ///
    /// As for [`check_hall`]: 1 to 9 by the table, 10 and 11 by the bytes.
    pub fn from_bytes(table: &[u8], bytes: &[u8]) -> Result<Hall, Refusal> {
        check_hall(table, bytes)?;
        let mut hall = Hall::zeroed();
        // Not refused 10: the lengths are the same.
        hall.bytes.copy_from_slice(bytes);
        Ok(hall)
    }

    /// Whether the hall is well formed for this table too.
    ///
    /// # Errors
    ///
    /// 1 to 9 by the table, 11 by the hall.
    ///
    /// ```
    /// let block = [7, 6, 0, 13, 1];
    /// let put = [2, 0, 13, 0];
    /// let (hall, _) = ruonfidd::Hall::open(&block)?;
    /// assert_eq!(hall.check(&block), Ok(()));
    /// assert_eq!(hall.check(&put).unwrap_err().number, 11);
    /// # Ok::<(), ruonfidd::Refusal>(())
    /// ```
    pub fn check(&self, table: &[u8]) -> Result<(), Refusal> {
        check_hall(table, self.as_bytes())
    }

    /// Runs a list of choices, up to its end or to the first one refused: see
    /// [`run`]. The answer is how many choices were done.
    ///
    /// # Errors
    ///
    /// 1 to 9 by the table, 11 by the hall where it is not one of this table's,
    /// 12 to 20 by a choice.
    pub fn run(
        &mut self,
        table: &[u8],
        choices: &[u8],
        tally: &mut Tally,
    ) -> Result<usize, Stopped> {
        run(table, self.bytes.as_mut_slice(), choices, tally)
    }

    /// Makes one choice: see [`step`]. The answer, moved or refused, displays as
    /// its sentence.
    ///
    /// # Errors
    ///
    /// 1 to 9 by the table, 11 by the hall where it is not one of this table's,
    /// 14 to 20 by the choice.
    pub fn step(
        &mut self,
        table: &[u8],
        choice: Choice,
        tally: &mut Tally,
    ) -> Result<Moved, Refused> {
        step(table, self.bytes.as_mut_slice(), choice, tally)
    }

    /// The first accepted choice, by position and then by node; none where the
    /// hall is still: see [`suggest`].
    ///
    /// # Errors
    ///
    /// 1 to 9 by the table, 11 by the hall where it is not one of this table's.
    ///
    /// ```
    /// use ruonfidd::{Choice, Hall, Refusal};
    ///
    /// // Two stations with the same block: end, or else end. Both can begin.
    /// let table = [7, 11, 0, 0, 6, 1, 5, 2, 2, 13, 3];
    /// let (mut hall, mut tally) = Hall::open(&table)?;
    /// let begin = Choice::Act { position: 0 };
    /// assert_eq!(hall.suggest(&table), Ok(Some(begin)));
    ///
    /// // The attempt goes before the block that waits behind it.
    /// hall.step(&table, begin, &mut tally)?;
    /// let inside = Choice::Inside { position: 0, node: 0 };
    /// assert_eq!(hall.suggest(&table), Ok(Some(inside)));
    ///
    /// // So it does to its end: the fork opens, it keeps its left side, the block
    /// // is committed. Then the other block is the first station, and begins.
    /// let mut choices = Vec::new();
    /// for step in hall.suggested_steps(&table, &mut tally).take(4) {
    ///     choices.push(step?.choice);
    /// }
    /// assert_eq!(choices, [inside, inside, begin, begin]);
    /// # Ok::<(), Refusal>(())
    /// ```
    pub fn suggest(&self, table: &[u8]) -> Result<Option<Choice>, Refusal> {
        suggest(table, self.as_bytes())
    }

    /// The steps that lead on from here, each suggested and then made, up to a
    /// still hall. They may have no end: see [`SuggestedSteps`].
    pub fn suggested_steps<'a>(
        &'a mut self,
        table: &'a [u8],
        tally: &'a mut Tally,
    ) -> SuggestedSteps<'a> {
        SuggestedSteps::new(self, table, tally)
    }

    /// Follows suggestions for at most so many choices, and says whether the
    /// hall is still then.
    ///
    /// A waiting block can always begin, so a hall with one is never still. A
    /// block that finds too little begins again and again, and no station behind
    /// it gets its turn.
    ///
    /// # Errors
    ///
    /// 1 to 9 by the table, 11 by the hall where it is not one of this table's;
    /// nothing was done then.
    ///
    /// ```
    /// use ruonfidd::{Hall, Refusal};
    ///
    /// // Reads a token from tray 0 and writes one to tray 1: five choices.
    /// let table = [7, 10, 1, 0, 9, 0, 1, 6, 2, 12, 0, 1, 13, 3];
    /// let (mut hall, mut tally) = Hall::open(&table)?;
    /// let followed = hall.follow(&table, &mut tally, 4)?;
    /// assert_eq!((followed.done, followed.still), (4, false));
    /// let followed = hall.follow(&table, &mut tally, 4)?;
    /// assert_eq!((followed.done, followed.still), (1, true));
    /// assert_eq!(tally.commits, 1);
    ///
    /// // Without the token the block begins, retries, begins, ...
    /// let table = [7, 10, 1, 0, 9, 0, 1, 6, 2, 13, 3];
    /// let (mut hall, mut tally) = Hall::open(&table)?;
    /// let followed = hall.follow(&table, &mut tally, 3_000)?;
    /// assert_eq!((followed.done, followed.still), (3_000, false));
    /// assert_eq!(tally.retries, 1_000);
    /// # Ok::<(), Refusal>(())
    /// ```
    pub fn follow(
        &mut self,
        table: &[u8],
        tally: &mut Tally,
        most: usize,
    ) -> Result<Followed, Refusal> {
        let mut done = 0;
        for step in self.suggested_steps(table, tally).take(most) {
            step?;
            done += 1;
        }
        let still = self.suggest(table)?.is_none();
        Ok(Followed { done, still })
    }

    /// The stored form.
    #[must_use]
    pub fn as_bytes(&self) -> &[u8; HALL_BYTES] {
        &self.bytes
    }

    /// The stored form, without a copy.
    #[must_use]
    pub fn into_bytes(self) -> Box<[u8; HALL_BYTES]> {
        self.bytes
    }

    /// How many tokens each tray holds, tray 0 first.
    #[must_use]
    pub fn counts(&self) -> &[u8] {
        &self.bytes[..TRAYS]
    }

    /// Memory for a hall, which is not one yet for every table.
    fn zeroed() -> Hall {
        Hall {
            bytes: Box::new([0; HALL_BYTES]),
        }
    }

    /// How many stations there are, and how many bytes they and the counts take.
    ///
    /// Behind the counts stand pieces, each with its kind first and a length
    /// that the kind fixes: stations that wait (20) or put (24), the heads of
    /// attempts (21), and the forks (22) and leaves (23) behind such a head.
    fn extent(&self) -> (usize, usize) {
        let mut stations = 0;
        let mut used = TRAYS;
        while let Some(kind) = self.bytes.get(used) {
            let (station, length) = match kind {
                20 | 24 => (1, 2),
                21 => (1, 2 + TRAYS),
                22 => (0, 1),
                23 => (0, 19),
                _ => break,
            };
            stations += station;
            used += length;
        }
        (stations, used)
    }
}

impl AsRef<[u8]> for Hall {
    fn as_ref(&self) -> &[u8] {
        self.as_bytes()
    }
}

/// The counts and the extent; the bytes would fill many screens.
impl fmt::Debug for Hall {
    fn fmt(&self, out: &mut fmt::Formatter<'_>) -> fmt::Result {
        let (stations, used_bytes) = self.extent();
        out.debug_struct("Hall")
            .field("counts", &self.counts())
            .field("stations", &stations)
            .field("used_bytes", &used_bytes)
            .finish_non_exhaustive()
    }
}
