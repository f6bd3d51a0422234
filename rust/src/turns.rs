//! An opening turn by turn, and the stations that it lays down.

use std::iter::FusedIterator;

use crate::{check_table, ffi, Refusal};

/// What a turn has laid down: nothing, or a station; or there is no such turn.
const NOTHING: u8 = 0;
const STATION: u8 = 1;
const PAST_END: u8 = 2;

/// The first bytes of stations in a hall, of those that an opening lays down.
const WAITING: u8 = 20;
const PUTTING: u8 = 24;

/// No process is wider, so no opening lays down more stations.
const MOST_STATIONS: usize = 64;
/// A process so wide takes so many turns, and a narrower one fewer.
const MOST_TURNS: usize = 2 * MOST_STATIONS - 1;

/// A station that an opening lays down. It has not begun anything; other sorts
/// may come.
///
/// ```
/// use ruonfidd::Station;
///
/// assert_eq!(Station::Waiting { term: 3 }.to_bytes(), [20, 3]);
/// assert_eq!(Station::Putting { tray: 7 }.to_bytes(), [24, 7]);
/// ```
#[derive(Clone, Copy, Debug, PartialEq, Eq, Hash)]
#[non_exhaustive]
pub enum Station {
    /// It waits with a take, a repeated take or a block.
    Waiting {
        /// The number of that term.
        term: u8,
    },
    /// It is about to put a token down.
    Putting {
        /// The tray that it is put into.
        tray: u8,
    },
}

impl Station {
    /// The two bytes that it has in a stored hall.
    #[must_use]
    pub fn to_bytes(self) -> [u8; 2] {
        match self {
            Station::Waiting { term } => [WAITING, term],
            Station::Putting { tray } => [PUTTING, tray],
        }
    }

    /// The station of these two bytes, which a turn has laid down.
    fn from_bytes([kind, body]: [u8; 2]) -> Station {
        match kind {
            WAITING => Station::Waiting { term: body },
            PUTTING => Station::Putting { tray: body },
            // It is proved of the engine that an opening lays down no other. A
            // station of a further kind must not be passed over in silence.
            _ => unreachable!("an opening lays down no station of kind {kind}"),
        }
    }
}

/// One turn of an opening; from [`opening_turn`] and [`opening_turns`].
#[derive(Clone, Copy, Debug, PartialEq, Eq, Hash)]
#[non_exhaustive]
pub struct Turn {
    /// The station that it lays down; none where the term is a nil, or two side
    /// by side.
    pub laid: Option<Station>,
    /// How many terms are left to open after it. None is left after the last
    /// turn, and never more than 64 are.
    pub left: usize,
}

impl Turn {
    /// The turn that the library has told of without a refusal; none past the end.
    /// What is laid down is decided by `laid` alone.
    fn told(laid: u8, station: [u8; 2], left: usize) -> Option<Turn> {
        let laid = match laid {
            NOTHING => None,
            STATION => Some(Station::from_bytes(station)),
            PAST_END => return None,
            // It is proved of the engine that it tells one of these three.
            _ => unreachable!("no turn tells {laid} of what it has laid down"),
        };
        Some(Turn { laid, left })
    }
}

/// One turn of a table's opening, counted from 0; none where the opening has no
/// such turn. It reads the table alone: there need be no hall.
///
/// An opening goes by turns over the terms still to open, at first the start
/// term alone. A turn takes the next of them: a nil lays down nothing; two side
/// by side lay down nothing and give way to their sides, the left one next, then
/// the right one; any other process lays down its one station. A start term of
/// width `w` takes `2 * w - 1` turns, 127 at most. Any number may be asked for.
///
/// # Errors
///
/// 1 to 9 by the table.
///
/// ```
/// use ruonfidd::{opening_turn, Refusal, Station};
///
/// // A put into tray 4 and a nil side by side, and a take beside both.
/// let table = [1, 2, 4, 3, 0, 0, 5, 1, 0, 5, 3, 2, 13, 4];
/// let turn = |number| opening_turn(&table, number).unwrap().unwrap();
/// assert_eq!((turn(0).laid, turn(0).left), (None, 2)); // two side by side
/// assert_eq!((turn(1).laid, turn(1).left), (None, 3)); // its left side is two as well
/// assert_eq!((turn(2).laid, turn(2).left), (Some(Station::Putting { tray: 4 }), 2));
/// assert_eq!((turn(3).laid, turn(3).left), (None, 1)); // the nil
/// assert_eq!((turn(4).laid, turn(4).left), (Some(Station::Waiting { term: 2 }), 0));
/// assert_eq!(opening_turn(&table, 5), Ok(None));
///
/// let refusal = opening_turn(&table[..12], 0).unwrap_err();
/// assert_eq!((refusal.number, refusal.place), (Refusal::START_NOT_LAST, 12));
/// ```
pub fn opening_turn(table: &[u8], turn: usize) -> Result<Option<Turn>, Refusal> {
    let (mut laid, mut station, mut left, mut place) = (0, [0; 2], 0, 0);
    let number = ffi::opening_turn(table, turn, &mut laid, &mut station, &mut left, &mut place);
    Refusal::unless_zero(number, place)?;
    Ok(Turn::told(laid, station, left))
}

/// The turns of a table's opening, from the first to the last; each is asked for
/// when it is wanted.
///
/// # Errors
///
/// 1 to 9 by the table, at once: the turns themselves cannot be refused any more.
///
/// ```
/// use ruonfidd::{opening_turns, Refusal};
///
/// // Three puts, the first two side by side and the third beside them.
/// let table = [2, 0, 5, 0, 0, 5, 1, 0, 13, 2];
/// let left: Vec<usize> = opening_turns(&table)?.map(|turn| turn.left).collect();
/// assert_eq!(left, [2, 3, 2, 1, 0]);
/// # Ok::<(), Refusal>(())
/// ```
pub fn opening_turns(table: &[u8]) -> Result<OpeningTurns<'_>, Refusal> {
    check_table(table)?;
    Ok(OpeningTurns {
        table,
        made: 0,
        left: 1,
    })
}

/// The stations that a table opens, in the order in which they are laid down,
/// which is that of the hall. Each is looked for when it is wanted: turn after
/// turn, until one lays down a station.
///
/// # Errors
///
/// 1 to 9 by the table, at once: the stations themselves cannot be refused any
/// more.
///
/// ```
/// use ruonfidd::{opening_stations, Hall, Refusal, Station};
///
/// // A nil, a put into tray 4 and a block, side by side.
/// let table = [1, 2, 4, 7, 6, 2, 5, 1, 3, 5, 0, 4, 13, 5];
/// let mut stations = opening_stations(&table)?;
/// assert_eq!(stations.next(), Some(Station::Putting { tray: 4 }));
/// assert_eq!(stations.next(), Some(Station::Waiting { term: 3 }));
/// assert_eq!(stations.next(), None);
///
/// // So they stand in the hall, behind its 16 counts.
/// let (hall, _) = Hall::open(&table)?;
/// assert_eq!(hall.as_bytes()[16..21], [24, 4, 20, 3, 0]);
/// # Ok::<(), Refusal>(())
/// ```
pub fn opening_stations(table: &[u8]) -> Result<OpeningStations<'_>, Refusal> {
    Ok(OpeningStations {
        turns: opening_turns(table)?,
        laid: 0,
    })
}

/// The turns of an opening, one for each item; from [`opening_turns`].
#[derive(Clone, Debug)]
#[must_use = "a turn is asked for when it is wanted"]
pub struct OpeningTurns<'a> {
    table: &'a [u8],
    /// How many turns were made, which is the number of the next one.
    made: usize,
    /// How many terms these have left to open.
    left: usize,
}

impl Iterator for OpeningTurns<'_> {
    type Item = Turn;

    fn next(&mut self) -> Option<Turn> {
        if self.left == 0 {
            return None;
        }
        // The table was accepted and has not changed since: nothing is refused.
        let turn = opening_turn(self.table, self.made).ok().flatten()?;
        self.made += 1;
        self.left = turn.left;
        Some(turn)
    }

    /// Each term that is left takes one turn at least.
    fn size_hint(&self) -> (usize, Option<usize>) {
        let most = match self.left {
            0 => 0,
            _ => MOST_TURNS.saturating_sub(self.made),
        };
        (self.left, Some(most))
    }
}

/// Where nothing is left to open, there is no further turn.
impl FusedIterator for OpeningTurns<'_> {}

/// The stations of an opening, one for each item; from [`opening_stations`].
#[derive(Clone, Debug)]
#[must_use = "a station is looked for when it is wanted"]
pub struct OpeningStations<'a> {
    turns: OpeningTurns<'a>,
    /// How many stations were laid down.
    laid: usize,
}

impl Iterator for OpeningStations<'_> {
    type Item = Station;

    fn next(&mut self) -> Option<Station> {
        let station = self.turns.find_map(|turn| turn.laid)?;
        self.laid += 1;
        Some(station)
    }

    /// What is left may be nils alone.
    fn size_hint(&self) -> (usize, Option<usize>) {
        let most = match self.turns.left {
            0 => 0,
            _ => MOST_STATIONS.saturating_sub(self.laid),
        };
        (0, Some(most))
    }
}

impl FusedIterator for OpeningStations<'_> {}

#[cfg(test)]
mod tests {
    use super::{Station, Turn};

    #[test]
    fn bytes_and_back() {
        for byte in 0..=255 {
            for station in [
                Station::Waiting { term: byte },
                Station::Putting { tray: byte },
            ] {
                assert_eq!(station.to_bytes()[1], byte);
                assert_eq!(Station::from_bytes(station.to_bytes()), station);
            }
        }
    }

    /// Whatever the station's bytes are, where none is told of they count for
    /// nothing.
    #[test]
    fn what_is_laid_down_is_told_by_one_byte() {
        for station in [[0, 0], [20, 3], [24, 7], [99, 99]] {
            let nothing = Turn {
                laid: None,
                left: 5,
            };
            assert_eq!(Turn::told(0, station, 5), Some(nothing));
            assert_eq!(Turn::told(2, station, 5), None);
        }
        let laid = |station| Turn::told(1, station, 5).map(|turn| (turn.laid, turn.left));
        let waiting = Station::Waiting { term: 3 };
        assert_eq!(laid([20, 3]), Some((Some(waiting), 5)));
        let putting = Station::Putting { tray: 7 };
        assert_eq!(laid([24, 7]), Some((Some(putting), 5)));
    }

    /// A station that is told of is never taken for none.
    #[test]
    #[should_panic(expected = "no station of kind 21")]
    fn a_station_of_a_further_kind() {
        Turn::told(1, [21, 0], 5);
    }

    #[test]
    #[should_panic(expected = "no turn tells 3")]
    fn something_else_laid_down() {
        Turn::told(3, [20, 0], 5);
    }
}
