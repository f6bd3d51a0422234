//! The library's calls as they are declared for C, and over each of them one
//! function that takes references and gives the bare numbers.
//!
//! All unsafe code of the package is here, and none of this is part of its
//! interface. The functions are safe to call. The package's suite of tests takes
//! this file as a module of its own, to see what the calls set.
//!
//! In the library's calls a `&[u8]` or `&mut [u8]` is a pointer and a length, a
//! `&mut` of a number or of an array is a pointer. A call returns the number of
//! the refusal, 0 for none, and sets the place (a sentence has none).
//! `include/ruonfidd.h` says what a caller owes: memory that may be read, and
//! written where it is not const; no overlap with what is written; no other
//! thread that writes what was lent or reads what is written meanwhile.

#![allow(unsafe_code)]

use std::ptr::addr_of_mut;

use crate::REPORT_BYTES;

/// Each function is declared as in `include/ruonfidd.h`: the same name, and the
/// same parameters in the same order. Numbers have C's widths: `u8` is `uint8_t`,
/// `u32` is `uint32_t`, and `usize` is `size_t` where the library runs.
mod library {
    use crate::REPORT_BYTES;

    extern "C" {
        pub(super) fn ruonfidd_check_table(
            table: *const u8,
            length: usize,
            place: *mut usize,
        ) -> u8;
        pub(super) fn ruonfidd_open_hall(
            table: *const u8,
            length: usize,
            hall: *mut u8,
            hall_length: usize,
            place: *mut usize,
        ) -> u8;
        pub(super) fn ruonfidd_opening_turn(
            table: *const u8,
            length: usize,
            turn: usize,
            laid: *mut u8,
            station: *mut [u8; 2],
            left: *mut usize,
            place: *mut usize,
        ) -> u8;
        pub(super) fn ruonfidd_check_hall(
            table: *const u8,
            length: usize,
            hall: *const u8,
            hall_length: usize,
            place: *mut usize,
        ) -> u8;
        pub(super) fn ruonfidd_fresh_tally(tally: *mut [u32; 3]);
        pub(super) fn ruonfidd_run(
            table: *const u8,
            length: usize,
            hall: *mut u8,
            hall_length: usize,
            choices: *const u8,
            choices_length: usize,
            tally: *mut [u32; 3],
            place: *mut usize,
            done: *mut usize,
        ) -> u8;
        pub(super) fn ruonfidd_step(
            table: *const u8,
            length: usize,
            hall: *mut u8,
            hall_length: usize,
            kind: u8,
            position: u8,
            node: u8,
            tally: *mut [u32; 3],
            rule: *mut u8,
            shortage: *mut [u8; 2],
            place: *mut usize,
        ) -> u8;
        pub(super) fn ruonfidd_suggest(
            table: *const u8,
            length: usize,
            hall: *const u8,
            hall_length: usize,
            choice: *mut [u8; 3],
            place: *mut usize,
        ) -> u8;
        pub(super) fn ruonfidd_report(
            input: *const u8,
            length: usize,
            output: *mut [u8; REPORT_BYTES],
            written: *mut usize,
        );
        pub(super) fn ruonfidd_sentence(
            kind: u8,
            position: u8,
            node: u8,
            moved: u8,
            number: u8,
            tray: u8,
            short_by: u8,
            buffer: *mut u8,
            buffer_length: usize,
            length: *mut usize,
        ) -> u8;
    }
}

/// The number, and in `place` the place: 0 where the number is 0.
pub(crate) fn check_table(table: &[u8], place: &mut usize) -> u8 {
    // SAFETY: `table` is one live slice, whose pointer and length go together.
    // The call only reads it, and while it is borrowed nobody writes it.
    // `place` is borrowed alone: it may be written, nobody else sees it, and it
    // overlaps nothing. The call keeps no pointer.
    unsafe { library::ruonfidd_check_table(table.as_ptr(), table.len(), place) }
}

/// The number, and in `place` the place: 0 where the number is 0. `hall` is
/// written then, and else not.
pub(crate) fn open_hall(table: &[u8], hall: &mut [u8], place: &mut usize) -> u8 {
    // SAFETY: `table` and `hall` are live slices, each with its own pointer and
    // length. The call only reads `table`, and while that is borrowed nobody
    // writes it. `hall` and `place` are each borrowed alone: they may be
    // written, nobody else sees them, and they overlap nothing. The call keeps
    // no pointer.
    unsafe {
        library::ruonfidd_open_hall(
            table.as_ptr(),
            table.len(),
            hall.as_mut_ptr(),
            hall.len(),
            place,
        )
    }
}

/// One turn of a table's opening; turns count from 0.
///
/// The number, and in `place` the place: 0 where the number is 0. In `laid` 0
/// where nothing is laid down, 1 where a station is, 2 where there is no such
/// turn; in `station` the two bytes of that station, 0 and 0 for none; in `left`
/// how many terms are left to open then. What is not said is 0.
pub(crate) fn opening_turn(
    table: &[u8],
    turn: usize,
    laid: &mut u8,
    station: &mut [u8; 2],
    left: &mut usize,
    place: &mut usize,
) -> u8 {
    // SAFETY: `table` is one live slice, whose pointer and length go together.
    // The call only reads it, and while it is borrowed nobody writes it.
    // `laid`, `station`, which has the two bytes that the call sets, `left` and
    // `place` are each borrowed alone: they may be written, nobody else sees
    // them, and they overlap nothing. The call keeps no pointer.
    unsafe {
        library::ruonfidd_opening_turn(
            table.as_ptr(),
            table.len(),
            turn,
            laid,
            station,
            left,
            place,
        )
    }
}

/// The number, and in `place` the place: 0 where the number is 0.
pub(crate) fn check_hall(table: &[u8], hall: &[u8], place: &mut usize) -> u8 {
    // SAFETY: `table` and `hall` are live slices, each with its own pointer and
    // length. The call only reads them, so that they may overlap, and while
    // they are borrowed nobody writes them. `place` is borrowed alone: it may
    // be written, nobody else sees it, and it overlaps nothing. The call keeps
    // no pointer.
    unsafe {
        library::ruonfidd_check_hall(
            table.as_ptr(),
            table.len(),
            hall.as_ptr(),
            hall.len(),
            place,
        )
    }
}

/// Commits, failed and retries of the fresh tally.
pub(crate) fn fresh_tally() -> [u32; 3] {
    let mut tally = [u32::MAX; 3];
    // SAFETY: the pointer is that of a local array of three numbers, which the
    // call writes and nobody else sees. The call keeps no pointer.
    unsafe { library::ruonfidd_fresh_tally(addr_of_mut!(tally)) };
    tally
}

/// The number; in `place` its place, or where it is 0 the length of the
/// choices; in `done` how many choices were done. Hall and tally are as those
/// choices have made them, and as they were where the number is 1 to 11.
pub(crate) fn run(
    table: &[u8],
    hall: &mut [u8],
    choices: &[u8],
    tally: &mut [u32; 3],
    place: &mut usize,
    done: &mut usize,
) -> u8 {
    // SAFETY: `table`, `hall` and `choices` are live slices, each with its own
    // pointer and length. The call only reads `table` and `choices`, so that
    // these two may overlap, and while they are borrowed nobody writes them.
    // `hall`, `tally`, which has the three numbers that the call sets, `place`
    // and `done` are each borrowed alone: they may be written, nobody else sees
    // them, and they overlap nothing. The call keeps no pointer.
    unsafe {
        library::ruonfidd_run(
            table.as_ptr(),
            table.len(),
            hall.as_mut_ptr(),
            hall.len(),
            choices.as_ptr(),
            choices.len(),
            tally,
            place,
            done,
        )
    }
}

/// One choice, in its three bytes: kind, position, node.
///
/// The number; in `place` its place, or where it is 0 the length of the choice;
/// in `rule` the number of the rule done, 0 for none; in `shortage` the tray that
/// was short and by how many, 0 and 0 for none. Hall and tally are as the choice
/// has made them, and as they were where the number is not 0.
pub(crate) fn step(
    table: &[u8],
    hall: &mut [u8],
    [kind, position, node]: [u8; 3],
    tally: &mut [u32; 3],
    rule: &mut u8,
    shortage: &mut [u8; 2],
    place: &mut usize,
) -> u8 {
    // SAFETY: `table` and `hall` are live slices, each with its own pointer and
    // length. The call only reads `table`, and while that is borrowed nobody
    // writes it. `hall`, `tally`, which has the three numbers that the call
    // sets, `rule`, `shortage`, which has the two bytes that it sets, and
    // `place` are each borrowed alone: they may be written, nobody else sees
    // them, and they overlap nothing. The call keeps no pointer.
    unsafe {
        library::ruonfidd_step(
            table.as_ptr(),
            table.len(),
            hall.as_mut_ptr(),
            hall.len(),
            kind,
            position,
            node,
            tally,
            rule,
            shortage,
            place,
        )
    }
}

/// The number, and in `place` the place: 0 where the number is 0. In `choice`
/// the kind, position and node of the first accepted choice; what is not said
/// is 0.
pub(crate) fn suggest(table: &[u8], hall: &[u8], choice: &mut [u8; 3], place: &mut usize) -> u8 {
    // SAFETY: `table` and `hall` are live slices, each with its own pointer and
    // length. The call only reads them, so that they may overlap, and while
    // they are borrowed nobody writes them. `choice`, which has the three bytes
    // that the call sets, and `place` are each borrowed alone: they may be
    // written, nobody else sees them, and they overlap nothing. The call keeps
    // no pointer.
    unsafe {
        library::ruonfidd_suggest(
            table.as_ptr(),
            table.len(),
            hall.as_ptr(),
            hall.len(),
            choice,
            place,
        )
    }
}

/// In `written` how many bytes the report has; it stands at the front of the
/// output, and what follows it there is as it was.
pub(crate) fn report(input: &[u8], output: &mut [u8; REPORT_BYTES], written: &mut usize) {
    // SAFETY: `input` is one live slice, whose pointer and length go together.
    // The call only reads it, and while it is borrowed nobody writes it.
    // `output`, an array of the length that the call asks for, and `written`
    // are each borrowed alone: they may be written, nobody else sees them, and
    // they overlap nothing. The call keeps no pointer.
    unsafe { library::ruonfidd_report(input.as_ptr(), input.len(), output, written) }
}

/// The sentence of a choice, in its three bytes, and of its answer.
///
/// Where `moved` is 0, the choice was refused with `number`, and the two bytes of
/// what was short count for nothing. Where it is any other byte, the choice moved
/// by the rule `number`: two zeros say that nothing was short, and every other pair
/// is named as it is, a tray that is short by 0 as well.
///
/// The number, 0 or 21. Where it is 0, the sentence stands at the front of the
/// buffer and its length in `length`; what follows it in the buffer is as it was.
/// Where it is 21, neither was written: this call alone does not always set what
/// it was given to set.
pub(crate) fn sentence(
    [kind, position, node]: [u8; 3],
    moved: u8,
    number: u8,
    [tray, short_by]: [u8; 2],
    buffer: &mut [u8],
    length: &mut usize,
) -> u8 {
    // SAFETY: `buffer` is one live slice, whose pointer and length go together.
    // It and `length` are each borrowed alone: they may be written, nobody else
    // sees them, and they overlap nothing. The call keeps no pointer.
    unsafe {
        library::ruonfidd_sentence(
            kind,
            position,
            node,
            moved,
            number,
            tray,
            short_by,
            buffer.as_mut_ptr(),
            buffer.len(),
            length,
        )
    }
}

#[cfg(test)]
mod tests {
    use super::{check_hall, check_table, fresh_tally, open_hall, report, run, step, suggest};
    use super::{opening_turn, sentence};
    use crate::{HALL_BYTES, REPORT_BYTES, SENTENCE_BYTES};

    const TABLE: [u8; 14] = [7, 10, 1, 0, 9, 0, 1, 6, 2, 12, 0, 1, 13, 3];

    /// Calls with a place that no call can answer, between two guards.
    #[track_caller]
    fn sets_the_place(call: impl FnOnce(&mut usize) -> u8, number: u8, place: usize) {
        let mut places = [usize::MAX; 3];
        assert_eq!(call(&mut places[1]), number);
        assert_eq!(places, [usize::MAX, place, usize::MAX]);
    }

    #[track_caller]
    fn table_gives(table: &[u8], number: u8, place: usize) {
        let before = table.to_vec();
        sets_the_place(|at| check_table(table, at), number, place);
        assert_eq!(table, before);
    }

    #[test]
    fn the_place_is_set_and_nothing_beside_it() {
        table_gives(&[], 9, 0);
        table_gives(&[1, 13, 0], 0, 0);
        table_gives(&[0], 1, 0);
        table_gives(&[1, 1, 1], 9, 3);
        table_gives(&[1, 13, 0, 77], 9, 3);
        table_gives(&[2, 15, 2, 16, 13, 0], 4, 2);
    }

    #[test]
    fn a_place_beyond_any_byte() {
        let mut table = vec![1; 200];
        for tray in 0..16 {
            table.extend([12, tray, 255]);
        }
        table_gives(&table, 9, 248);
        table.extend([12, 0, 1]);
        table_gives(&table, 8, 248);
        table.truncate(248);
        table.extend([13, 199, 0]);
        table_gives(&table, 9, 250);
        table_gives(&table[..250], 0, 0);
        table.resize(100_000, 0);
        table_gives(&table, 9, 250);
    }

    #[test]
    fn an_opening_writes_the_hall_and_nothing_beside_it() {
        let mut buffer = vec![170; HALL_BYTES + 2];
        sets_the_place(
            |at| open_hall(&TABLE, &mut buffer[1..=HALL_BYTES], at),
            0,
            0,
        );
        assert_eq!((buffer[0], buffer[HALL_BYTES + 1]), (170, 170));
        let mut hall = vec![0; HALL_BYTES];
        hall[0] = 1;
        hall[16..18].copy_from_slice(&[20, 3]);
        assert_eq!(buffer[1..=HALL_BYTES], hall);
    }

    #[test]
    fn a_refused_opening_sets_the_place_and_writes_nothing() {
        let mut hall = vec![170; HALL_BYTES + 1];
        sets_the_place(|at| open_hall(&TABLE, &mut hall, at), 10, 0);
        let hall = &mut hall[..HALL_BYTES];
        sets_the_place(|at| open_hall(&TABLE[..13], hall, at), 2, 12);
        sets_the_place(|at| open_hall(&TABLE[..12], hall, at), 9, 12);
        assert!(hall.iter().all(|byte| *byte == 170));
    }

    /// A turn sets these, each between two guards, and leaves the table.
    #[track_caller]
    fn turn_sets(
        table: &[u8],
        turn: usize,
        (number, place): (u8, usize),
        (laid, station, left): (u8, [u8; 2], usize),
    ) {
        let before = table.to_vec();
        let mut all_laid = [99; 3];
        let mut stations = [[88, 99]; 3];
        let mut lefts = [usize::MAX; 3];
        let set = (&mut all_laid[1], &mut stations[1], &mut lefts[1]);
        sets_the_place(
            |at| opening_turn(table, turn, set.0, set.1, set.2, at),
            number,
            place,
        );
        assert_eq!(all_laid, [99, laid, 99], "turn {turn}");
        assert_eq!(stations, [[88, 99], station, [88, 99]], "turn {turn}");
        assert_eq!(lefts, [usize::MAX, left, usize::MAX], "turn {turn}");
        assert_eq!(table, before);
    }

    #[test]
    fn a_turn_sets_laid_station_left_and_place_and_nothing_beside_them() {
        const NONE: [u8; 2] = [0, 0];
        turn_sets(&TABLE, 0, (0, 0), (1, [20, 3], 0));
        turn_sets(&TABLE, 1, (0, 0), (2, NONE, 0));
        // A put into tray 7 beside a nil.
        let table = [1, 2, 7, 5, 1, 0, 13, 2];
        turn_sets(&table, 0, (0, 0), (0, NONE, 2));
        turn_sets(&table, 1, (0, 0), (1, [24, 7], 1));
        turn_sets(&table, 2, (0, 0), (0, NONE, 0));
        for turn in [3, 4, 255, 256, usize::MAX - 1, usize::MAX] {
            turn_sets(&table, turn, (0, 0), (2, NONE, 0));
        }
    }

    #[test]
    fn a_refused_turn_sets_the_place_and_everything_else_to_0() {
        for turn in [0, 1, 2, 126, 127, usize::MAX] {
            turn_sets(&[], turn, (9, 0), (0, [0, 0], 0));
            turn_sets(&TABLE[..13], turn, (2, 12), (0, [0, 0], 0));
            turn_sets(&TABLE[..12], turn, (9, 12), (0, [0, 0], 0));
            turn_sets(&[1, 13, 0, 77], turn, (9, 3), (0, [0, 0], 0));
        }
    }

    #[test]
    fn a_checked_hall_sets_the_place_and_writes_nothing() {
        let mut hall = vec![0; HALL_BYTES];
        hall[16..18].copy_from_slice(&[20, 3]);
        let before = hall.clone();
        sets_the_place(|at| check_hall(&TABLE, &hall, at), 0, 0);
        sets_the_place(|at| check_hall(&TABLE, &hall[1..], at), 10, 0);
        sets_the_place(|at| check_hall(&TABLE[..13], &hall, at), 2, 12);
        assert_eq!(hall, before);
        hall[17] = 0;
        sets_the_place(|at| check_hall(&TABLE, &hall, at), 11, 0);
    }

    #[test]
    fn the_fresh_tally_is_three_zeros() {
        assert_eq!(fresh_tally(), [0, 0, 0]);
    }

    /// The hall that the table opens, between two guards.
    fn guarded_hall() -> Vec<u8> {
        let mut buffer = vec![170; HALL_BYTES + 2];
        let hall = &mut buffer[1..=HALL_BYTES];
        assert_eq!(open_hall(&TABLE, hall, &mut 0), 0);
        buffer
    }

    /// The hall of the table with its block begun: a token, and an attempt with
    /// a leaf that has read nothing yet.
    fn begun() -> Vec<u8> {
        let mut hall = vec![0; HALL_BYTES];
        hall[0] = 1;
        hall[16..19].copy_from_slice(&[21, 3, 1]);
        hall[34..36].copy_from_slice(&[23, 2]);
        hall
    }

    #[test]
    fn a_run_writes_hall_tally_place_and_done_and_nothing_beside_them() {
        let mut buffer = guarded_hall();
        let mut numbers = [[7; 3], [1, 2, 3], [7; 3]];
        let mut done = [usize::MAX; 3];
        let choices = [1, 0, 2, 0, 0, 2, 0, 0, 1, 0, 1, 0, 9];
        let before = choices;
        sets_the_place(
            |at| {
                let hall = &mut buffer[1..=HALL_BYTES];
                run(&TABLE, hall, &choices, &mut numbers[1], at, &mut done[1])
            },
            12,
            12,
        );
        assert_eq!(choices, before);
        assert_eq!(done, [usize::MAX, 5, usize::MAX]);
        assert_eq!(numbers, [[7; 3], [2, 2, 3], [7; 3]]);
        assert_eq!((buffer[0], buffer[HALL_BYTES + 1]), (170, 170));
        let mut hall = vec![0; HALL_BYTES];
        hall[1] = 1;
        assert_eq!(buffer[1..=HALL_BYTES], hall);
    }

    #[test]
    fn a_run_of_no_choices() {
        let mut buffer = guarded_hall();
        let before = buffer.clone();
        let (mut tally, mut done) = ([4, 5, 6], usize::MAX);
        sets_the_place(
            |at| {
                let hall = &mut buffer[1..=HALL_BYTES];
                run(&TABLE, hall, &[], &mut tally, at, &mut done)
            },
            0,
            0,
        );
        assert_eq!((tally, done), ([4, 5, 6], 0));
        assert_eq!(buffer, before);
    }

    /// What a step sets beside hall and tally, each between two guards.
    #[derive(Debug, PartialEq, Eq)]
    struct Set {
        rules: [u8; 3],
        shortages: [[u8; 2]; 3],
    }

    /// Values that no step sets.
    const UNSET: Set = Set {
        rules: [99; 3],
        shortages: [[88, 99]; 3],
    };

    /// A step on this hall sets this rule and this shortage, and nothing beside
    /// them.
    #[track_caller]
    fn step_sets(
        (table, hall): (&[u8], &mut [u8]),
        choice: [u8; 3],
        tally: &mut [u32; 3],
        (number, place): (u8, usize),
        (rule, shortage): (u8, [u8; 2]),
    ) {
        let mut set = UNSET;
        let (rule_set, shortage_set) = (&mut set.rules[1], &mut set.shortages[1]);
        sets_the_place(
            |at| step(table, hall, choice, tally, rule_set, shortage_set, at),
            number,
            place,
        );
        let mut expected = UNSET;
        expected.rules[1] = rule;
        expected.shortages[1] = shortage;
        assert_eq!(set, expected, "{choice:?}");
    }

    #[test]
    fn a_step_writes_hall_tally_rule_shortage_and_place_and_nothing_beside_them() {
        let mut buffer = guarded_hall();
        let mut tallies = [[7; 3], [1, 2, 3], [7; 3]];
        let hall = &mut buffer[1..=HALL_BYTES];
        let tally = &mut tallies[1];
        step_sets((&TABLE, hall), [1, 0, 77], tally, (0, 2), (4, [0, 0]));
        assert_eq!(hall, begun());
        step_sets((&TABLE, hall), [2, 0, 0], tally, (0, 3), (8, [0, 0]));
        let mut read = begun();
        read[35..38].copy_from_slice(&[1, 1, 0]);
        assert_eq!(hall, read);
        assert_eq!(tallies, [[7; 3], [1, 2, 3], [7; 3]]);
        assert_eq!((buffer[0], buffer[HALL_BYTES + 1]), (170, 170));
    }

    #[test]
    fn a_step_that_finds_too_little_sets_the_shortage() {
        let mut tally = [1, 2, 3];
        // A read of tray 0 where the snapshot has none; the counts have one.
        let mut hall = begun();
        hall[18] = 0;
        step_sets(
            (&TABLE, &mut hall),
            [2, 0, 0],
            &mut tally,
            (0, 3),
            (9, [0, 1]),
        );
        // An end behind three reads of tray 11, of which there is one.
        let mut hall = begun();
        hall[11] = 1;
        hall[34..40].copy_from_slice(&[23, 0, 3, 11, 11, 11]);
        step_sets(
            (&TABLE, &mut hall),
            [1, 0, 0],
            &mut tally,
            (0, 2),
            (6, [11, 2]),
        );
        assert_eq!(tally, [1, 3, 3]);
    }

    #[test]
    fn a_refused_step_sets_rule_shortage_and_place_and_writes_nothing_else() {
        let mut hall = begun();
        let before = hall.clone();
        let mut tally = [1, 2, 3];
        for (table, choice, number, place) in [
            (&TABLE[..13], [1, 0, 0], 2, 12),
            (&TABLE[..], [0, 0, 0], 12, 0),
            (&TABLE[..], [3, 0, 0], 12, 0),
            (&TABLE[..], [255, 255, 255], 12, 0),
            (&TABLE[..], [1, 1, 0], 14, 0),
            (&TABLE[..], [1, 0, 0], 15, 0),
            (&TABLE[..], [2, 0, 1], 16, 0),
            (&TABLE[..], [2, 0, 255], 16, 0),
        ] {
            let answer = (number, place);
            step_sets((table, &mut hall), choice, &mut tally, answer, (0, [0, 0]));
            assert_eq!(tally, [1, 2, 3]);
            assert_eq!(hall, before);
        }
        let none = (0, [0, 0]);
        step_sets(
            (&TABLE, &mut hall[1..]),
            [1, 0, 0],
            &mut tally,
            (10, 0),
            none,
        );
        hall[17] = 0;
        step_sets((&TABLE, &mut hall), [1, 0, 0], &mut tally, (11, 0), none);
        assert_eq!(tally, [1, 2, 3]);
    }

    #[test]
    fn a_suggestion_sets_choice_and_place_and_writes_nothing_else() {
        let suggested = |table: &[u8], hall: &[u8], number, place, choice: [u8; 3]| {
            let before = hall.to_vec();
            let mut choices = [[99; 3]; 3];
            sets_the_place(
                |at| suggest(table, hall, &mut choices[1], at),
                number,
                place,
            );
            assert_eq!(choices, [[99; 3], choice, [99; 3]]);
            assert_eq!(hall, before);
        };
        let opened = guarded_hall();
        suggested(&TABLE, &opened[1..=HALL_BYTES], 0, 0, [1, 0, 0]);
        suggested(&TABLE, &begun(), 0, 0, [2, 0, 0]);
        suggested(&TABLE, &vec![0; HALL_BYTES], 0, 0, [0, 0, 0]);
        suggested(&TABLE[..13], &begun(), 2, 12, [0, 0, 0]);
        suggested(&TABLE, &[], 10, 0, [0, 0, 0]);
        suggested(&TABLE, &vec![1; HALL_BYTES], 11, 0, [0, 0, 0]);
    }

    #[test]
    fn a_report_writes_its_bytes_and_their_number_and_nothing_beside_them() {
        for (input, text) in [
            (vec![], &b"R 9 0 0\n"[..]),
            (vec![1, 13, 0], b"R 0 0 0\nC 0 0 0\n"),
            (vec![2, 3, 13, 0], b"R 0 0 0\nC 0 0 0\nP 3\n"),
            (vec![0; 16_385], b"long\n"),
        ] {
            let before = input.clone();
            let mut buffer = [170; REPORT_BYTES + 2];
            let mut written = [usize::MAX; 3];
            let output = (&mut buffer[1..=REPORT_BYTES])
                .try_into()
                .expect("an array");
            report(&input, output, &mut written[1]);
            assert_eq!(written, [usize::MAX, text.len(), usize::MAX]);
            assert_eq!(buffer[1..=text.len()], *text);
            assert_eq!(buffer[0], 170);
            assert!(buffer[text.len() + 1..].iter().all(|byte| *byte == 170));
            assert_eq!(input, before);
        }
    }

    /// Guards stand around the lent bytes, and around a length that no sentence
    /// has.
    #[test]
    fn a_sentence_writes_its_bytes_and_their_number_and_nothing_beside_them() {
        for (choice, moved, number, shortage, text) in [
            (
                [1, 0, 7],
                1,
                4,
                [0, 0],
                &b"Kind 1 at station 0 moved by rule 4, attempt begun."[..],
            ),
            (
                [1, 0, 7],
                2,
                4,
                [9, 0],
                b"Kind 1 at station 0 moved by rule 4, attempt begun, tray 9 short by 0.",
            ),
            (
                [2, 63, 14],
                0,
                18,
                [9, 9],
                b"Kind 2 at station 63, node 14 met refusal 18, tray empty.",
            ),
            (
                [1, 63, 0],
                1,
                6,
                [0, 16],
                b"Kind 1 at station 63 moved by rule 6, commit failed, tray 0 short by 16.",
            ),
            (
                [255; 3],
                255,
                255,
                [255, 255],
                b"Kind 255 at station 255, node 255 moved by rule 255, tray 255 short by 255.",
            ),
        ] {
            for lent in [SENTENCE_BYTES, SENTENCE_BYTES + 1, 1_000] {
                let mut buffer = vec![170; lent + 2];
                let mut lengths = [usize::MAX; 3];
                let part = &mut buffer[1..=lent];
                let length = &mut lengths[1];
                let refused = sentence(choice, moved, number, shortage, part, length);
                assert_eq!(refused, 0);
                assert_eq!(lengths, [usize::MAX, text.len(), usize::MAX]);
                assert_eq!(buffer[1..=text.len()], *text);
                assert_eq!(buffer[0], 170);
                assert!(buffer[text.len() + 1..].iter().all(|byte| *byte == 170));
            }
        }
    }

    #[test]
    fn a_refused_sentence_writes_neither_its_bytes_nor_their_number() {
        for lent in [0, 1, 53, SENTENCE_BYTES - 1] {
            let mut buffer = vec![170; lent + 2];
            let mut length = usize::MAX;
            let part = &mut buffer[1..=lent];
            let refused = sentence([1, 0, 0], 1, 6, [3, 1], part, &mut length);
            assert_eq!((refused, length), (21, usize::MAX));
            assert!(buffer.iter().all(|byte| *byte == 170));
        }
    }
}
