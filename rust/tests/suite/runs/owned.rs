//! Running, stepping and suggesting on a hall that owns its bytes, and the same
//! calls on lent bytes.

use reference::build::Builder;
use reference::calls;
use reference::choice::{whole_choices, Choice as Second};
use reference::generator::{self, Random};
use reference::hall::{encode, opening};
use reference::run::Tally as SecondTally;
use ruonfidd::{Choice, Hall, Moved, Refusal, Shortage, Tally, HALL_BYTES};

use crate::common::by_chance::{accepted, any_table};
use crate::common::by_hand::EXAMPLE;
use crate::common::seeds::seeds;

/// The choices of the printed run.
const CHOICES: [u8; 12] = [1, 0, 2, 0, 0, 2, 0, 0, 1, 0, 1, 0];

fn choice_of(second: Second) -> Choice {
    match second {
        Second::Act { position } => Choice::Act { position },
        Second::Inside { position, node } => Choice::Inside { position, node },
    }
}

fn open(table: &[u8]) -> (Hall, Tally) {
    Hall::open(table).expect("an accepted table")
}

fn tally_of(second: SecondTally) -> Tally {
    let mut tally = Tally::fresh();
    tally.commits = second.commits;
    tally.failed = second.failed;
    tally.retries = second.retries;
    tally
}

#[test]
fn the_bytes_of_choices() {
    let mut list = Vec::new();
    for choice in whole_choices(&CHOICES) {
        choice_of(choice).write_to(&mut list);
    }
    assert_eq!(list, CHOICES);
}

#[test]
fn a_run() {
    let (mut hall, mut tally) = open(&EXAMPLE);
    assert_eq!(hall.run(&EXAMPLE, &CHOICES, &mut tally), Ok(5));
    assert_eq!(hall.counts()[..2], [0, 1]);
    assert_eq!((tally.commits, tally.failed, tally.retries), (1, 0, 0));
    assert_eq!(hall.run(&EXAMPLE, &[], &mut tally), Ok(0));
}

#[test]
fn a_run_that_is_stopped() {
    let (mut hall, mut tally) = open(&EXAMPLE);
    let stopped = hall
        .run(&EXAMPLE, &[1, 0, 2, 0, 0, 1], &mut tally)
        .unwrap_err();
    assert_eq!(stopped.done, 2);
    assert_eq!(stopped.refusal.number, Refusal::CHOICE_CUT_SHORT);
    assert_eq!(stopped.refusal.place, 5);
    assert_eq!(
        stopped.to_string(),
        "refused 13 at 5: the bytes end inside a choice (2 done)"
    );
    assert_eq!(Refusal::from(stopped), stopped.refusal);
    let source = std::error::Error::source(&stopped).expect("a source");
    assert_eq!(source.to_string(), stopped.refusal.to_string());
    // What was done stays, and the rest can follow.
    assert_eq!(hall.run(&EXAMPLE, &CHOICES[5..], &mut tally), Ok(3));
    assert_eq!(tally.commits, 1);
}

#[test]
fn steps_with_their_rules() {
    let (mut hall, mut tally) = open(&EXAMPLE);
    let mut answers = Vec::new();
    for choice in whole_choices(&CHOICES) {
        let moved = hall.step(&EXAMPLE, choice_of(choice), &mut tally);
        let moved = moved.expect("an accepted choice");
        assert_eq!(moved.choice, choice_of(choice));
        assert_eq!(moved.shortage, None);
        answers.push((moved.rule, moved.place));
    }
    let expected = [
        (Moved::ATST, 2),
        (Moved::ARDOK, 3),
        (Moved::AWR, 3),
        (Moved::ATOK, 2),
        (Moved::OUT, 2),
    ];
    assert_eq!(answers, expected);
    let before = hall.clone();
    let refused = hall
        .step(&EXAMPLE, Choice::Act { position: 7 }, &mut tally)
        .unwrap_err();
    assert_eq!(refused.choice, Choice::Act { position: 7 });
    let refusal = refused.refusal;
    assert_eq!((refusal.number, refusal.place), (Refusal::NO_STATION, 0));
    assert_eq!(Refusal::from(refused), refusal);
    let source = std::error::Error::source(&refused).expect("a source");
    assert_eq!(source.to_string(), refusal.to_string());
    assert_eq!((hall, tally.commits), (before, 1));
}

#[test]
fn the_names_of_the_rules_in_the_order_of_their_numbers() {
    let names = [
        Moved::OUT,
        Moved::IN,
        Moved::REP,
        Moved::ATST,
        Moved::ATRE,
        Moved::ATFAIL,
        Moved::ATOK,
        Moved::ARDOK,
        Moved::ARDF,
        Moved::AWR,
        Moved::AOI,
        Moved::AOF,
        Moved::AOE,
    ];
    assert!(names.into_iter().eq(1..=13));
}

/// A hall is tested with each table that it is used with.
#[test]
fn with_another_table() {
    let (mut hall, mut tally) = open(&EXAMPLE);
    let before = hall.clone();
    let stopped = hall.run(&[1, 13, 0], &CHOICES, &mut tally).unwrap_err();
    assert_eq!(
        (stopped.refusal.number, stopped.done),
        (Refusal::HALL_FORM, 0)
    );
    let act = Choice::Act { position: 0 };
    let refused = hall.step(&[1], act, &mut tally).unwrap_err();
    assert_eq!(
        (refused.refusal.number, refused.refusal.place),
        (Refusal::START_NOT_LAST, 1)
    );
    let refusal = hall.suggest(&[1, 13, 0]).unwrap_err();
    assert_eq!(refusal.number, Refusal::HALL_FORM);
    let refusal = hall.follow(&[1, 13, 0], &mut tally, 9).unwrap_err();
    assert_eq!(refusal.number, Refusal::HALL_FORM);
    // The iterator says it once.
    let items: Vec<_> = hall
        .suggested_steps(&[1, 13, 0], &mut tally)
        .take(3)
        .collect();
    assert_eq!(items.len(), 1);
    assert_eq!(items[0].unwrap_err().number, Refusal::HALL_FORM);
    assert_eq!((hall, tally), (before, Tally::fresh()));
}

#[test]
fn suggested_steps_to_a_still_hall() {
    let (mut hall, mut tally) = open(&EXAMPLE);
    let mut steps = hall.suggested_steps(&EXAMPLE, &mut tally);
    let mut made = Vec::new();
    for step in steps.by_ref().take(100) {
        let step = step.expect("an accepted choice");
        made.push((step.choice, step.rule));
    }
    // It has ended and stays so.
    assert!(steps.next().is_none());
    let act = Choice::Act { position: 0 };
    let inside = Choice::Inside {
        position: 0,
        node: 0,
    };
    assert_eq!(
        made,
        [(act, 4), (inside, 8), (inside, 10), (act, 7), (act, 1)]
    );
    assert_eq!(hall.suggest(&EXAMPLE), Ok(None));
    assert_eq!(tally.commits, 1);
}

/// Each suggested step is the first accepted choice, again and again. Here the
/// take waits for the put, the block of two ways stands between them.
#[test]
fn suggested_steps_take_the_first_choice() {
    let mut table = Builder::new();
    let nil = table.nil();
    let take = table.take(0, nil);
    let end = table.end();
    let both = table.or_else(end, end);
    let block = table.atom(both);
    let put = table.put(0);
    let behind = table.side_by_side(block, put);
    let all = table.side_by_side(take, behind);
    let bytes = table.start(all);
    let (mut hall, mut tally) = open(&bytes);
    let act = |position| Choice::Act { position };
    let inside = |position, node| Choice::Inside { position, node };
    let mut made = Vec::new();
    for step in hall.suggested_steps(&bytes, &mut tally).take(100) {
        let step = step.expect("an accepted choice");
        made.push((step.choice, step.rule));
    }
    let expected = [
        (act(1), Moved::ATST),
        (inside(1, 0), Moved::AOI),
        (inside(1, 0), Moved::AOE),
        (act(1), Moved::ATOK),
        (act(1), Moved::OUT),
        (act(0), Moved::IN),
    ];
    assert_eq!(made, expected);
    assert_eq!(hall.suggest(&bytes), Ok(None));
}

/// A block that finds too little is begun again and again, and the put that it
/// waits for stands behind it.
#[test]
fn suggested_steps_leave_out_what_stands_behind() {
    let mut table = Builder::new();
    let end = table.end();
    let read = table.rd(0, end);
    let block = table.atom(read);
    let put = table.put(0);
    let both = table.side_by_side(block, put);
    let bytes = table.start(both);
    let (mut hall, mut tally) = open(&bytes);
    let mut made = Vec::new();
    for step in hall.suggested_steps(&bytes, &mut tally).take(300) {
        let moved = step.expect("an accepted choice");
        made.push((moved.choice, moved.shortage));
    }
    // It begins, finds nothing, which is told, and gives up.
    let act = Choice::Act { position: 0 };
    let inside = Choice::Inside {
        position: 0,
        node: 0,
    };
    let short = Shortage::new(0, 1);
    assert_eq!(
        made,
        [(act, None), (inside, short), (act, None)].repeat(100)
    );
    assert_eq!((hall.counts()[0], tally.retries), (0, 100));
    // The put is made by hand, and the block ends.
    hall.step(&bytes, Choice::Act { position: 1 }, &mut tally)
        .expect("an accepted choice");
    let followed = hall.follow(&bytes, &mut tally, 100).expect("a hall");
    assert_eq!((followed.done, followed.still), (3, true));
    assert_eq!(tally.commits, 1);
}

/// A step is made when it is asked for, and not before.
#[test]
fn suggested_steps_are_lazy() {
    let (mut hall, mut tally) = open(&EXAMPLE);
    let before = hall.clone();
    drop(hall.suggested_steps(&EXAMPLE, &mut tally));
    assert_eq!(hall, before);
    assert_eq!(
        hall.suggested_steps(&EXAMPLE, &mut tally).take(2).count(),
        2
    );
    let mut other = before.clone();
    assert_eq!(
        other.run(&EXAMPLE, &CHOICES[..5], &mut Tally::fresh()),
        Ok(2)
    );
    assert_eq!(hall, other);
}

#[test]
fn followed_so_far_and_no_further() {
    for most in 0..9 {
        let (mut hall, mut tally) = open(&EXAMPLE);
        let followed = hall.follow(&EXAMPLE, &mut tally, most).expect("a hall");
        assert_eq!((followed.done, followed.still), (most.min(5), most >= 5));
        let mut other = open(&EXAMPLE).0;
        let choices = whole_choices(&CHOICES);
        for choice in &choices[..most.min(5)] {
            let moved = other.step(&EXAMPLE, choice_of(*choice), &mut Tally::fresh());
            assert!(moved.is_ok());
        }
        assert_eq!(hall, other);
        assert_eq!(tally.commits, u32::from(most >= 4));
    }
}

/// A waiting block can always begin, so that a hall with one is never still.
#[test]
fn a_hall_with_a_block_is_never_still() {
    let mut table = Builder::new();
    let end = table.end();
    let read = table.rd(0, end);
    let block = table.atom(read);
    let bytes = table.start(block);
    let (mut hall, mut tally) = open(&bytes);
    for most in [0, 1, 2, 3, 300] {
        let followed = hall.follow(&bytes, &mut tally, most).expect("a hall");
        assert_eq!((followed.done, followed.still), (most, false));
    }
    // Beginning, a read that finds nothing, back: three choices each time.
    assert_eq!(tally.retries, 306 / 3);
}

/// The wrapped calls give what the second implementation gives.
#[test]
fn the_same_as_the_second_implementation() {
    let (mut refused, mut still, mut of_several) = (0, 0, 0);
    for seed in seeds("owned halls", 1_500) {
        let mut random = Random::new(seed);
        let bytes = any_table(&mut random);
        let table = accepted(&bytes);
        let first = opening(&table);
        let choices = random.below(12);
        let list = generator::choices(&mut random, &table, &first, choices, 40);
        let mut second = encode(&first);
        let mut second_tally = SecondTally::FRESH;
        let expected = calls::run(&bytes, &mut second, &mut second_tally, &list);

        let (mut hall, mut tally) = open(&bytes);
        let mut lent = hall.as_bytes().to_vec();
        let mut lent_tally = tally;
        let result = hall.run(&bytes, &list, &mut tally);
        assert_eq!(
            ruonfidd::run(&bytes, &mut lent, &list, &mut lent_tally),
            result
        );
        match result {
            Ok(done) => assert_eq!(
                (0, list.len(), done),
                (expected.number, expected.place, expected.done)
            ),
            Err(stopped) => {
                let refusal = stopped.refusal;
                assert_eq!(
                    (refusal.number, refusal.place, stopped.done),
                    (expected.number, expected.place, expected.done)
                );
                refused += 1;
            }
        }
        assert!(hall.as_bytes()[..] == second && lent == second);
        assert_eq!(tally, tally_of(second_tally));
        assert_eq!(lent_tally, tally);

        let first = calls::suggest(&bytes, &second).expect("a well formed hall");
        let first = first.map(choice_of);
        assert_eq!(hall.suggest(&bytes), Ok(first));
        assert_eq!(ruonfidd::suggest(&bytes, &lent), Ok(first));
        let all = calls::accepted_choices(&bytes, &second).expect("a well formed hall");
        of_several += usize::from(all.len() > 1);
        let Some(choice) = first else {
            still += 1;
            continue;
        };
        let moved = hall
            .step(&bytes, choice, &mut tally)
            .expect("an accepted choice");
        let again = ruonfidd::step(&bytes, &mut lent, choice, &mut lent_tally);
        assert_eq!(again, Ok(moved));
        assert!(hall.as_bytes()[..] == lent && tally == lent_tally);
        assert_eq!(lent.len(), HALL_BYTES);
    }
    assert!(refused > 300 && still > 50, "{refused} {still}");
    assert!(of_several > 700, "{of_several}");
}
