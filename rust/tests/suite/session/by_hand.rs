//! Sessions by hand: what a reader would try first.

use reference::build::Builder;
use reference::calls;
use reference::choice::Choice as Second;
use ruonfidd::{opening_stations, opening_turns, Choice, Moved, Refusal, Session, Tally};

use super::Both;
use crate::common::by_hand::EXAMPLE;

const BEGIN: Second = Second::Act { position: 0 };

#[test]
fn a_block_from_its_beginning_to_its_end() {
    let mut both = Both::open(&EXAMPLE);
    assert_eq!(both.suggest(), Some(BEGIN));
    assert_eq!(both.step(BEGIN), 0);
    assert_eq!(both.step(BEGIN), Refusal::WRONG_STATION);
    assert_eq!(both.run(&[2, 0, 0, 2, 0, 0, 1, 0, 9]), Refusal::CHOICE_KIND);
    assert_eq!(both.session.tally().commits, 1);
    both.follow(9);
    assert_eq!(both.suggest(), None);
    assert_eq!(both.session.counts()[..2], [0, 1]);
    assert_eq!(both.made, [1, 0, 2, 0, 0, 2, 0, 0, 1, 0, 1, 0]);
    both.as_one_run();
}

/// A refused table opens no session.
#[test]
fn refused_tables() {
    for table in [&[][..], &[1], &[14], &EXAMPLE[..13], &[1, 13, 0, 1]] {
        let second = calls::check_table(table);
        let refusal = Session::open(table).unwrap_err();
        assert_eq!(
            (refusal.number, refusal.place),
            (second.number, second.place)
        );
        assert_ne!(refusal.number, 0);
    }
}

/// What goes out is a copy: whoever changes it does not change the session.
#[test]
fn copies_that_go_out() {
    let mut both = Both::open(&EXAMPLE);
    both.run(&[1, 0, 2, 0, 0]);
    let mut tally = both.session.tally();
    tally.commits = 77;
    let mut hall = both.session.hall().clone();
    let moved = hall.run(&EXAMPLE, &[2, 0, 0, 1, 0], &mut tally);
    assert_eq!((moved, tally.commits), (Ok(2), 78));
    both.compare();
    assert_eq!(
        both.step(Second::Inside {
            position: 0,
            node: 0
        }),
        0
    );
    both.as_one_run();
}

/// Two blocks want one token. In one copy the first has it, in the other the
/// second.
#[test]
fn clones_go_their_own_ways() {
    let mut table = Builder::new();
    let end = table.end();
    let read = table.rd(0, end);
    let reads = table.atom(read);
    let write = table.wt(1, end);
    let read = table.rd(0, write);
    let moves = table.atom(read);
    let both = table.side_by_side(reads, moves);
    table.tokens(0, 1);
    let mut one = Both::open(&table.start(both));
    assert_eq!(one.run(&[1, 0, 1, 1, 2, 0, 0, 2, 1, 0, 2, 1, 0]), 0);
    let mut other = one.clone();
    assert_eq!(one.session, other.session);
    assert_eq!(one.run(&[1, 0]), 0);
    other.compare();
    assert_eq!(other.run(&[1, 1]), 0);
    assert_ne!(one.session, other.session);
    for both in [&mut one, &mut other] {
        assert_eq!(both.session.tally().commits, 1);
        let late = both.session.ask(Choice::Act { position: 0 });
        assert_eq!(late.map(|moved| moved.rule), Ok(Moved::ATFAIL));
        assert_eq!(both.session.tally().failed, 0);
        assert_eq!(both.step(BEGIN), 0);
        assert_eq!(both.session.tally().failed, 1);
        both.as_one_run();
    }
}

/// A step is made when it is asked for, and not before; behind the last there is
/// none.
#[test]
fn suggested_steps() {
    let mut session = Session::open(&EXAMPLE).expect("an accepted table");
    let before = session.clone();
    drop(session.suggested_steps());
    assert_eq!(session, before);
    let mut steps = session.suggested_steps();
    let mut rules = Vec::new();
    for moved in steps.by_ref() {
        rules.push(moved.rule);
        assert!(rules.len() < 9);
    }
    assert!(steps.next().is_none());
    let expected = [
        Moved::ATST,
        Moved::ARDOK,
        Moved::AWR,
        Moved::ATOK,
        Moved::OUT,
    ];
    assert_eq!(rules, expected);
    assert_eq!((session.follow(5).done, session.follow(5).still), (0, true));
}

/// The opening's turns and stations are those of the table, wherever the hall is.
#[test]
fn turns_and_stations() {
    let table = [1, 2, 4, 3, 0, 0, 5, 1, 0, 5, 3, 2, 13, 4];
    let mut session = Session::open(&table).expect("an accepted table");
    for _ in 0..2 {
        let turns: Vec<_> = session.turns().collect();
        let expected: Vec<_> = opening_turns(&table).expect("a table").collect();
        assert_eq!((turns.len(), &turns), (5, &expected));
        let stations: Vec<_> = session.stations().collect();
        let expected: Vec<_> = opening_stations(&table).expect("a table").collect();
        assert_eq!((stations.len(), &stations), (2, &expected));
        session.follow(1);
    }
}

/// Sessions may be handed from thread to thread, and lent to several.
#[test]
fn in_threads() {
    let mut session = Session::open(&EXAMPLE).expect("an accepted table");
    for _ in 0..5 {
        let suggested = session.suggest().expect("a choice");
        let asked = std::thread::scope(|scope| {
            let ask = || session.ask(suggested);
            let threads = [scope.spawn(ask), scope.spawn(ask)];
            threads.map(|thread| thread.join().expect("an answer"))
        });
        session = std::thread::spawn(move || {
            let made = session.step(suggested);
            assert_eq!(asked, [made, made]);
            session
        })
        .join()
        .expect("a session");
    }
    assert_eq!(session.suggest(), None);
    let mut tally = Tally::fresh();
    tally.commits = 1;
    assert_eq!(session.tally(), tally);
}
