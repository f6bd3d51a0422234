//! Planted faults: what was foretold of another hall is not believed of this
//! one.

use workbench::explore::facts::Collector;
use workbench::explore::investigate::{Exact, Explored};
use workbench::explore::model::Model;
use workbench::explore::replay::{replay, Contradiction, Replay};
use workbench::explore::search::{search, Limits, Questions};
use workbench::explore::situations::Situations;
use workbench::table::Table;
use workbench::text::tree::Program;

/// Explores by one table and makes the ways on a hall of another.
fn facts(foretold: &[u8], made: &[u8]) -> Result<(), Contradiction> {
    let model = Model::of(&Table::read(foretold).unwrap());
    let questions = Questions::default();
    let limits = Limits::memory(1_000_000);
    let found = search(&model, &questions, limits, &mut |_, _| {});
    let table = Table::read(made).unwrap();
    let program = Program::of_table(&table);
    Collector {
        table: &table,
        program: &program,
        explored: &Explored {
            model,
            found,
            exact: Exact::NeverFull,
            rounds: None,
            possible: Vec::new(),
            leads: Vec::new(),
        },
        questions: &questions,
        limits,
        most_ends: 12,
    }
    .collect()
    .map(|_| ())
}

#[track_caller]
fn found_out(foretold: &[u8], made: &[u8], words: &str) {
    assert_eq!(facts(foretold, foretold), Ok(()));
    assert_eq!(facts(made, made), Ok(()));
    let what = facts(foretold, made).unwrap_err().what;
    assert!(what.contains(words), "{what}");
}

#[test]
fn another_hall_is_found_out() {
    // take 0 then put 1, and the same with put 2.
    let one = [2, 1, 3, 0, 0, 12, 0, 1, 13, 1];
    let two = [2, 2, 3, 0, 0, 12, 0, 1, 13, 1];
    found_out(&one, &two, "was foretold, and the engine came to");
    // A block that needs nothing, and one that needs a token that is not there.
    let needs_nothing = [7, 10, 1, 0, 10, 0, 1, 6, 2, 13, 3];
    let needs_one = [7, 10, 1, 0, 9, 0, 1, 6, 2, 13, 3];
    found_out(&needs_nothing, &needs_one, "rule 7 was foretold");
    // Another opening.
    let two_tokens = [2, 1, 3, 0, 0, 12, 0, 2, 13, 1];
    found_out(&one, &two_tokens, "was foretold, and the engine came to");
}

/// A put at 255 is refused 20; where it is foretold at 254, the engine makes it.
#[test]
fn a_refusal_is_asked_for_too() {
    let full = [2, 0, 12, 0, 255, 13, 0];
    let nearly = [2, 0, 12, 0, 254, 13, 0];
    let model = Model::of(&Table::read(&full).unwrap());
    let code = model.split(model.opening()).1[0];
    for (bytes, number, refused) in [(full, 20, true), (full, 19, false), (nearly, 20, false)] {
        let table = Table::read(&bytes).unwrap();
        let program = Program::of_table(&table);
        let model = Model::of(&table);
        let mut replay = Replay::open(&table, &program, &model).unwrap();
        assert_eq!(replay.refused(code, number).is_ok(), refused);
    }
}

#[test]
fn situations_that_no_step_joins() {
    let table = Table::read(&[2, 0, 13, 0]).unwrap();
    let program = Program::of_table(&table);
    let model = Model::of(&table);
    let mut store = Situations::of(&model);
    store.keep(model.opening(), 0).unwrap();
    store.keep(&[7], 0).unwrap();
    let what = replay(&table, &program, &model, &store, 1)
        .unwrap_err()
        .what;
    assert_eq!(what, "two situations that no step joins");
}
