//! The answers of steps, displayed: what moved and what was refused, beside the
//! second implementation's sentence on its own answer.

use std::error::Error;

use reference::calls::{self, StepAnswer};
use reference::choice::{whole_choices, Choice as Second};
use reference::edges::{lines, Line};
use reference::generator::{self, Random};
use reference::hall::opening;
use reference::print::table_end;
use reference::run::Tally as SecondTally;
use reference::sentence::{sentence, Reply};
use ruonfidd::{step, Answer, Choice, Hall, Moved, Refusal, Refused, Tally, HALL_BYTES};

use super::reply;
use crate::common::by_chance::{accepted, any_table};
use crate::common::by_hand::EXAMPLE;
use crate::common::seeds::{say, seeds};

/// The list of edges that the proved program runs.
const EDGES: &str = include_str!("../../../../crates/program_edges/stdin");

/// How often each rule moved, and each refusal was met.
#[derive(Debug, Default)]
struct Met {
    rules: [usize; 14],
    refusals: [usize; 21],
}

impl Met {
    fn note(&mut self, reply: Reply) {
        match reply {
            Reply::Moved { rule, short } => {
                self.rules[usize::from(rule)] += 1;
                // The two rules that find too little, and no others.
                assert_eq!(short.is_some(), matches!(rule, 6 | 9), "{reply:?}");
            }
            Reply::Refused(number) => self.refusals[usize::from(number)] += 1,
        }
    }
}

/// One table and hall, stepped by the engine and by the second implementation.
struct Stepped {
    table: Vec<u8>,
    hall: Vec<u8>,
    tally: Tally,
    by_second: Vec<u8>,
    tally_of_second: SecondTally,
}

impl Stepped {
    fn new(table: &[u8], hall: &[u8]) -> Stepped {
        Stepped {
            table: table.to_vec(),
            hall: hall.to_vec(),
            tally: Tally::fresh(),
            by_second: hall.to_vec(),
            tally_of_second: SecondTally::FRESH,
        }
    }

    /// A hall that the table opens; zeros where it is refused.
    fn open(table: &[u8]) -> Stepped {
        let mut hall = vec![0; HALL_BYTES];
        let _ = calls::open(table, &mut hall);
        Stepped::new(table, &hall)
    }

    /// The second implementation's answer.
    fn second_step(&mut self, choice: Second) -> Reply {
        let answer = calls::step(
            &self.table,
            &mut self.by_second,
            &mut self.tally_of_second,
            &choice.bytes(),
        );
        match answer {
            StepAnswer::Moved { rule, short } => Reply::Moved { rule, short },
            StepAnswer::Refused(refusal) => Reply::Refused(refusal.number),
        }
    }

    /// What is displayed of a step is the second implementation's sentence on
    /// what it answers itself.
    #[track_caller]
    fn step(&mut self, second: Second, met: &mut Met) {
        let (choice, [kind, position, node]) = match second {
            Second::Act { position } => (Choice::Act { position }, [1, position, 0]),
            Second::Inside { position, node } => {
                (Choice::Inside { position, node }, [2, position, node])
            }
        };
        let reply = self.second_step(second);
        met.note(reply);
        let answer = step(&self.table, &mut self.hall, choice, &mut self.tally);
        let expected = sentence(kind, position, node, reply);
        assert_eq!(displayed(answer), expected, "on {:?}", self.table);
        let answered = match answer {
            Ok(moved) => (moved.choice, reply_to(&moved)),
            Err(refused) => (refused.choice, Reply::Refused(refused.refusal.number)),
        };
        assert_eq!(answered, (choice, reply), "on {:?}", self.table);
        assert!(self.hall == self.by_second, "{expected}");
    }
}

/// What a step answered, as the second implementation takes it.
fn reply_to(moved: &Moved) -> Reply {
    reply(Answer::Moved {
        rule: moved.rule,
        shortage: moved.shortage,
    })
}

/// What is displayed, by each way to it.
#[track_caller]
fn displayed(answer: Result<Moved, Refused>) -> String {
    match answer {
        Ok(moved) => {
            assert_eq!(moved.sentence().as_str(), moved.to_string());
            moved.to_string()
        }
        Err(refused) => {
            assert_eq!(refused.sentence().as_str(), refused.to_string());
            refused.to_string()
        }
    }
}

/// Steps through every table and hall of the list. All rules are met, and all
/// refusals but those of bytes that are no choice, 12 and 13.
#[test]
fn of_the_edges() {
    let mut met = Met::default();
    for line in lines(EDGES) {
        let (mut stepped, choices) = match line {
            Line::Heading(_) => continue,
            Line::Input { input, .. } => {
                let (table, choices) = input.split_at(table_end(&input));
                (Stepped::open(table), whole_choices(choices))
            }
            Line::Stored {
                table,
                hall,
                choices,
                ..
            } => (Stepped::new(&table, &hall), whole_choices(&choices)),
        };
        // A list without a choice shows the refusal of its table or hall.
        for choice in choices.into_iter().chain([Second::Act { position: 0 }]) {
            stepped.step(choice, &mut met);
        }
    }
    for (rule, times) in met.rules.iter().enumerate() {
        assert_eq!(*times > 0, rule != 0, "rule {rule}: {met:?}");
    }
    for (number, times) in met.refusals.iter().enumerate() {
        let never = matches!(number, 0 | 12 | 13);
        assert_eq!(*times > 0, !never, "refusal {number}: {met:?}");
    }
}

/// A choice by chance, most often one that is refused.
fn any_choice(random: &mut Random) -> Second {
    let position = random.byte_below(6);
    let node = random.byte_below(5);
    if random.percent(50) {
        Second::Act { position }
    } else {
        Second::Inside { position, node }
    }
}

/// Runs by chance, and in the halls that they reach choices by chance.
#[test]
fn by_chance() {
    let mut met = Met::default();
    for seed in seeds("sentences of steps", 1_500) {
        let mut random = Random::new(seed);
        let bytes = any_table(&mut random);
        let table = accepted(&bytes);
        let list = generator::choices(&mut random, &table, &opening(&table), 40, 30);
        let mut stepped = Stepped::open(&bytes);
        for choice in whole_choices(&list) {
            stepped.step(choice, &mut met);
        }
        for _ in 0..10 {
            stepped.step(any_choice(&mut random), &mut met);
        }
    }
    say(&format!("sentences of steps: {met:?}"));
    for rule in 1..=13 {
        assert!(met.rules[rule] >= 50, "rule {rule} too seldom: {met:?}");
    }
    for number in [14, 15, 16, 17, 18] {
        assert!(met.refusals[number] >= 50, "{number} too seldom: {met:?}");
    }
}

/// A hall that owns its bytes answers with the same sentences; so do suggested
/// steps.
#[test]
fn of_a_hall_that_owns_its_bytes() {
    let expected = [
        "Kind 1 at station 0 moved by rule 4, attempt begun.",
        "Kind 2 at station 0, node 0 moved by rule 8, read noted.",
        "Kind 2 at station 0, node 0 moved by rule 10, write noted.",
        "Kind 1 at station 0 moved by rule 7, block committed.",
        "Kind 1 at station 0 moved by rule 1, token put.",
    ];
    let (mut hall, mut tally) = Hall::open(&EXAMPLE).expect("an accepted table");
    let board: Vec<String> = hall
        .suggested_steps(&EXAMPLE, &mut tally)
        .take(100)
        .map(|moved| moved.expect("an accepted choice").to_string())
        .collect();
    assert_eq!(board, expected);
    let inside = Choice::Inside {
        position: 9,
        node: 200,
    };
    let refused = hall.step(&EXAMPLE, inside, &mut tally).unwrap_err();
    assert_eq!(
        refused.to_string(),
        "Kind 2 at station 9, node 200 met refusal 14, no such station."
    );
    let refused = hall.step(&[1, 13, 0, 9], inside, &mut tally).unwrap_err();
    assert_eq!(
        refused.to_string(),
        "Kind 2 at station 9, node 200 met refusal 9, table: no start at end."
    );
}

/// Blocks that find too little, as a board shows them: one read of two, and one
/// commit that another came before.
#[test]
fn of_failures() {
    // Two blocks that read tray 2 twice, and one that reads it once; two tokens.
    let table = [
        7, 9, 2, 0, 9, 2, 1, 6, 2, 6, 1, 5, 3, 4, 5, 3, 5, 12, 2, 2, 13, 6,
    ];
    let (mut hall, mut tally) = Hall::open(&table).expect("an accepted table");
    let mut board = Vec::new();
    // All but the first begin; the last is committed, then the one before it is
    // too late; the first begins now and finds one token.
    let act = |position| Choice::Act { position };
    let inside = |position| Choice::Inside { position, node: 0 };
    for choice in [
        act(1),
        act(2),
        inside(1),
        inside(1),
        inside(2),
        act(2),
        act(1),
        act(0),
        inside(0),
        inside(0),
    ] {
        let moved = hall.step(&table, choice, &mut tally);
        board.push(moved.expect("an accepted choice").to_string());
    }
    let expected = [
        "Kind 1 at station 1 moved by rule 4, attempt begun.",
        "Kind 1 at station 2 moved by rule 4, attempt begun.",
        "Kind 2 at station 1, node 0 moved by rule 8, read noted.",
        "Kind 2 at station 1, node 0 moved by rule 8, read noted.",
        "Kind 2 at station 2, node 0 moved by rule 8, read noted.",
        "Kind 1 at station 2 moved by rule 7, block committed.",
        "Kind 1 at station 1 moved by rule 6, commit failed, tray 2 short by 1.",
        "Kind 1 at station 0 moved by rule 4, attempt begun.",
        "Kind 2 at station 0, node 0 moved by rule 8, read noted.",
        "Kind 2 at station 0, node 0 moved by rule 9, read failed, tray 2 short by 1.",
    ];
    assert_eq!(board, expected);
}

/// The place, which no sentence names, is in the source.
#[test]
fn the_source_of_a_refused_step() {
    let (mut hall, mut tally) = Hall::open(&EXAMPLE).expect("an accepted table");
    let act = Choice::Act { position: 0 };
    let refused = hall.step(&EXAMPLE[..12], act, &mut tally).unwrap_err();
    assert_eq!(
        (refused.refusal.number, refused.refusal.place),
        (Refusal::START_NOT_LAST, 12)
    );
    let source = refused.source().expect("a source");
    assert_eq!(source.downcast_ref::<Refusal>(), Some(&refused.refusal));
    assert_eq!(Refusal::from(refused), refused.refusal);
}

/// `?` in a function that returns a refusal keeps the refusal, and one that
/// returns any error shows the sentence.
#[test]
fn a_refused_step_handed_on() {
    fn as_refusal() -> Result<(), Refusal> {
        let (mut hall, mut tally) = Hall::open(&EXAMPLE)?;
        hall.step(&EXAMPLE, Choice::Act { position: 1 }, &mut tally)?;
        Ok(())
    }
    fn as_error() -> Result<(), Box<dyn Error + Send + Sync>> {
        let (mut hall, mut tally) = Hall::open(&EXAMPLE)?;
        hall.step(&EXAMPLE, Choice::Act { position: 1 }, &mut tally)?;
        Ok(())
    }
    assert_eq!(as_refusal().unwrap_err().number, Refusal::NO_STATION);
    assert_eq!(
        as_error().unwrap_err().to_string(),
        "Kind 1 at station 1 met refusal 14, no such station."
    );
}
