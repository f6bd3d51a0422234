//! Random runs: the words of a choice find its station again, what is told
//! holds, and what `why` foretells comes true.

use std::fmt::Write as _;

use reference::generator::{choices, Random};
use reference::hall::opening;
use reference::print::printed_run;
use reference::table::read_table;
use ruonfidd::{Choice, Moved, Refusal};
use workbench::board::Board;
use workbench::lesson::{choice_words, Answer, Lesson};
use workbench::rehearsal::{position_of, Happened, Moment, Rehearsal};
use workbench::sentences::Teller;
use workbench::show::{readable, Labels};
use workbench::stations::{takes, Action, Node, Station};
use workbench::style::{width, wrapped, Style};
use workbench::table::{Table, Term};
use workbench::text::choices::Ask;
use workbench::text::grammar::read_choices;
use workbench::text::source::Source;
use workbench::text::tree::Program;
use workbench::text::understand;
use workbench::ways::{shortages, ways_of_block, within};
use workbench::why::why;

use crate::common::{called, tables};
use crate::json::parsed;

/// Tables with the program of their text, or with that of the bare table.
fn halls(seed: u64, how_many: usize) -> impl Iterator<Item = (String, Table, Program)> {
    tables(seed, how_many)
        .enumerate()
        .map(|(index, (which, table))| {
            if index % 3 == 0 {
                let program = Program::of_table(&table);
                return (which, table, program);
            }
            let text = readable(&table, &Labels::default());
            let understood = understand(&Source::new("", text.as_str())).expect(&which);
            (which, understood.table, understood.program)
        })
}

/// Follows a random run and looks at each choice.
fn random_run<'a>(
    random: &mut Random,
    lesson: &mut Lesson<'a>,
    most: usize,
    mut look: impl FnMut(&Lesson<'a>, &Happened),
) {
    for _ in 0..most {
        let accepted = lesson.rehearsal().accepted();
        let Some((choice, rule)) = random.pick(&accepted) else {
            return;
        };
        let Ok(Answer::Moved(happened)) = lesson.make(choice) else {
            panic!("an accepted choice is refused: {choice:?}");
        };
        assert_eq!(happened.rule, rule);
        look(lesson, &happened);
    }
}

/// The words for a choice, read as a lesson's text, are that choice: in every
/// hall of a run, for every choice that is accepted.
#[test]
fn the_words_of_a_choice_find_its_station() {
    let mut random = Random::new(11);
    let mut found = 0;
    for (which, table, program) in halls(11, 700) {
        let mut lesson = Lesson::open(&table, &program).expect(&which);
        random_run(&mut random, &mut lesson, 25, |lesson, _| {
            for (choice, _) in lesson.rehearsal().accepted() {
                let words = choice_words(lesson.now(), choice);
                let source = Source::new("", words.as_str());
                let lines = read_choices(&source, &program)
                    .unwrap_or_else(|wrong| panic!("{which}\n{words}: {wrong:?}"));
                assert_eq!(lines.len(), 1, "{which}\n{words}");
                let again = lesson.choice(&lines[0].ask);
                assert_eq!(again, Ok(Some(choice)), "{which}\n{words}");
                found += 1;
            }
        });
    }
    assert!(found > 50_000, "{found} choices were found");
}

/// A bare name is good exactly while one such station stands; a number finds
/// that one alone.
#[test]
fn no_two_stations_have_the_same_name() {
    let mut random = Random::new(12);
    for (which, table, program) in halls(12, 400) {
        let mut lesson = Lesson::open(&table, &program).expect(&which);
        random_run(&mut random, &mut lesson, 40, |lesson, _| {
            let names = &lesson.now().names;
            let mut all: Vec<String> = (0..names.len()).map(|at| names.name(at)).collect();
            all.sort_unstable();
            assert!(
                all.windows(2).all(|pair| pair[0] != pair[1]),
                "{which}\n{all:?}"
            );
        });
    }
}

/// Sentences name the station and the trays that changed, with their counts.
#[test]
fn sentences_say_what_changed() {
    let mut random = Random::new(13);
    let mut rules = [0; 14];
    for (which, table, program) in halls(13, 900) {
        let mut lesson = Lesson::open(&table, &program).expect(&which);
        let mut teller = Teller::new(&table, &program);
        random_run(&mut random, &mut lesson, 40, |_, happened| {
            let sentence = teller.tell(happened);
            rules[usize::from(happened.rule.number)] += 1;
            let name = happened.before.names.name(position_of(happened.choice));
            assert!(sentence.starts_with(&name), "{which}\n{sentence}");
            assert!(
                sentence.ends_with('.') && !sentence.contains("  "),
                "{which}\n{sentence}"
            );
            for tray in 0..16 {
                let before = happened.before.counts[usize::from(tray)];
                let after = happened.after.counts[usize::from(tray)];
                let change = format!("{} {before} -> {after}", program.tray_name(tray));
                assert_eq!(
                    before != after,
                    sentence.contains(&change),
                    "{which}\n{sentence}"
                );
            }
            for line in wrapped("   1  ATFAIL  ", &sentence) {
                assert!(line.len() <= width(), "{which}\n{line}");
            }
        });
    }
    assert!(rules[1..].iter().all(|times| *times > 50), "{rules:?}");
}

/// Where a commit or a take fails, and nowhere else, the sentence names the tray
/// that the engine told. It is the first that lacks something by the counts.
#[test]
fn sentences_say_what_was_short() {
    let mut random = Random::new(18);
    let (mut fails, mut lacks) = (0, 0);
    for (which, table, program) in halls(18, 900) {
        let mut lesson = Lesson::open(&table, &program).expect(&which);
        let mut teller = Teller::new(&table, &program);
        random_run(&mut random, &mut lesson, 40, |_, happened| {
            let sentence = teller.tell(happened);
            let rule = happened.rule.number;
            let told = happened.shortage.map(|it| (it.tray, it.by.get()));
            assert_eq!(told, first_short(&table, happened), "{which}\n{sentence}");
            let Some((tray, by)) = told else {
                assert!(rule != Moved::ATFAIL && rule != Moved::ARDF, "{which}");
                let words = [" lacks ", " is short by "];
                assert!(!words.iter().any(|it| sentence.contains(it)), "{sentence}");
                return;
            };
            let tray = program.tray_name(tray);
            let words = if rule == Moved::ATFAIL {
                fails += 1;
                format!(" fails to commit: {tray} is short by {by} (")
            } else {
                lacks += 1;
                format!(" lacks {by} of {tray}: ")
            };
            assert!(sentence.contains(&words), "{which}\n{sentence}");
        });
    }
    assert!(fails > 50 && lacks > 50, "{fails} {lacks}");
}

/// The first tray that this choice found too little in, by the counts before it.
fn first_short(table: &Table, happened: &Happened) -> Option<(u8, u8)> {
    let Some(Station::Attempt(attempt)) = happened.before.stations.get(happened.position()) else {
        return None;
    };
    match happened.choice {
        Choice::Inside { node, .. } => {
            let Some(Node::Leaf(leaf)) = attempt.nodes.get(usize::from(node)) else {
                return None;
            };
            let Term::NoteTake { tray, .. } = table.term(leaf.rest?) else {
                return None;
            };
            let needs = takes(&[&leaf.log[..], &[Action::Take(tray)]].concat());
            shortages(&needs, &attempt.remembers).first().copied()
        }
        // An attempt that gives up is held against nothing.
        _ if happened.rule.number == Moved::ATRE => None,
        _ => {
            let needs = takes(&attempt.single_leaf()?.log);
            shortages(&needs, &happened.before.counts).first().copied()
        }
    }
}

/// A board has a line for each station and each node, and every count.
#[test]
fn boards_show_every_station() {
    let mut random = Random::new(14);
    for (which, table, program) in halls(14, 300) {
        let board = Board {
            table: &table,
            program: &program,
            style: Style::PLAIN,
            folds: false,
        };
        let mut lesson = Lesson::open(&table, &program).expect(&which);
        random_run(&mut random, &mut lesson, 25, |lesson, _| {
            let lines = board.lines(lesson.now(), 6);
            let text = lines.join("\n");
            assert!(text.is_ascii(), "{which}\n{text}");
            let nodes: usize = lesson.now().stations.iter().map(nodes_of).sum();
            assert_eq!(
                text.matches("      node ").count(),
                nodes,
                "{which}\n{text}"
            );
            for (position, _) in lesson.now().stations.iter().enumerate() {
                let name = lesson.now().names.name(position);
                let line = lines.iter().find(|line| {
                    line.get(16..)
                        .is_some_and(|line| line.starts_with(&format!("{position:>2}  {name}  ")))
                        || line.get(16..).is_some_and(|line| {
                            line.starts_with(&format!("{position:>2}  {name} "))
                        })
                });
                assert!(line.is_some(), "{which}\n{position} {name}\n{text}");
            }
            for tray in &program.trays {
                let count = lesson.now().counts[usize::from(tray.number)];
                assert!(
                    text.contains(&format!("   {} {count}", tray.name)),
                    "{which}\n{text}"
                );
            }
        });
    }
}

/// Accepted choices are listed by position and then by node, and the first of
/// them is the suggestion.
#[test]
fn the_first_accepted_choice_is_suggested() {
    let mut random = Random::new(23);
    let (mut of_several, mut still) = (0, 0);
    for (which, table, program) in halls(23, 600) {
        let mut lesson = Lesson::open(&table, &program).expect(&which);
        random_run(&mut random, &mut lesson, 25, |lesson, _| {
            let accepted = lesson.rehearsal().accepted();
            let first = accepted.first().map(|(choice, _)| *choice);
            assert_eq!(lesson.rehearsal().suggestion(), Ok(first), "{which}");
            let places = accepted.iter().map(|(choice, _)| {
                let [_, position, node] = choice.to_bytes();
                (position, node)
            });
            let places: Vec<(u8, u8)> = places.collect();
            let in_order = places.windows(2).all(|pair| pair[0] < pair[1]);
            assert!(in_order, "{which}: {places:?}");
            of_several += usize::from(accepted.len() > 1);
            still += usize::from(accepted.is_empty());
        });
    }
    assert!(of_several > 2_000 && still > 20, "{of_several} {still}");
}

fn nodes_of(station: &Station) -> usize {
    match station {
        Station::Attempt(attempt) => attempt.nodes.len(),
        _ => 0,
    }
}

/// An open attempt, driven to its end in any order, ends with the notes of the
/// way that is foretold, or gives up where none is; and the commit goes as
/// `why` says.
#[test]
fn what_why_foretells_comes_true() {
    let mut random = Random::new(15);
    let (mut gave_up, mut committed, mut failed, mut refused) = (0, 0, 0, 0);
    for (which, table, program) in halls(15, 900) {
        let mut lesson = Lesson::open(&table, &program).expect(&which);
        let mut seeds = Vec::new();
        random_run(&mut random, &mut lesson, 30, |lesson, _| {
            for (position, station) in lesson.now().stations.iter().enumerate() {
                if matches!(station, Station::Attempt(_)) {
                    seeds.push((lesson.rehearsal().clone(), position));
                }
            }
        });
        for (hall, position) in seeds.into_iter().step_by(7) {
            let foretold = why(&table, &program, hall.now(), position).pop().unwrap();
            let (rule, now) = driven(&mut random, hall, position);
            let outcome = match rule {
                Moved::ATRE => {
                    gave_up += 1;
                    "will give up"
                }
                Moved::ATOK => {
                    committed += 1;
                    "the commit will succeed"
                }
                REFUSED => {
                    refused += 1;
                    "has no room among 64 stations until some go"
                }
                _ => {
                    failed += 1;
                    "the commit will fail"
                }
            };
            assert!(
                foretold.contains(outcome),
                "{which}\n{foretold} but {outcome}\n{now:?}"
            );
        }
    }
    let enough = gave_up > 300 && committed > 300 && failed > 30 && refused > 3;
    assert!(
        enough,
        "{gave_up} gave up, {committed} committed, {failed} failed, {refused} refused"
    );
}

/// In place of a rule: the commit was refused, since the hall is full.
const REFUSED: u8 = 0;

/// Drives the attempt at a position to its end and closes it; nothing else in
/// the hall moves. The rule that closed it, and the hall before.
fn driven(random: &mut Random, mut hall: Rehearsal<'_>, position: usize) -> (u8, Moment) {
    let table = hall.table();
    let expected = foretold_notes(table, hall.now(), position);
    for _ in 0..200 {
        let here: Vec<Choice> = hall
            .accepted()
            .into_iter()
            .map(|(choice, _)| choice)
            .filter(|choice| position_of(*choice) == position)
            .collect();
        let before = hall.now().clone();
        let Some(choice) = random.pick(&here) else {
            // Only a hall that is too full keeps an attempt from going on.
            let position = u8::try_from(position).unwrap();
            let refusal = hall.ask(Choice::Act { position }).unwrap_err();
            assert_eq!(refusal.number, Refusal::TOO_MANY_STATIONS);
            return (REFUSED, before);
        };
        let happened = hall.make(choice).expect("an accepted choice");
        if let Choice::Act { .. } = choice {
            let Station::Attempt(attempt) = &before.stations[position] else {
                panic!("no attempt");
            };
            let leaf = attempt.single_leaf().expect("a single leaf");
            let ended = leaf.rest.map(|rest| table.term(rest)) == Some(Term::End);
            assert_eq!(ended.then(|| leaf.log.clone()), expected);
            return (happened.rule.number, before);
        }
    }
    panic!("an attempt that does not end");
}

fn foretold_notes(table: &Table, now: &Moment, position: usize) -> Option<Vec<Action>> {
    let Station::Attempt(attempt) = &now.stations[position] else {
        panic!("no attempt");
    };
    ways_of_block(table, attempt.block)
        .into_iter()
        .find(|way| way.ends && within(&way.needs(), &attempt.remembers))
        .map(|way| way.actions)
}

/// A whole list of choices agrees with its steps, refused ones among them; a
/// list with another choice in it does not.
#[test]
fn steps_and_runs_agree() {
    let mut random = Random::new(16);
    let mut refused = 0;
    for (which, table, program) in halls(16, 500) {
        let mut lesson = Lesson::open(&table, &program).expect(&which);
        for _ in 0..4 {
            random_run(&mut random, &mut lesson, 8, |_, _| {});
            let position = random.byte_below(70);
            let choice = match random.below(2) {
                0 => Choice::Act { position },
                _ => Choice::Inside {
                    position,
                    node: random.byte_below(4),
                },
            };
            if matches!(lesson.make(choice), Ok(Answer::Refused(_))) {
                refused += 1;
            }
        }
        assert_eq!(lesson.agrees(), Ok(()), "{which}");
    }
    assert!(refused > 500, "{refused}");
}

/// The text that play saves makes the same choices again.
#[test]
fn saved_choices_are_the_same_choices() {
    let mut random = Random::new(17);
    for (which, table, program) in halls(17, 300) {
        let mut lesson = Lesson::open(&table, &program).expect(&which);
        let mut text = String::from("choices\n");
        random_run(&mut random, &mut lesson, 30, |_, happened| {
            let words = choice_words(&happened.before, happened.choice);
            let _ = writeln!(text, "  {words} => {}", happened.rule.word);
        });
        let lines = read_choices(&Source::new("", text.as_str()), &program).expect(&which);
        let mut again = Lesson::open(&table, &program).expect(&which);
        for line in &lines {
            assert!(matches!(line.ask, Ask::Act(_) | Ask::Step(..)));
            let choice = again.choice(&line.ask).unwrap().unwrap();
            assert!(
                matches!(again.make(choice), Ok(Answer::Moved(_))),
                "{which}\n{text}"
            );
        }
        assert_eq!(again.calls(), lesson.calls(), "{which}\n{text}");
    }
}

/// A table with random choices behind it, refused ones among them: the run told
/// here and the run printed by the second implementation are the same.
#[test]
fn runs_of_bytes_are_those_of_the_second_implementation() {
    let mut random = Random::new(18);
    let mut refused = 0;
    for (which, table) in tables(18, 1_200) {
        let decoded = read_table(table.bytes()).unwrap();
        let list = choices(&mut random, &decoded, &opening(&decoded), 30, 50);
        if list.is_empty() {
            continue;
        }
        let input = [table.bytes(), list.as_slice()].concat();
        let printed = String::from_utf8(printed_run(&input)).unwrap();
        let answer = called(&["run", "--json", "-"], &input, Style::PLAIN, false);
        let told = parsed(answer.out.lines().last().unwrap());
        let head: Vec<&str> = printed.lines().next().unwrap().split(' ').collect();
        let ended = told.number("ended");
        refused += usize::from(ended != 0);
        assert_eq!(head[1], ended.to_string(), "{which}\n{list:?}");
        assert_eq!(
            head[3],
            told.number("done").to_string(),
            "{which}\n{list:?}"
        );
        assert_eq!(
            answer.code,
            Some(i32::from(ended != 0)),
            "{which}\n{list:?}"
        );
        let tally = ["commits", "failed", "retries"].map(|field| told.number(field).to_string());
        assert_eq!(
            printed.lines().nth(1),
            Some(format!("C {}", tally.join(" ")).as_str())
        );
        let stations = printed
            .lines()
            .filter(|line| line.starts_with(['P', 'W', 'A']));
        assert_eq!(
            stations.count(),
            told.field("stations").list().len(),
            "{which}\n{list:?}"
        );
    }
    assert!(refused > 300, "{refused}");
}
