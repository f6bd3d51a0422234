//! Runs told by steps: what is told as one step is one on the engine, and what
//! is told in two is not; what repeats is folded, and no word is broken.

use std::fs;

use reference::generator::Random;
use ruonfidd::{Choice, Hall, Moved};
use workbench::lesson::Lesson;
use workbench::rehearsal::Rehearsal;
use workbench::steps::fold::{told, Row, Told};
use workbench::steps::layout::Layout;
use workbench::steps::{Change, Entry, Step, Steps, What};
use workbench::style::Style;
use workbench::table::Table;
use workbench::text::grammar::read_choices;
use workbench::text::source::Source;
use workbench::text::tree::Program;
use workbench::text::understand;

use crate::common::{package, raw_hall_in, scratch, tables};

/// The bytes of the station at a position: from where to where.
fn bytes_of_station(hall: &[u8], position: usize) -> (usize, usize) {
    let mut at = 16;
    let mut stands = 0;
    loop {
        let begin = at;
        match hall[at] {
            20 | 24 => at += 2,
            21 => {
                at += 18;
                // A fork has one more tree behind it, a leaf is 19 bytes.
                let mut trees = 1;
                while trees > 0 {
                    if hall[at] == 22 {
                        at += 1;
                        trees += 1;
                    } else {
                        at += 19;
                        trees -= 1;
                    }
                }
            }
            other => panic!("{other} is no station"),
        }
        if stands == position {
            return (begin, at);
        }
        stands += 1;
    }
}

/// The hall with a block that has not begun in the place of the attempt at a
/// position, and that block's attempt made there from its opening to its end; the
/// rule of the end.
fn made_whole(table: &Table, hall: &Hall, position: usize, random: &mut Random) -> (Hall, u8) {
    let bytes = hall.as_bytes();
    let (begin, end) = bytes_of_station(bytes, position);
    assert_eq!(bytes[begin], 21, "an attempt");
    let mut closed = bytes[..begin].to_vec();
    closed.extend([20, bytes[begin + 1]]);
    closed.extend(&bytes[end..]);
    closed.resize(bytes.len(), 0);
    let mut whole = Hall::from_bytes(table.bytes(), &closed).expect("a hall");
    let mut tally = ruonfidd::Tally::fresh();
    let position = u8::try_from(position).unwrap();
    let act = Choice::Act { position };
    whole.step(table.bytes(), act, &mut tally).expect("opens");
    loop {
        // Any order of the nodes leads to the same end.
        let first = random.byte_below(16);
        let moved = (0..16).any(|by| {
            let node = (first + by) % 16;
            let inside = Choice::Inside { position, node };
            whole.step(table.bytes(), inside, &mut tally).is_ok()
        });
        if !moved {
            let rule = whole.step(table.bytes(), act, &mut tally);
            let rule = rule.map_or(0, |moved| moved.rule);
            return (whole, rule);
        }
    }
}

/// A random run told by steps, with the halls around each choice.
struct Run {
    entries: Vec<Entry>,
    halls: Vec<Hall>,
    positions: Vec<usize>,
    rules: Vec<u8>,
    last: [u8; 16],
}

fn random_run(random: &mut Random, table: &Table, program: &Program, most: usize) -> Run {
    let mut rehearsal = Rehearsal::open(table, program).expect("a hall");
    let mut steps = Steps::new(table, program);
    let mut run = Run {
        entries: Vec::new(),
        halls: vec![rehearsal.hall().clone()],
        positions: Vec::new(),
        rules: Vec::new(),
        last: [0; 16],
    };
    for _ in 0..most {
        let Some((choice, _)) = random.pick(&rehearsal.accepted()) else {
            break;
        };
        let happened = rehearsal.make(choice).expect("an accepted choice");
        steps.moved(&happened);
        run.halls.push(rehearsal.hall().clone());
        run.positions.push(happened.position());
        run.rules.push(happened.rule.number);
    }
    run.entries = steps.entries().to_vec();
    run.last = rehearsal.now().counts;
    run
}

fn steps_of(entries: &[Entry]) -> Vec<&Step> {
    let steps = entries.iter().filter_map(|entry| match entry {
        Entry::Step(step) => Some(&**step),
        _ => None,
    });
    steps.collect()
}

/// Where the end of an attempt is told alone, the engine comes to the very same
/// hall by an attempt made there and then. Where its opening is told too, it
/// does not.
#[test]
fn what_is_told_as_one_step_is_one() {
    let mut random = Random::new(31);
    let (mut alone, mut interleaved, mut apart) = (0, 0, 0);
    for (which, table) in tables(31, 900) {
        let program = Program::of_table(&table);
        let run = random_run(&mut random, &table, &program, 60);
        for step in steps_of(&run.entries) {
            let ends = match step.what {
                What::Commits { .. } => Moved::ATOK,
                What::GivesUp => Moved::ATRE,
                What::Fails => Moved::ATFAIL,
                _ => continue,
            };
            assert_eq!(run.rules[step.choice], ends, "{which}\n{step:?}");
            let (before, after) = (&run.halls[step.choice], &run.halls[step.choice + 1]);
            let position = run.positions[step.choice];
            let (whole, rule) = made_whole(&table, before, position, &mut random);
            let same = whole == *after && rule == ends;
            assert_eq!(step.opened.is_none(), same, "{which}\n{step:?}");
            apart += usize::from(!same);
            alone += usize::from(same);
            let straight = step.choice > 0 && run.positions[step.choice - 1] != position;
            interleaved += usize::from(same && straight);
        }
    }
    let met = (alone, interleaved, apart);
    assert!(alone > 2_000 && interleaved > 500 && apart > 100, "{met:?}");
}

/// Every put, take and end of an attempt is told once, and what it changed.
/// Openings are told of attempts that are open in the end, and of those told in
/// two.
#[test]
fn every_step_is_told_once() {
    let mut random = Random::new(32);
    for (which, table) in tables(32, 600) {
        let program = Program::of_table(&table);
        let run = random_run(&mut random, &table, &program, 50);
        let mut counts = table.counts();
        let mut told = Vec::new();
        let (mut openings, mut ends_of_openings) = (0, 0);
        for step in steps_of(&run.entries) {
            let around = [step.choice, step.choice + 1].map(|at| run.halls[at].counts());
            for (tray, (from, to)) in (0_u8..).zip(around[0].iter().zip(around[1])) {
                let change = step.changes.iter().find(|it| it.tray == tray);
                let told = change.map(|it| (it.from, it.to));
                assert_eq!(told, (from != to).then_some((*from, *to)), "{which}");
                counts[usize::from(tray)] = *to;
            }
            if step.what == What::Opens {
                openings += 1;
                continue;
            }
            ends_of_openings += usize::from(step.opened.is_some());
            told.push(step.choice);
        }
        assert_eq!(counts, run.last, "{which}");
        let ends = [
            Moved::OUT,
            Moved::IN,
            Moved::REP,
            Moved::ATRE,
            Moved::ATFAIL,
            Moved::ATOK,
        ];
        let ended = (0..run.rules.len()).filter(|at| ends.contains(&run.rules[*at]));
        assert!(told.iter().copied().eq(ended), "{which}\n{told:?}");
        let last = run.halls.last().unwrap();
        let stations = workbench::stations::stations(last).unwrap();
        let open = stations
            .iter()
            .filter(|it| matches!(it, workbench::stations::Station::Attempt(_)))
            .count();
        assert_eq!(openings, open + ends_of_openings, "{which}");
    }
}

fn rows_of(entries: &[Entry]) -> Vec<Row> {
    let rows = told(entries).into_iter().filter_map(|it| match it {
        Told::Row(row) => Some(row),
        Told::Apart(_) => None,
    });
    rows.collect()
}

/// Rows tell all steps, each once and in order. A folded one tells so many
/// rounds, each like the first, and what came of all of them.
#[test]
fn what_repeats_is_folded() {
    let mut random = Random::new(33);
    let mut folded = 0;
    for (which, table) in tables(33, 500) {
        let program = Program::of_table(&table);
        let run = random_run(&mut random, &table, &program, 70);
        let steps = steps_of(&run.entries);
        let mut at = 0;
        for row in rows_of(&run.entries) {
            let length = row.steps.len();
            let all = &steps[at..at + length * row.times];
            assert_eq!(row.numbers, (at + 1, at + all.len()), "{which}");
            at += all.len();
            for (index, step) in all.iter().enumerate() {
                let like = &row.steps[index % length];
                assert_eq!(step.each_time, like.each_time, "{which}");
                assert_eq!(step.what, like.what, "{which}");
            }
            let first = all.first().unwrap();
            let last = all.last().unwrap();
            let [before, after] = [first.choice, last.choice + 1].map(|at| run.halls[at].counts());
            // Choices of others may lie between; folded steps change these alone.
            let net: Vec<Change> = (0_u8..)
                .zip(before.iter().zip(after))
                .filter(|(_, (from, to))| from != to)
                .map(|(tray, (from, to))| Change {
                    tray,
                    from: *from,
                    to: *to,
                })
                .collect();
            assert_eq!(row.changes, net, "{which}\n{row:?}");
            folded += usize::from(row.times > 1);
            assert!(row.times != 2, "{which}");
        }
        assert_eq!(at, steps.len(), "{which}");
    }
    assert!(folded > 50, "{folded}");
}

#[test]
fn forty_nine_times() {
    let text = "tray x has 49\ntray a\nrule pump is repeatedly take x then put a\nstart pump\n";
    let understood = understand(&Source::new("", text)).unwrap();
    let mut rehearsal = Rehearsal::open(&understood.table, &understood.program).unwrap();
    let mut steps = Steps::new(&understood.table, &understood.program);
    for _ in 0..49 {
        for position in [0, 0] {
            let happened = rehearsal.make(Choice::Act { position }).unwrap();
            steps.moved(&happened);
        }
    }
    let rows = rows_of(steps.entries());
    assert_eq!(rows.len(), 1);
    assert_eq!(rows[0].who, "49 times: pump, put a");
    assert_eq!(rows[0].numbers, (1, 98));
    let lines = lines_of(&understood.program, &told(steps.entries()), 80);
    assert_eq!(
        lines,
        ["1-98  49 times: pump, put a    x 49 -> 0, a 0 -> 49"]
    );
}

fn lines_of(program: &Program, told: &[Told], width: usize) -> Vec<String> {
    let layout = Layout {
        program,
        style: Style::PLAIN,
        width,
        indent: 0,
    };
    layout.lines(told)
}

/// At any width each row has its words, whole; no line is longer than the width
/// but one of a single piece.
#[test]
fn lines_of_any_width() {
    let mut random = Random::new(34);
    let mut long = 0;
    for (which, table) in tables(34, 250) {
        let program = Program::of_table(&table);
        let run = random_run(&mut random, &table, &program, 40);
        let told = told(&run.entries);
        let plain: Vec<Vec<String>> = rows_of(&run.entries)
            .iter()
            .map(|row| words_of(&program, row))
            .collect();
        for width in [20, 50, 80, 120] {
            let lines = lines_of(&program, &told, width);
            let mut words: Vec<Vec<String>> = Vec::new();
            for line in &lines {
                let in_line: Vec<&str> = line.split_whitespace().collect();
                // A row begins with its number, in the first columns.
                if line.get(..1).is_some_and(|it| it != " ") || !line.starts_with("      ") {
                    words.push(Vec::new());
                }
                let row = words.last_mut().expect("a row");
                row.extend(in_line.iter().map(|it| (*it).to_owned()));
                if line.len() > width {
                    long += 1;
                    assert!(width == 20, "{which} at {width}: {line}");
                }
            }
            for (row, expected) in words.iter_mut().zip(&plain) {
                row.sort();
                assert_eq!(row, expected, "{which} at {width}\n{}", lines.join("\n"));
            }
            assert_eq!(words.len(), plain.len(), "{which} at {width}");
        }
    }
    assert!(long < 200, "{long}");
}

/// All words of a row, sorted.
fn words_of(program: &Program, row: &Row) -> Vec<String> {
    let (first, last) = row.numbers;
    let mut text = if first == last {
        first.to_string()
    } else {
        format!("{first}-{last}")
    };
    text = format!("{text} {} {}", row.who, row.remark);
    for (at, change) in row.changes.iter().enumerate() {
        let comma = if at + 1 < row.changes.len() { "," } else { "" };
        let Change { tray, from, to } = *change;
        text = format!("{text} {} {from} -> {to}{comma}", program.tray_name(tray));
    }
    if row.changes.is_empty() {
        text.push_str(" no change");
    }
    let mut words: Vec<String> = text.split_whitespace().map(str::to_owned).collect();
    words.sort();
    words
}

/// `do` makes what the engine makes of a station that goes on by itself: an act,
/// in an attempt the lowest node that it accepts, and the act that ends it.
#[test]
fn do_makes_a_whole_step() {
    let mut random = Random::new(35);
    let (mut attempts, mut others, mut refused) = (0, 0, 0);
    for (which, table) in tables(35, 500) {
        let program = Program::of_table(&table);
        let mut lesson = Lesson::open(&table, &program).expect(&which);
        for _ in 0..12 {
            let accepted = lesson.rehearsal().accepted();
            let Some((choice, _)) = random.pick(&accepted) else {
                break;
            };
            let [_, position, _] = choice.to_bytes();
            let name = lesson.now().names.name(position.into());
            let mut hall = lesson.rehearsal().hall().clone();
            let moves = goes_on(&table, &mut hall, position);
            let text = format!("do {name}");
            let lines = read_choices(&Source::new("", text.as_str()), &program).expect(&which);
            let first = lesson.choice(&lines[0].ask).unwrap().unwrap();
            let whole = lesson.make_line(&lines[0], first).unwrap();
            let made: Vec<Choice> = whole.moved.iter().map(|it| it.choice).collect();
            assert_eq!(made, moves, "{which}\n{text}");
            assert_eq!(*lesson.rehearsal().hall(), hall, "{which}\n{text}");
            attempts += usize::from(made.len() > 1);
            others += usize::from(made.len() == 1);
            refused += usize::from(whole.refused.is_some());
        }
        assert_eq!(lesson.agrees(), Ok(()), "{which}");
    }
    let met = (attempts, others, refused);
    assert!(attempts > 300 && others > 500 && refused > 3, "{met:?}");
}

/// The choices that the engine takes of one station until its step is over.
fn goes_on(table: &Table, hall: &mut Hall, position: u8) -> Vec<Choice> {
    let mut tally = ruonfidd::Tally::fresh();
    let mut moves = Vec::new();
    loop {
        let nodes = (0..32).map(|node| Choice::Inside { position, node });
        let act = Choice::Act { position };
        let next = nodes.chain([act]).find_map(|choice| {
            let answer = hall.step(table.bytes(), choice, &mut tally).ok()?;
            Some((choice, answer.rule))
        });
        let Some((choice, rule)) = next else {
            return moves;
        };
        moves.push(choice);
        let inside = [
            Moved::ATST,
            Moved::ARDOK,
            Moved::ARDF,
            Moved::AWR,
            Moved::AOI,
            Moved::AOF,
            Moved::AOE,
        ];
        if !inside.contains(&rule) {
            return moves;
        }
    }
}

/// A lesson of steps builds the bytes of its single moves.
#[test]
fn steps_and_moves_build_the_same_choices() {
    let folder = scratch("do-builds");
    let text = fs::read_to_string(package().join("examples/ballots.hall")).unwrap();
    let rules = text.split("choices\n").next().unwrap();
    let steps = "choices do bell do guest do guest do desk => commits do desk's put aside do guest";
    fs::write(folder.join("moves.hall"), &text).unwrap();
    fs::write(folder.join("steps.hall"), format!("{rules}{steps}\n")).unwrap();
    let build = |file: &str| raw_hall_in(&folder, &["build", "--choices", file], b"").stdout;
    assert!(build("moves.hall").len() > 60);
    assert_eq!(build("steps.hall"), build("moves.hall"));
    // What is not answered as expected builds nothing.
    let wrong = steps.replace("commits", "gives-up");
    fs::write(folder.join("wrong.hall"), format!("{rules}{wrong}\n")).unwrap();
    assert!(build("wrong.hall").is_empty());
}
