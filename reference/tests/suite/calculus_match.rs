//! Choices against reductions: each accepted choice is one reduction of `AtCCS`
//! with its rule, and each reduction within the limits has its choices. Halls
//! reached by runs and halls that no run reaches are both looked at.

use reference::build::Builder;
use reference::calculus::{
    components, parallel, reductions, Act, Expression, Multiset, Ongoing, Process, Reduction, Rule,
};
use reference::choice::Choice;
use reference::generator::{self, Random, Shape};
use reference::hall::{opening, Action, Hall, Node, Station, MOST_STATIONS};
use reference::moves::accepted_choices;
use reference::stands_for::{state_of, station_processes, unfolded_sizes};
use reference::table::{byte_of, Table, Term};

use crate::common::{accepted, act, inside, moved};

/// Where a move ends: its rule, the components of the process in order, and the
/// state.
type End = (Rule, Vec<Process>, Multiset);

#[derive(Default, Debug)]
struct Coverage {
    halls: usize,
    still: usize,
    rules: [usize; 14],
    com_by_rule: [usize; 8],
    com_putter_left: usize,
    com_putter_right: usize,
    full_tray: usize,
    full_hall: usize,
    com_full_tray: usize,
    com_full_hall: usize,
    forks: usize,
}

fn rule_of_number(number: u8) -> Rule {
    [
        Rule::Out,
        Rule::In,
        Rule::Rep,
        Rule::AtSt,
        Rule::AtRe,
        Rule::AtFail,
        Rule::AtOk,
        Rule::ArdOk,
        Rule::ArdF,
        Rule::Awr,
        Rule::Aoi,
        Rule::Aof,
        Rule::Aoe,
    ][usize::from(number) - 1]
}

/// The stations in parallel, in order, with some grouping and some nils.
fn grouped(random: &mut Random, processes: &[Process]) -> Process {
    let process = match processes {
        [] => Process::Nil,
        [one] => one.clone(),
        more => {
            let at = random.between(1, more.len() - 1);
            let left = grouped(random, &more[..at]);
            parallel(left, grouped(random, &more[at..]))
        }
    };
    match random.below(12) {
        0 => parallel(Process::Nil, process),
        1 => parallel(process, Process::Nil),
        _ => process,
    }
}

fn end_of(table: &Table, rule: Rule, hall: &Hall) -> End {
    (rule, station_processes(table, hall), state_of(&hall.counts))
}

/// What the accepted choices of a hall do.
fn ends_of_choices(table: &Table, hall: &Hall, coverage: &mut Coverage) -> Vec<End> {
    let mut ends = Vec::new();
    for choice in accepted_choices(table, hall) {
        let (number, next) = moved(table, hall, choice);
        coverage.rules[usize::from(number)] += 1;
        ends.push(end_of(table, rule_of_number(number), &next));
    }
    ends.sort();
    ends
}

/// What pairs of accepted choices do that are a COM: OUT, then IN, REP or an
/// ATOK that reads exactly one token, on the same tray.
fn ends_of_pairs(table: &Table, hall: &Hall, coverage: &mut Coverage) -> Vec<End> {
    let mut ends = Vec::new();
    for (position, station) in hall.stations.iter().enumerate() {
        let Station::Putting { tray } = station else {
            continue;
        };
        let out = Choice::Act {
            position: byte_of(position),
        };
        if !accepted_choices(table, hall).contains(&out) {
            continue;
        }
        let (_, between) = moved(table, hall, out);
        for choice in accepted_choices(table, &between) {
            let Choice::Act { position: second } = choice else {
                continue;
            };
            let (number, next) = moved(table, &between, choice);
            let taken = tokens_taken(table, &between.stations[usize::from(second)], number);
            if taken != [*tray] {
                continue;
            }
            coverage.com_by_rule[usize::from(number)] += 1;
            if position <= usize::from(second) {
                coverage.com_putter_left += 1;
            } else {
                coverage.com_putter_right += 1;
            }
            ends.push(end_of(table, Rule::Com(*tray), &next));
        }
    }
    ends.sort();
    ends
}

/// The trays from which this rule takes tokens at this station.
fn tokens_taken(table: &Table, station: &Station, rule: u8) -> Vec<u8> {
    match station {
        Station::Waiting { term } if rule == 2 || rule == 3 => match table.terms[*term] {
            Term::Take { tray, .. } | Term::RepeatedTake { tray, .. } => vec![tray],
            _ => panic!("only takes take"),
        },
        Station::Attempt {
            tree: Node::Leaf(leaf),
            ..
        } if rule == 7 => {
            let mut trays = Vec::new();
            for action in &leaf.log.entries {
                if let Action::Read(tray) = action {
                    trays.push(*tray);
                }
            }
            trays
        }
        _ => vec![],
    }
}

/// True when the reduction is within the limits of document 01; what bars it
/// is counted.
fn within_limits(state: &Multiset, step: &Reduction, coverage: &mut Coverage) -> bool {
    let full_hall = components(&step.process).len() > MOST_STATIONS;
    let full_tray = (0..16).any(|tray| step.state.times(tray) > 255);
    if let Rule::Com(name) = step.rule {
        // Both moves must be within: the put comes first.
        let no_room = state.times(name) == 255;
        coverage.com_full_tray += usize::from(no_room);
        coverage.com_full_hall += usize::from(full_hall);
        return !no_room && !full_hall;
    }
    coverage.full_tray += usize::from(full_tray);
    coverage.full_hall += usize::from(full_hall);
    !full_tray && !full_hall
}

/// The whole comparison for one hall, as lists in which each derivation and
/// each choice counts once.
fn compare(random: &mut Random, table: &Table, hall: &Hall, coverage: &mut Coverage) {
    let process = grouped(random, &station_processes(table, hall));
    let state = state_of(&hall.counts);
    let mut single = Vec::new();
    let mut com = Vec::new();
    for step in reductions(&process, &state) {
        if within_limits(&state, &step, coverage) {
            let end = (step.rule, components(&step.process), step.state);
            match step.rule {
                Rule::Com(_) => com.push(end),
                _ => single.push(end),
            }
        }
    }
    single.sort();
    com.sort();
    assert_eq!(ends_of_choices(table, hall, coverage), single);
    assert_eq!(ends_of_pairs(table, hall, coverage), com);
    coverage.halls += 1;
    coverage.still += usize::from(single.is_empty());
    for station in &hall.stations {
        if let Station::Attempt {
            tree: Node::Fork(..),
            ..
        } = station
        {
            coverage.forks += 1;
        }
    }
}

/// A table whose terms unfold into small trees.
fn small_table(random: &mut Random) -> Table {
    loop {
        let bytes = if random.percent(50) {
            generator::contended_table(random)
        } else {
            let shape = Shape::small(random);
            generator::accepted_table(random, shape)
        };
        let table = accepted(&bytes);
        if unfolded_sizes(&table).iter().all(|size| *size <= 60) {
            return table;
        }
    }
}

#[test]
fn halls_reached_by_runs() {
    let mut random = Random::new(8);
    let mut coverage = Coverage::default();
    for _ in 0..800 {
        let table = small_table(&mut random);
        let mut hall = opening(&table);
        for _ in 0..25 {
            compare(&mut random, &table, &hall, &mut coverage);
            let choices = accepted_choices(&table, &hall);
            let Some(choice) = random.pick(&choices) else {
                break;
            };
            hall = moved(&table, &hall, choice).1;
        }
    }
    println!("{coverage:?}");
    for (rule, times) in coverage.rules.iter().enumerate().skip(1) {
        assert!(*times > 100, "rule {rule} seen {times} times");
    }
    for rule in [2, 3, 7] {
        assert!(coverage.com_by_rule[rule] > 30, "COM by rule {rule}");
    }
    assert!(coverage.com_putter_left > 100);
    assert!(coverage.com_putter_right > 100);
    assert!(coverage.still > 50);
    assert!(coverage.forks > 500);
}

#[test]
fn halls_reached_by_no_run() {
    let mut random = Random::new(9);
    let mut coverage = Coverage::default();
    for _ in 0..15_000 {
        let table = small_table(&mut random);
        let stations = random.below(6);
        let hall = generator::hall_with(&mut random, &table, stations);
        compare(&mut random, &table, &hall, &mut coverage);
    }
    println!("{coverage:?}");
    for (rule, times) in coverage.rules.iter().enumerate().skip(1) {
        assert!(*times > 100, "rule {rule} seen {times} times");
    }
    for rule in [2, 3, 7] {
        assert!(coverage.com_by_rule[rule] > 100, "COM by rule {rule}");
    }
    assert!(coverage.com_putter_left > 100);
    assert!(coverage.com_putter_right > 100);
    assert!(coverage.full_tray > 100);
    assert!(coverage.com_full_tray > 40);
    assert!(coverage.forks > 1_000);
}

#[test]
fn full_halls() {
    let mut random = Random::new(10);
    let mut coverage = Coverage::default();
    for index in 0..40 {
        let table = if index % 2 == 0 {
            small_table(&mut random)
        } else {
            accepted(&generator::nearly_full_table(&mut random))
        };
        let stations = random.between(61, 64);
        let hall = generator::hall_with(&mut random, &table, stations);
        compare(&mut random, &table, &hall, &mut coverage);
    }
    println!("{coverage:?}");
    assert!(coverage.full_hall > 20);
    assert!(coverage.com_full_hall > 20);
    assert!(coverage.com_full_tray > 20);
    assert!(coverage.rules[7] > 20);
}

fn of(expression: Expression, log: Vec<Act>) -> Ongoing {
    Ongoing::Of {
        expression,
        state: Multiset::empty(),
        log,
    }
}

fn block(ongoing: Ongoing) -> Process {
    Process::Block {
        ongoing,
        code: Expression::Retry,
    }
}

/// Small cases of the calculus itself, worked out by hand from the tables.
#[test]
fn the_calculus_by_hand() {
    let empty = Multiset::empty();
    let one = |name| Multiset::empty().plus(name);
    let rules = |process: &Process, state: &Multiset| -> Vec<Rule> {
        reductions(process, state)
            .iter()
            .map(|step| step.rule)
            .collect()
    };
    // OUT and IN.
    assert_eq!(rules(&Process::Nil, &one(0)), []);
    assert_eq!(rules(&Process::Output(1), &empty), [Rule::Out]);
    let input = Process::Input(1, Box::new(Process::Output(2)));
    assert_eq!(rules(&input, &empty), []);
    assert_eq!(
        reductions(&input, &one(1)),
        [Reduction {
            rule: Rule::In,
            process: Process::Output(2),
            state: empty.clone()
        }]
    );
    // REP: what opens stands before the replicated input.
    let again = Process::Replicated(1, Box::new(Process::Output(2)));
    assert_eq!(
        reductions(&again, &one(1)),
        [Reduction {
            rule: Rule::Rep,
            process: parallel(Process::Output(2), again.clone()),
            state: empty.clone()
        }]
    );
    // COM both ways round; the other name does not meet.
    for both in [
        parallel(Process::Output(1), input.clone()),
        parallel(input.clone(), Process::Output(1)),
    ] {
        let steps = reductions(&both, &empty);
        assert_eq!(steps.len(), 2);
        assert_eq!(steps[0].rule, Rule::Out);
        assert_eq!(steps[1].rule, Rule::Com(1));
        assert_eq!(components(&steps[1].process), [Process::Output(2)]);
        assert_eq!(steps[1].state, empty);
    }
    let apart = parallel(Process::Output(3), input.clone());
    assert_eq!(rules(&apart, &empty), [Rule::Out]);
    // COM with a block: exactly one token, whatever it writes.
    for (log, expected) in [
        (vec![], 2),
        (vec![Act::Rd(1)], 3),
        (vec![Act::Rd(1), Act::Wt(1), Act::Wt(4)], 3),
        (vec![Act::Rd(1), Act::Rd(1)], 2),
        (vec![Act::Rd(1), Act::Rd(2)], 2),
        (vec![Act::Rd(2)], 2),
    ] {
        let both = parallel(Process::Output(1), block(of(Expression::End, log)));
        assert_eq!(rules(&both, &empty).len(), expected);
    }
    // ATOK and ATFAIL.
    let log = vec![Act::Wt(5), Act::Rd(1), Act::Wt(4), Act::Rd(1)];
    let closing = block(of(Expression::End, log));
    assert_eq!(rules(&closing, &one(1)), [Rule::AtFail]);
    let steps = reductions(&closing, &one(1).plus(1).plus(3));
    assert_eq!(steps.len(), 1);
    assert_eq!(steps[0].rule, Rule::AtOk);
    assert_eq!(
        components(&steps[0].process),
        [Process::Output(5), Process::Output(4)]
    );
    assert_eq!(steps[0].state, one(3));
    // ATST and ATRE.
    let code = Expression::Prefix(Act::Wt(0), Box::new(Expression::End));
    let steps = reductions(&Process::Atom(code.clone()), &one(7));
    assert_eq!(
        steps,
        [Reduction {
            rule: Rule::AtSt,
            process: Process::Block {
                ongoing: Ongoing::Of {
                    expression: code.clone(),
                    state: one(7),
                    log: vec![]
                },
                code
            },
            state: one(7)
        }]
    );
    let steps = reductions(&block(of(Expression::Retry, vec![Act::Wt(1)])), &empty);
    assert_eq!(steps.len(), 1);
    assert_eq!(steps[0].rule, Rule::AtRe);
    assert_eq!(steps[0].process, Process::Atom(Expression::Retry));
}

/// The rules of Table 3, at both sides of an ongoing alternative.
#[test]
fn the_calculus_of_ongoing_expressions_by_hand() {
    let empty = Multiset::empty();
    let read = Expression::Prefix(Act::Rd(1), Box::new(Expression::End));
    let write = Expression::Prefix(Act::Wt(1), Box::new(Expression::End));
    let either = Expression::OrElse(Box::new(read.clone()), Box::new(write.clone()));
    let or_else = |left, right| block(Ongoing::OrElse(Box::new(left), Box::new(right)));
    let of_ = |expression: &Expression| of(expression.clone(), vec![Act::Wt(9)]);
    // The state inside is empty, so the read fails though the token is there.
    let step = |process: &Process, token: &Multiset| reductions(process, token);
    let steps = step(&block(of_(&read)), &empty.plus(1));
    assert_eq!(steps.len(), 1);
    assert_eq!(steps[0].rule, Rule::ArdF);
    assert_eq!(steps[0].process, block(of_(&Expression::Retry)));
    let steps = step(&block(of_(&write)), &empty);
    assert_eq!(steps.len(), 1);
    assert_eq!(steps[0].rule, Rule::Awr);
    assert_eq!(
        steps[0].process,
        block(of(Expression::End, vec![Act::Wt(9), Act::Wt(1)]))
    );
    let steps = step(&block(of_(&either)), &empty);
    assert_eq!(steps.len(), 1);
    assert_eq!(steps[0].rule, Rule::Aoi);
    assert_eq!(steps[0].process, or_else(of_(&read), of_(&write)));
    // A settled left side closes; a settled right side does not. The right
    // side goes on beside a settled left side.
    for (left, rule) in [(Expression::Retry, Rule::Aof), (Expression::End, Rule::Aoe)] {
        let steps = step(&or_else(of_(&left), of_(&write)), &empty);
        assert_eq!(steps.len(), 2);
        assert_eq!(steps[0].rule, rule);
        let kept = if rule == Rule::Aof {
            of_(&write)
        } else {
            of_(&left)
        };
        assert_eq!(steps[0].process, block(kept));
        assert_eq!(steps[1].rule, Rule::Awr);
        let steps = step(&or_else(of_(&write), of_(&left)), &empty);
        assert_eq!(steps.len(), 1);
        assert_eq!(steps[0].rule, Rule::Awr);
    }
    // ARDOK counts the reads of the log, at every name.
    let with_log = |log: Vec<Act>| {
        block(Ongoing::Of {
            expression: read.clone(),
            state: empty.plus(1).plus(1),
            log,
        })
    };
    for (log, rule) in [
        (vec![], Rule::ArdOk),
        (vec![Act::Rd(1)], Rule::ArdOk),
        (vec![Act::Rd(1), Act::Rd(1)], Rule::ArdF),
        (vec![Act::Wt(1), Act::Wt(1)], Rule::ArdOk),
        (vec![Act::Rd(2)], Rule::ArdF),
    ] {
        assert_eq!(step(&with_log(log), &empty)[0].rule, rule);
    }
}

/// One hall with every way to hand over a token, counted by hand.
#[test]
fn handovers_by_hand() {
    let mut table = Builder::new();
    let end = table.end();
    let nil = table.nil();
    let read = table.rd(0, end);
    let block = table.atom(read);
    let put = table.put(0);
    let take = table.take(0, nil);
    let again = table.repeated_take(0, put);
    let a = table.side_by_side(take, put);
    let b = table.side_by_side(again, block);
    let all = table.side_by_side(a, b);
    table.tokens(0, 1);
    let table = accepted(&table.start(all));
    let mut hall = opening(&table);
    for choice in [act(3), inside(3, 0)] {
        hall = moved(&table, &hall, choice).1;
    }
    let mut coverage = Coverage::default();
    assert_eq!(ends_of_pairs(&table, &hall, &mut coverage).len(), 3);
    assert_eq!(coverage.com_by_rule, [0, 0, 1, 1, 0, 0, 0, 1]);
    assert_eq!(coverage.com_putter_right, 1);
    assert_eq!(coverage.com_putter_left, 2);
    compare(&mut Random::new(11), &table, &hall, &mut coverage);
    // At a count of 255 there is no handover within the limits.
    hall.counts[0] = 255;
    assert_eq!(ends_of_pairs(&table, &hall, &mut coverage), []);
    let mut coverage = Coverage::default();
    compare(&mut Random::new(12), &table, &hall, &mut coverage);
    assert_eq!(coverage.com_full_tray, 3);
}
