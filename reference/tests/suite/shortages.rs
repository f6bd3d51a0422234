//! What was short: the test of a log's reads against counts, and that commits
//! and reads which fail pass its answer on.

use reference::build::Builder;
use reference::calculus::{rd, Act};
use reference::calls::{self, StepAnswer};
use reference::choice::Choice;
use reference::generator::{self, Random, Shape};
use reference::hall::{encode, opening, Action, Hall, Leaf, Log, Node, Rest, Station};
use reference::moves::{make_move, Outcome};
use reference::run::Tally;
use reference::shortage::Shortage;
use reference::stands_for::state_of;
use reference::table::{byte_of, Counts, Table, Term, TRAYS};

use crate::common::{accepted, act, all_choices, inside};
use Action::{Read, Write};

/// A tray that was short by so many.
fn short(tray: u8, by: u8) -> Shortage {
    Shortage { tray, by }
}

/// How many tokens of each tray are missing, found by taking them up one by one.
fn missing(log: &[Action], counts: &Counts) -> [u8; TRAYS] {
    let mut left = *counts;
    let mut missing = [0; TRAYS];
    for action in log {
        if let Read(tray) = action {
            let tray = usize::from(*tray);
            if left[tray] > 0 {
                left[tray] -= 1;
            } else {
                missing[tray] += 1;
            }
        }
    }
    missing
}

/// The lowest tray of which some are missing.
fn lowest(missing: &[u8; TRAYS]) -> Option<Shortage> {
    let tray = missing.iter().position(|by| *by > 0)?;
    Some(short(byte_of(tray), missing[tray]))
}

/// The same by the calculus: the lowest name of RD without the state.
fn by_the_calculus(log: &[Action], counts: &Counts) -> Option<Shortage> {
    let acts: Vec<Act> = log
        .iter()
        .map(|action| match *action {
            Read(tray) => Act::Rd(tray),
            Write(tray) => Act::Wt(tray),
        })
        .collect();
    let lacking = rd(&acts).minus(&state_of(counts));
    let tray = (0..=255).find(|name| lacking.times(*name) > 0)?;
    let by = u8::try_from(lacking.times(tray)).expect("a log of 16 entries");
    Some(short(tray, by))
}

/// Where reads are tested.
#[derive(Clone, Copy, Debug, PartialEq, Eq)]
enum Test {
    /// Rules 6 and 7: the log against the present counts.
    Commit,
    /// Rules 8 and 9: the log with a read at its end against the snapshot.
    Read,
}

impl Test {
    const BOTH: [Test; 2] = [Test::Commit, Test::Read];

    /// The rule where nothing is short.
    fn passes(self) -> u8 {
        match self {
            Test::Commit => 7,
            Test::Read => 8,
        }
    }

    /// The rule where something is.
    fn fails(self) -> u8 {
        match self {
            Test::Commit => 6,
            Test::Read => 9,
        }
    }
}

/// A test of some actions, the last of them a read.
#[derive(Clone, Debug)]
struct Case {
    test: Test,
    /// All that is logged; of a read, its own action as well.
    actions: Vec<Action>,
    /// The counts that decide.
    deciding: Counts,
    /// The snapshot of a commit, the present counts of a read.
    idle: Counts,
}

/// The term that reads this tray in the table below.
fn reads(tray: u8) -> usize {
    1 + usize::from(tray)
}

/// An end, a read of each tray, and a block.
fn table_of_reads() -> Vec<u8> {
    let mut table = Builder::new();
    let end = table.end();
    for tray in 0..16 {
        let read = table.rd(tray, end);
        assert_eq!(usize::from(read), reads(tray));
    }
    let block = table.atom(end);
    table.start(block)
}

/// The block of that table.
const BLOCK: usize = 17;

impl Case {
    /// A hall of one attempt, and the choice that makes the test.
    fn hall(&self) -> (Hall, Choice) {
        let mut entries = self.actions.clone();
        let (counts, snapshot, rest, choice) = match self.test {
            Test::Commit => (self.deciding, self.idle, Rest::Term(0), act(0)),
            Test::Read => {
                let Some(Read(tray)) = entries.pop() else {
                    panic!("no read at the end");
                };
                let rest = Rest::Term(reads(tray));
                (self.idle, self.deciding, rest, inside(0, 0))
            }
        };
        let tree = Node::Leaf(Leaf {
            rest,
            log: Log { entries },
        });
        let attempt = Station::Attempt {
            term: BLOCK,
            snapshot,
            tree,
        };
        let stations = vec![attempt];
        (Hall { counts, stations }, choice)
    }

    /// What the call that makes one choice answers.
    fn answer(&self) -> (u8, Option<Shortage>) {
        let (hall, choice) = self.hall();
        let mut stored = encode(&hall);
        let mut tally = Tally::FRESH;
        match calls::step(&table_of_reads(), &mut stored, &mut tally, &choice.bytes()) {
            StepAnswer::Moved { rule, short } => (rule, short),
            StepAnswer::Refused(refusal) => panic!("{refusal:?} of {self:?}"),
        }
    }

    fn lowest_missing(&self) -> Option<Shortage> {
        lowest(&missing(&self.actions, &self.deciding))
    }

    /// The answer by counting one by one.
    fn expected(&self) -> (u8, Option<Shortage>) {
        match self.lowest_missing() {
            None => (self.test.passes(), None),
            short => (self.test.fails(), short),
        }
    }

    /// The same with another number of tokens in a tray that decides.
    fn with_tokens(&self, tray: u8, tokens: u8) -> Case {
        let mut other = self.clone();
        other.deciding[usize::from(tray)] = tokens;
        other
    }
}

#[test]
fn by_hand() {
    let mut counts = [0; TRAYS];
    counts[2] = 2;
    counts[9] = 255;
    for (actions, expected) in [
        (vec![], None),
        (vec![Read(2), Read(2), Read(9)], None),
        (vec![Write(0), Write(15)], None),
        (vec![Read(2), Read(2), Read(2)], Some(short(2, 1))),
        (vec![Read(0)], Some(short(0, 1))),
        (vec![Read(15)], Some(short(15, 1))),
        (vec![Read(15); 16], Some(short(15, 16))),
        (vec![Read(2); 16], Some(short(2, 14))),
        (vec![Read(9); 16], None),
        // The lowest tray and not the first that is read, nor the one that
        // lacks most.
        (
            vec![Read(15), Read(15), Read(7), Read(3)],
            Some(short(3, 1)),
        ),
        // A write gives nothing.
        (vec![Write(3), Read(3), Write(3)], Some(short(3, 1))),
    ] {
        let log = Log {
            entries: actions.clone(),
        };
        assert_eq!(log.shortage(&counts), expected, "{actions:?}");
        assert_eq!(lowest(&missing(&actions, &counts)), expected);
        assert_eq!(by_the_calculus(&actions, &counts), expected);
    }
}

/// The actions in another order, with a read still at the end.
fn shuffled(random: &mut Random, mut actions: Vec<Action>) -> Vec<Action> {
    for last in (1..actions.len()).rev() {
        actions.swap(last, random.below(last + 1));
    }
    let read = |action: &Action| matches!(action, Read(_));
    let at = actions.iter().position(read).expect("a read");
    let end = actions.len() - 1;
    actions.swap(at, end);
    actions
}

/// Some more actions, no more than a log has room for: reads of lower trays, which
/// get exactly enough; reads of higher ones, which often get too few; writes of
/// any tray.
fn add_others(random: &mut Random, case: &mut Case, tray: u8) {
    for _ in 0..random.below(17 - case.actions.len()) {
        let other = random.byte_below(TRAYS);
        if other == tray || random.percent(30) {
            case.actions.push(Write(other));
        } else {
            case.actions.push(Read(other));
            if other < tray || random.percent(50) {
                case.deciding[usize::from(other)] += 1;
            }
        }
    }
}

/// Each tray read 1 to 16 times where 0 to 16 are there, by commits and reads:
/// it is told, and by how many, whatever is read of higher trays.
#[test]
fn every_tray_is_short_by_every_number() {
    let mut random = Random::new(70);
    let mut higher_short = 0;
    for test in Test::BOTH {
        for tray in 0..16 {
            for (read, there) in (1..=16).flat_map(|read| (0..=16).map(move |there| (read, there)))
            {
                let mut case = Case {
                    test,
                    actions: vec![Read(tray); usize::from(read)],
                    deciding: [0; TRAYS],
                    idle: [random.byte_below(2) * 255; TRAYS],
                };
                case.deciding[usize::from(tray)] = there;
                add_others(&mut random, &mut case, tray);
                case.actions = shuffled(&mut random, case.actions);
                let answer = case.answer();
                assert_eq!(answer, case.expected(), "{case:?}");
                if read > there {
                    let by = read - there;
                    assert_eq!(answer, (test.fails(), Some(short(tray, by))), "{case:?}");
                } else if let (_, Some(told)) = answer {
                    assert!(told.tray > tray, "{case:?}");
                    higher_short += 1;
                }
            }
        }
    }
    assert!(higher_short > 500, "{higher_short}");
}

/// A case by chance: a few trays, about as many tokens as are read.
fn some_case(random: &mut Random) -> Case {
    let trays: Vec<u8> = (0..random.between(1, 4))
        .map(|_| random.byte_below(TRAYS))
        .collect();
    let tray = |random: &mut Random| random.pick(&trays).expect("a tray");
    let mut actions = Vec::new();
    for _ in 0..random.below(16) {
        let tray = tray(random);
        actions.push(if random.percent(75) {
            Read(tray)
        } else {
            Write(tray)
        });
    }
    actions.push(Read(tray(random)));
    Case {
        test: random.pick(&Test::BOTH).expect("a test"),
        deciding: some_counts(random, &actions),
        idle: some_counts(random, &actions),
        actions,
    }
}

/// Counts of which most of the reads find their token.
fn some_counts(random: &mut Random, actions: &[Action]) -> Counts {
    let mut counts = [0; TRAYS];
    let percent = random.between(50, 100);
    for action in actions {
        if let Read(tray) = action {
            if random.percent(percent) {
                counts[usize::from(*tray)] += 1;
            }
        }
    }
    for count in &mut counts {
        if random.percent(5) {
            *count = random.byte();
        }
    }
    counts
}

/// What was met among cases by chance.
#[derive(Debug, Default)]
struct Met {
    passed: [usize; 2],
    failed: [usize; 2],
    several_short: usize,
    short_by_more: usize,
}

impl Met {
    fn note(&mut self, case: &Case) {
        let index = usize::from(case.test == Test::Read);
        let Some(told) = case.lowest_missing() else {
            self.passed[index] += 1;
            return;
        };
        self.failed[index] += 1;
        let missing = missing(&case.actions, &case.deciding);
        let trays = missing.iter().filter(|by| **by > 0).count();
        self.several_short += usize::from(trays > 1);
        self.short_by_more += usize::from(told.by > 1);
    }

    fn assert_all(&self) {
        let [passed, failed] = [self.passed, self.failed];
        for times in passed.into_iter().chain(failed) {
            assert!(times > 2_000, "{self:?}");
        }
        assert!(self.several_short > 2_000, "{self:?}");
        assert!(self.short_by_more > 2_000, "{self:?}");
    }
}

#[test]
fn cases_by_chance_are_counted_one_by_one() {
    let mut random = Random::new(71);
    let mut met = Met::default();
    for _ in 0..20_000 {
        let case = some_case(&mut random);
        let answer = case.answer();
        assert_eq!(answer, case.expected(), "{case:?}");
        assert_eq!(by_the_calculus(&case.actions, &case.deciding), answer.1);
        met.note(&case);
    }
    met.assert_all();
}

/// Ways to tell something else: of these actions, of the counts that decide and
/// of those that do not.
type Way = fn(&[Action], &Counts, &Counts) -> Option<Shortage>;

/// The highest tray that lacks.
fn highest(actions: &[Action], deciding: &Counts, _: &Counts) -> Option<Shortage> {
    let missing = missing(actions, deciding);
    let tray = missing.iter().rposition(|by| *by > 0)?;
    Some(short(byte_of(tray), missing[tray]))
}

/// The tray that lacks most, the lowest of several.
fn most(actions: &[Action], deciding: &Counts, _: &Counts) -> Option<Shortage> {
    let missing = missing(actions, deciding);
    let tray = (0..TRAYS).rev().max_by_key(|tray| missing[*tray])?;
    let by = missing[tray];
    Some(short(byte_of(tray), by)).filter(|_| by > 0)
}

/// The tray that lacks and is read first.
fn read_first(actions: &[Action], deciding: &Counts, _: &Counts) -> Option<Shortage> {
    let missing = missing(actions, deciding);
    actions.iter().find_map(|action| match *action {
        Read(tray) => Some(short(tray, missing[usize::from(tray)])).filter(|short| short.by > 0),
        Write(_) => None,
    })
}

/// The tray of the last read, as though its own read alone could fail.
fn read_last(actions: &[Action], deciding: &Counts, _: &Counts) -> Option<Shortage> {
    let missing = missing(actions, deciding);
    lowest(&missing)?;
    match *actions.last()? {
        Read(tray) => Some(short(tray, missing[usize::from(tray)])),
        Write(_) => None,
    }
}

/// All reads of the tray, those that find a token too.
fn all_reads(actions: &[Action], deciding: &Counts, _: &Counts) -> Option<Shortage> {
    let told = lowest(&missing(actions, deciding))?;
    let reads = actions.iter().filter(|action| **action == Read(told.tray));
    Some(short(told.tray, byte_of(reads.count())))
}

/// One, however many lack.
fn always_one(actions: &[Action], deciding: &Counts, _: &Counts) -> Option<Shortage> {
    let told = lowest(&missing(actions, deciding))?;
    Some(short(told.tray, 1))
}

/// What lacks in all trays together.
fn in_all(actions: &[Action], deciding: &Counts, _: &Counts) -> Option<Shortage> {
    let missing = missing(actions, deciding);
    Some(short(lowest(&missing)?.tray, missing.iter().sum()))
}

/// The last action left out.
fn without_the_last(actions: &[Action], deciding: &Counts, _: &Counts) -> Option<Shortage> {
    lowest(&missing(&actions[..actions.len() - 1], deciding))
}

/// The reads of a tray that its own writes do not serve.
fn after_writes(actions: &[Action], deciding: &Counts, _: &Counts) -> Option<Shortage> {
    let mut counts = *deciding;
    for action in actions {
        if let Write(tray) = action {
            let count = &mut counts[usize::from(*tray)];
            *count = count.saturating_add(1);
        }
    }
    lowest(&missing(actions, &counts))
}

/// The counts that do not decide.
fn by_the_idle(actions: &[Action], _: &Counts, idle: &Counts) -> Option<Shortage> {
    lowest(&missing(actions, idle))
}

/// Each of these ways gives another answer in many of the cases, for commits and
/// for reads: the cases could tell them from the right one.
#[test]
fn wrong_ways_are_told_apart() {
    let ways: [(&str, Way); 10] = [
        ("the highest", highest),
        ("the one that lacks most", most),
        ("the one read first", read_first),
        ("the one read last", read_last),
        ("all its reads", all_reads),
        ("always one", always_one),
        ("what lacks in all", in_all),
        ("without the last action", without_the_last),
        ("after its writes", after_writes),
        ("the counts that do not decide", by_the_idle),
    ];
    let mut apart = [[0; 10]; 2];
    let mut random = Random::new(71);
    for _ in 0..20_000 {
        let case = some_case(&mut random);
        let (_, told) = case.answer();
        let times = &mut apart[usize::from(case.test == Test::Read)];
        for (times, (_, way)) in times.iter_mut().zip(ways) {
            let other = way(&case.actions, &case.deciding, &case.idle);
            *times += usize::from(other != told);
        }
    }
    for (test, times) in Test::BOTH.iter().zip(apart) {
        for (times, (name, _)) in times.into_iter().zip(ways) {
            assert!(times > 200, "{test:?}, {name}: {times} times");
        }
    }
}

/// The number is exact: with so many more tokens the tray is not told any more,
/// with fewer it is, short by the rest. Other trays have no part in it.
#[test]
fn with_so_many_more_tokens_the_tray_is_not_short() {
    let mut random = Random::new(72);
    let mut alone = [0; 2];
    let mut beside_others = [0; 2];
    let mut by_more = 0;
    for _ in 0..20_000 {
        let case = some_case(&mut random);
        let (_, Some(Shortage { tray, by })) = case.answer() else {
            continue;
        };
        let there = case.deciding[usize::from(tray)];
        for fewer in 1..by {
            let still = case.with_tokens(tray, there + by - fewer);
            assert_eq!(
                still.answer(),
                (case.test.fails(), Some(short(tray, fewer)))
            );
            by_more += 1;
        }
        if there > 0 {
            let less = case.with_tokens(tray, there - 1);
            assert_eq!(
                less.answer(),
                (case.test.fails(), Some(short(tray, by + 1)))
            );
        }
        let mut full = case.clone();
        full.deciding = [255; TRAYS];
        let full = full.with_tokens(tray, there);
        assert_eq!(full.answer(), (case.test.fails(), Some(short(tray, by))));

        let index = usize::from(case.test == Test::Read);
        match case.with_tokens(tray, there + by).answer() {
            (rule, None) => {
                assert_eq!(rule, case.test.passes(), "{case:?}");
                alone[index] += 1;
            }
            (rule, Some(next)) => {
                assert_eq!(rule, case.test.fails(), "{case:?}");
                assert!(next.tray > tray, "{case:?}");
                beside_others[index] += 1;
            }
        }
    }
    for times in alone.into_iter().chain(beside_others) {
        assert!(times > 1_000, "{alone:?} {beside_others:?}");
    }
    assert!(by_more > 2_000, "{by_more}");
}

/// The log and the counts that a choice tests, if it tests any.
fn tested(table: &Table, hall: &Hall, choice: Choice) -> Option<(Vec<Action>, Counts)> {
    let (Choice::Act { position } | Choice::Inside { position, .. }) = choice;
    let station = hall.stations.get(usize::from(position))?;
    let Station::Attempt { snapshot, tree, .. } = station else {
        return None;
    };
    let node = match choice {
        Choice::Act { .. } => tree,
        Choice::Inside { node, .. } => tree.at(usize::from(node))?,
    };
    let Node::Leaf(Leaf {
        rest: Rest::Term(term),
        log,
    }) = node
    else {
        return None;
    };
    match (choice, table.terms[*term]) {
        (Choice::Act { .. }, Term::End) => Some((log.entries.clone(), hall.counts)),
        (Choice::Inside { .. }, Term::Rd { tray, .. }) => {
            Some((log.with(Read(tray)).entries, *snapshot))
        }
        _ => None,
    }
}

/// Every choice at each station, and at each node that an attempt can have.
fn choices_of(hall: &Hall) -> Vec<Choice> {
    let mut choices = Vec::new();
    for position in 0..byte_of(hall.stations.len()) {
        choices.push(act(position));
        choices.extend((0..15).map(|node| inside(position, node)));
    }
    choices
}

/// Stored halls by chance, most of which no run reaches. Something is told
/// exactly where the log that a commit or a read tests lacks something.
#[test]
fn every_choice_of_halls_by_chance() {
    let mut random = Random::new(73);
    let mut rules = [0; 14];
    let mut refused = 0;
    let mut another_tray = 0;
    for index in 0..3_000 {
        let bytes = if index % 2 == 0 {
            generator::contended_table(&mut random)
        } else {
            let shape = Shape::any(&mut random);
            generator::accepted_table(&mut random, shape)
        };
        let table = accepted(&bytes);
        let hall = generator::hall(&mut random, &table);
        for choice in choices_of(&hall) {
            let test = tested(&table, &hall, choice);
            let expected = test
                .as_ref()
                .and_then(|(log, counts)| lowest(&missing(log, counts)));
            match make_move(&table, &hall, choice) {
                Outcome::Moved { rule, short, .. } => {
                    assert_eq!(short, expected, "{choice:?} {hall:?}");
                    assert_eq!(short.is_some(), [6, 9].contains(&rule), "{rule}");
                    rules[usize::from(rule)] += 1;
                }
                Outcome::Refused(_) => {
                    assert_eq!(expected, None, "{choice:?} {hall:?}");
                    refused += 1;
                }
            }
            // A read may fail for another tray than its own.
            if let (Choice::Inside { .. }, Some((log, _)), Some(told)) = (choice, test, expected) {
                another_tray += usize::from(log.last() != Some(&Read(told.tray)));
            }
        }
    }
    for (rule, times) in rules.iter().enumerate().skip(1) {
        assert!(*times > 100, "rule {rule} seen {times} times");
    }
    assert!(refused > 1_000, "{refused}");
    assert!(another_tray > 100, "{another_tray}");
}

/// In a hall that a run reached the log is within the snapshot: a read that
/// fails is the first that lacks, and its own tray is told, short by one.
#[test]
fn in_reached_halls_a_read_lacks_its_own_token() {
    let mut random = Random::new(74);
    let mut reads = 0;
    let mut second_reads = 0;
    let mut commits = 0;
    for _ in 0..3_000 {
        let table = accepted(&generator::contended_table(&mut random));
        let mut hall = opening(&table);
        let list = generator::choices(&mut random, &table, &hall, 40, 0);
        for choice in all_choices(&list) {
            let test = tested(&table, &hall, choice);
            let Outcome::Moved {
                rule,
                short: told,
                hall: next,
            } = make_move(&table, &hall, choice)
            else {
                panic!("{choice:?} is refused");
            };
            if let (9, Some((log, _))) = (rule, &test) {
                let Some(Read(tray)) = log.last() else {
                    panic!("no read at the end");
                };
                assert_eq!(told, Some(short(*tray, 1)), "{choice:?} {hall:?}");
                reads += 1;
                second_reads += usize::from(log[..log.len() - 1].contains(&Read(*tray)));
            }
            commits += usize::from(rule == 6);
            hall = next;
        }
    }
    assert!(reads > 500, "{reads}");
    assert!(second_reads > 50, "{second_reads}");
    assert!(commits > 50, "{commits}");
}
