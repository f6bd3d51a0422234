//! The suggestion: the first accepted choice of a hall, the lowest position and
//! then the lowest node, or nothing where the hall is still (document 02, Q-2).

use std::cmp::Reverse;

use reference::build::Builder;
use reference::calls::{self, StepAnswer};
use reference::choice::Choice;
use reference::generator::{self, Random, Shape};
use reference::hall::{encode, Action, Hall, Leaf, Log, Node, Rest, Station};
use reference::moves::{accepted_choices, make_move, Outcome};
use reference::run::Tally;
use reference::suggestion::{first_of, suggestion};
use reference::table::{Refusal, Table, Term};

use crate::common::{accepted, act, each_kind, inside, opened};

fn is_accepted(table: &Table, hall: &Hall, choice: Choice) -> bool {
    matches!(make_move(table, hall, choice), Outcome::Moved { .. })
}

/// Every accepted choice, found by trying every choice there is: position by
/// position, at each the act and then node by node.
fn accepted_by_trying(table: &Table, hall: &Hall) -> Vec<Choice> {
    let mut found = Vec::new();
    for position in 0..=255 {
        if is_accepted(table, hall, act(position)) {
            found.push(act(position));
        }
        for node in 0..=255 {
            if is_accepted(table, hall, inside(position, node)) {
                found.push(inside(position, node));
            }
        }
    }
    found
}

/// The first accepted choice, found by trying one after the other until one is
/// accepted. At each position the act is tried before the nodes, or after them.
fn first_by_trying(table: &Table, hall: &Hall, act_before_nodes: bool) -> Option<Choice> {
    for position in 0..=255 {
        let acts = is_accepted(table, hall, act(position));
        if acts && act_before_nodes {
            return Some(act(position));
        }
        for node in 0..=255 {
            if is_accepted(table, hall, inside(position, node)) {
                return Some(inside(position, node));
            }
        }
        if acts {
            return Some(act(position));
        }
    }
    None
}

fn position_of(choice: Choice) -> u8 {
    match choice {
        Choice::Act { position } | Choice::Inside { position, .. } => position,
    }
}

/// The node of a choice, 0 for kind 1.
fn node_of(choice: Choice) -> u8 {
    match choice {
        Choice::Act { .. } => 0,
        Choice::Inside { node, .. } => node,
    }
}

fn kind_of(choice: Choice) -> u8 {
    choice.bytes()[0]
}

/// A wrong program: it picks from all accepted choices, in the order in which
/// they were tried.
type Wrong = (&'static str, fn(&[Choice]) -> Option<Choice>);

/// Programs that do not suggest the first accepted choice, or not always.
const WRONG: [Wrong; 8] = [
    ("the last accepted choice", |all| all.last().copied()),
    ("the highest node", |all| {
        let best = |choice: &Choice| (position_of(*choice), Reverse(node_of(*choice)));
        all.iter().copied().min_by_key(best)
    }),
    ("the highest position", |all| {
        let best = |choice: &Choice| (Reverse(position_of(*choice)), node_of(*choice));
        all.iter().copied().min_by_key(best)
    }),
    ("the node before the position", |all| {
        let best = |choice: &Choice| (node_of(*choice), position_of(*choice));
        all.iter().copied().min_by_key(best)
    }),
    ("kind 1 wherever it is", |all| {
        all.iter().copied().min_by_key(|choice| kind_of(*choice))
    }),
    ("kind 2 wherever it is", |all| {
        let best = |choice: &Choice| Reverse(kind_of(*choice));
        all.iter().copied().min_by_key(best)
    }),
    ("still, since position 0 cannot move", |all| {
        let first = all.first().copied();
        first.filter(|choice| position_of(*choice) == 0)
    }),
    ("no node but 0 looked at", |all| {
        all.iter().copied().find(|choice| node_of(*choice) == 0)
    }),
];

/// The names of the wrong programs that this hall, with these choices accepted,
/// shows to be wrong.
fn shown_wrong(all: &[Choice], first: Choice) -> Vec<&'static str> {
    let differs = |wrong: &&Wrong| wrong.1(all) != Some(first);
    WRONG.iter().filter(differs).map(|wrong| wrong.0).collect()
}

/// Any accepted table.
fn any_table(random: &mut Random) -> Vec<u8> {
    if random.percent(50) {
        return generator::contended_table(random);
    }
    let shape = Shape::any(random);
    generator::accepted_table(random, shape)
}

/// A hall by chance, well formed for the table: small, or with 64 stations. In
/// front of some there are stations that mostly cannot move, puts into a full
/// tray; they are passed over.
fn any_hall(random: &mut Random, table: &Table) -> Hall {
    let stations = match random.below(12) {
        0 => 64,
        _ => random.below(6),
    };
    let mut hall = generator::hall_with(random, table, stations);
    if stations < 6 && random.percent(30) {
        hall.counts[15] = 255;
        for _ in 0..random.between(1, 3) {
            hall.stations.insert(0, Station::Putting { tray: 15 });
        }
    }
    hall
}

/// How many of the generated halls were of use.
#[derive(Debug, Default)]
struct Met {
    still: usize,
    moving: usize,
    two_choices: usize,
    two_positions: usize,
    two_nodes: usize,
    wrong: [usize; WRONG.len()],
}

impl Met {
    fn note(&mut self, all: &[Choice]) {
        let Some(first) = all.first().copied() else {
            self.still += 1;
            return;
        };
        self.moving += 1;
        let here = position_of(first);
        let at_first = |choice: &&Choice| position_of(**choice) == here;
        let nodes = all.iter().filter(at_first).count();
        self.two_choices += usize::from(all.len() > 1);
        self.two_positions += usize::from(all.len() > nodes);
        self.two_nodes += usize::from(nodes > 1);
        for (times, wrong) in self.wrong.iter_mut().zip(WRONG) {
            *times += usize::from(wrong.1(all) != Some(first));
        }
    }
}

#[test]
fn the_first_of_all_choices_tried_in_order() {
    let mut random = Random::new(50);
    let mut met = Met::default();
    for _ in 0..1_000 {
        let bytes = any_table(&mut random);
        let table = accepted(&bytes);
        let hall = any_hall(&mut random, &table);
        let stored = encode(&hall);
        let first = first_by_trying(&table, &hall, true);
        assert_eq!(suggestion(&table, &hall), first);
        assert_eq!(calls::suggest(&bytes, &stored), Ok(first));
        // Which kind is tried first at a position does not matter.
        assert_eq!(first_by_trying(&table, &hall, false), first);
        assert_eq!(calls::is_still(&bytes, &stored), Ok(first.is_none()));
        if let Some(choice) = first {
            let mut next = stored.clone();
            let mut tally = Tally::FRESH;
            let answer = calls::step(&bytes, &mut next, &mut tally, &choice.bytes());
            assert!(matches!(answer, StepAnswer::Moved { .. }), "{choice:?}");
        }
        let all = accepted_by_trying(&table, &hall);
        assert_eq!(all.first().copied(), first);
        met.note(&all);
    }
    assert!(met.still > 80 && met.moving > 700, "{met:?}");
    assert!(met.two_choices > 500, "{met:?}");
    assert!(met.two_positions > 500, "{met:?}");
    assert!(met.two_nodes > 80, "{met:?}");
    for (times, (name, _)) in met.wrong.iter().zip(WRONG) {
        assert!(*times > 50, "{name}: shown wrong by {times} halls");
    }
}

/// The listed choices in another order, or some of them alone.
#[test]
fn how_the_choices_are_listed_does_not_matter() {
    let mut random = Random::new(51);
    let mut several = 0;
    for _ in 0..300 {
        let table = accepted(&any_table(&mut random));
        let hall = any_hall(&mut random, &table);
        let mut all = accepted_choices(&table, &hall);
        let first = first_of(&all);
        assert_eq!(first, all.first().copied());
        several += usize::from(all.len() > 1);
        all.reverse();
        assert_eq!(first_of(&all), first);
        for _ in 0..all.len().min(8) {
            let by = random.below(all.len());
            all.rotate_left(by);
            assert_eq!(first_of(&all), first);
        }
        // Without the first one the next is first.
        all.retain(|choice| Some(*choice) != first);
        let next = accepted_choices(&table, &hall).get(1).copied();
        assert_eq!(first_of(&all), next);
    }
    assert!(several > 100, "{several}");
    assert_eq!(first_of(&[]), None);
}

#[test]
fn accepted_choices_are_all_of_them() {
    let mut random = Random::new(2);
    let mut still = 0;
    let mut moving = 0;
    for index in 0..60 {
        let shape = Shape::any(&mut random);
        let bytes = generator::accepted_table(&mut random, shape);
        let table = accepted(&bytes);
        let stations = if index % 3 == 0 { 64 } else { index % 4 };
        let hall = generator::hall_with(&mut random, &table, stations);
        let all = accepted_by_trying(&table, &hall);
        assert_eq!(accepted_choices(&table, &hall), all);
        let stored = encode(&hall);
        assert_eq!(calls::accepted_choices(&bytes, &stored), Ok(all.clone()));
        assert_eq!(calls::is_still(&bytes, &stored), Ok(all.is_empty()));
        if all.is_empty() {
            still += 1;
        } else {
            moving += 1;
        }
    }
    assert!(still > 3 && moving > 20, "{still} {moving}");
}

/// The states in which a station may be, as far as its choices go by them.
const STATES: [&str; 10] = [
    "putting",
    "waiting with a take",
    "waiting with a repeated take",
    "waiting with a block",
    "a single end leaf",
    "a single retry leaf",
    "a single leaf of byte 255",
    "a single leaf with more to do",
    "a fork whose left side is an end or a retry",
    "a fork whose left side is neither",
];

fn state_of(table: &Table, station: &Station) -> &'static str {
    let index = match station {
        Station::Putting { .. } => 0,
        Station::Waiting { term } => match table.terms[*term] {
            Term::Take { .. } => 1,
            Term::RepeatedTake { .. } => 2,
            _ => 3,
        },
        Station::Attempt { tree, .. } => match tree {
            Node::Leaf(leaf) => state_of_leaf(table, leaf),
            Node::Fork(left, _) => match &**left {
                Node::Leaf(leaf) if state_of_leaf(table, leaf) < 7 => 8,
                _ => 9,
            },
        },
    };
    STATES[index]
}

fn state_of_leaf(table: &Table, leaf: &Leaf) -> usize {
    match leaf.rest {
        Rest::BareRetry => 6,
        Rest::Term(term) => match table.terms[term] {
            Term::End => 4,
            Term::Retry => 5,
            _ => 7,
        },
    }
}

/// So lowest position and lowest node leave no doubt: a position has an act or
/// nodes, and never both. Attempts in every state are among the halls.
#[test]
fn never_are_both_kinds_accepted_at_one_position() {
    let mut random = Random::new(52);
    let mut acts = [0; STATES.len()];
    let mut moves_inside = [0; STATES.len()];
    for _ in 0..3_000 {
        let table = accepted(&any_table(&mut random));
        let hall = any_hall(&mut random, &table);
        for (position, station) in (0..).zip(&hall.stations) {
            let kind_1 = is_accepted(&table, &hall, act(position));
            let kind_2 = (0..=255).any(|node| is_accepted(&table, &hall, inside(position, node)));
            assert!(!(kind_1 && kind_2), "{station:?}");
            let state = state_of(&table, station);
            let index = STATES.iter().position(|other| *other == state);
            let index = index.expect("one of the states");
            acts[index] += usize::from(kind_1);
            moves_inside[index] += usize::from(kind_2);
        }
    }
    for (index, state) in STATES.iter().enumerate() {
        // Up to single end and retry leaves it is the act, then the nodes.
        let (often, never) = if index < 7 {
            (acts[index], moves_inside[index])
        } else {
            (moves_inside[index], acts[index])
        };
        assert!(often > 100 && never == 0, "{state}: {often} {never}");
    }
}

/// A hall for the table with one term of each kind, with these stations. Tray 0
/// is empty, so its takes cannot move; tray 15 is full, so a put into it cannot.
fn by_hand(stations: Vec<Station>) -> Hall {
    let mut counts = [0; 16];
    counts[15] = 255;
    Hall { counts, stations }
}

fn put(tray: u8) -> Station {
    Station::Putting { tray }
}

/// The take of the empty tray.
fn take() -> Station {
    Station::Waiting { term: 7 }
}

fn attempt(tree: Node) -> Station {
    Station::Attempt {
        term: 10,
        snapshot: [1; 16],
        tree,
    }
}

fn leaf(term: usize) -> Node {
    Node::Leaf(Leaf {
        rest: Rest::Term(term),
        log: Log::EMPTY,
    })
}

fn fork(left: Node, right: Node) -> Node {
    Node::Fork(Box::new(left), Box::new(right))
}

const END: usize = 0;
const RD: usize = 2;
const WT: usize = 3;

/// The hall has these accepted choices; the first of them is suggested; and of
/// the wrong programs it shows up these.
#[track_caller]
fn suggests(hall: &Hall, all: &[Choice], wrong: &[&str]) {
    let bytes = each_kind();
    let table = accepted(&bytes);
    assert_eq!(accepted_by_trying(&table, hall), all);
    assert_eq!(calls::suggest(&bytes, &encode(hall)), Ok(Some(all[0])));
    let shown = shown_wrong(all, all[0]);
    for name in wrong {
        assert!(shown.contains(name), "{name}: would pass, {shown:?} not");
    }
}

#[test]
fn two_stations_that_can_move() {
    suggests(
        &by_hand(vec![put(1), put(2)]),
        &[act(0), act(1)],
        &["the last accepted choice", "the highest position"],
    );
}

#[test]
fn a_first_station_that_cannot_move() {
    let passed_over = "still, since position 0 cannot move";
    suggests(&by_hand(vec![take(), put(1)]), &[act(1)], &[passed_over]);
    suggests(
        &by_hand(vec![put(15), take(), put(1), put(2)]),
        &[act(2), act(3)],
        &[passed_over, "the last accepted choice"],
    );
}

#[test]
fn two_nodes_that_can_move() {
    let both = "the last accepted choice";
    // Two leaves; the fork itself cannot move.
    suggests(
        &by_hand(vec![attempt(fork(leaf(RD), leaf(WT)))]),
        &[inside(0, 1), inside(0, 2)],
        &[both, "the highest node", "no node but 0 looked at"],
    );
    // The fork, then its right side.
    suggests(
        &by_hand(vec![attempt(fork(leaf(END), leaf(WT)))]),
        &[inside(0, 0), inside(0, 2)],
        &[both, "the highest node"],
    );
    // Deep on the left before shallow on the right.
    let left = fork(leaf(WT), leaf(END));
    suggests(
        &by_hand(vec![attempt(fork(left, leaf(RD)))]),
        &[inside(0, 2), inside(0, 4)],
        &[both, "the highest node", "no node but 0 looked at"],
    );
}

/// Eight leaves that can move, every fork on the left: no first node is higher.
#[test]
fn the_highest_first_node() {
    let mut tree = leaf(WT);
    for _ in 1..8 {
        tree = fork(tree, leaf(WT));
    }
    let all: Vec<Choice> = (7..15).map(|node| inside(0, node)).collect();
    suggests(
        &by_hand(vec![attempt(tree)]),
        &all,
        &["the highest node", "no node but 0 looked at"],
    );
}

#[test]
fn the_position_comes_before_node_and_kind() {
    suggests(
        &by_hand(vec![
            attempt(fork(leaf(RD), leaf(END))),
            attempt(leaf(WT)),
            put(1),
        ]),
        &[inside(0, 1), inside(1, 0), act(2)],
        &["the node before the position", "kind 1 wherever it is"],
    );
    suggests(
        &by_hand(vec![attempt(leaf(END)), attempt(leaf(WT))]),
        &[act(0), inside(1, 0)],
        &["kind 2 wherever it is", "the last accepted choice"],
    );
}

/// One hall for the last accepted choice, the highest node and a position that
/// is passed over.
#[test]
fn one_hall_shows_all_three() {
    suggests(
        &by_hand(vec![take(), attempt(fork(leaf(RD), leaf(WT))), put(1)]),
        &[inside(1, 1), inside(1, 2), act(2)],
        &[
            "the last accepted choice",
            "the highest node",
            "still, since position 0 cannot move",
        ],
    );
}

/// A commit of two writes has no room among 64 stations. Its attempt is passed
/// over, and so are the takes behind it.
#[test]
fn a_commit_without_room_is_passed_over() {
    let writes = Node::Leaf(Leaf {
        rest: Rest::Term(END),
        log: Log {
            entries: vec![Action::Write(1), Action::Write(2)],
        },
    });
    let mut hall = by_hand(vec![take(); 64]);
    hall.stations[0] = attempt(writes);
    hall.stations[63] = put(1);
    suggests(&hall, &[act(63)], &["still, since position 0 cannot move"]);
    // One station fewer, and there is room for it.
    hall.stations.remove(1);
    suggests(&hall, &[act(0), act(62)], &["the highest position"]);
    // As many as before, but none that can move.
    hall.stations[62] = take();
    hall.stations.push(take());
    let bytes = each_kind();
    assert_eq!(calls::suggest(&bytes, &encode(&hall)), Ok(None));
}

#[test]
fn still_halls() {
    // No stations; takes at empty trays; a put at a full tray.
    let mut table = Builder::new();
    let nil = table.nil();
    let nothing = table.start(nil);
    assert_eq!(calls::is_still(&nothing, &opened(&nothing)), Ok(true));
    assert_eq!(calls::suggest(&nothing, &opened(&nothing)), Ok(None));
    let take = table.take(0, nil);
    let again = table.repeated_take(1, nil);
    let put = table.put(2);
    let both = table.side_by_side(take, again);
    let all = table.side_by_side(both, put);
    table.tokens(2, 255);
    let bytes = table.start(all);
    assert_eq!(calls::is_still(&bytes, &opened(&bytes)), Ok(true));
    assert_eq!(calls::suggest(&bytes, &opened(&bytes)), Ok(None));
    let mut hall = opened(&bytes);
    hall[1] = 1;
    assert_eq!(calls::is_still(&bytes, &hall), Ok(false));
    assert_eq!(calls::accepted_choices(&bytes, &hall), Ok(vec![act(1)]));
    assert_eq!(calls::suggest(&bytes, &hall), Ok(Some(act(1))));
}

/// Nothing is suggested from a table or a hall that is refused, though its
/// first station could move.
#[test]
fn refused_tables_and_halls() {
    let bytes = each_kind();
    let hall = encode(&by_hand(vec![put(1), put(2)]));
    assert_eq!(calls::suggest(&bytes, &hall), Ok(Some(act(0))));
    let refused = |table: &[u8], hall: &[u8], number, place| {
        let refusal = Refusal { number, place };
        assert_eq!(calls::suggest(table, hall), Err(refusal));
    };
    refused(&[], &hall, 9, 0);
    refused(&[0], &hall, 1, 0);
    refused(&[1, 2, 16, 13, 0], &hall, 4, 1);
    let without_start = &bytes[..bytes.len() - 2];
    refused(without_start, &hall, 9, without_start.len());
    let longer = [&bytes[..], &[0]].concat();
    refused(&longer, &hall, 9, bytes.len());
    // The hall is looked at behind the table, and its length before its form.
    refused(&longer, &hall[1..], 9, bytes.len());
    refused(&bytes, &[], 10, 0);
    refused(&bytes, &hall[..hall.len() - 1], 10, 0);
    refused(&bytes, &[&hall[..], &[0]].concat(), 10, 0);
    refused(&bytes, &vec![99; hall.len() + 1], 10, 0);
    // The second station is of no kind, or puts into no tray; or a byte stands
    // far behind the last one.
    for (at, byte) in [(18, 99), (19, 16), (hall.len() - 1, 1)] {
        let mut other = hall.clone();
        other[at] = byte;
        refused(&bytes, &other, 11, 0);
    }
    let mut many = by_hand(vec![put(1); 64]);
    assert_eq!(calls::suggest(&bytes, &encode(&many)), Ok(Some(act(0))));
    many.stations.push(put(1));
    refused(&bytes, &encode(&many), 11, 0);
}
