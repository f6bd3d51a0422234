//! The graph of situations for programs against one that is made apart, by
//! trying every step of the second implementation's one-step run.

use std::collections::{BTreeMap, BTreeSet, VecDeque};

use reference::atomic::{first_readable_path, possible_steps, start, take_step};
use reference::atomic::{OneStep, Path, Place, Step};
use reference::generator::{accepted_table, contended_table, Random, Shape};
use reference::hall::Action;
use reference::run::Tally;
use reference::table::{read_table, Table, Term};
use workbench::style::Style;

use crate::common::called;
use crate::json::{parsed, Value};

/// A station by what it is, whichever of equal terms it waits at.
type Built = String;

/// What the trays in use have, and which stations stand there.
type Situation = (Vec<u64>, Vec<Built>);

/// Who acts, the word for it, the way of a block, and where that leads.
type Arrow = (Built, String, Option<u64>, Situation);

/// A term written out, so that equal terms are written alike.
fn shape(table: &Table, term: usize) -> Built {
    let of = |term: usize| shape(table, term);
    match table.terms[term] {
        Term::Nil => "nil".to_owned(),
        Term::Put { tray } => format!("put {tray}"),
        Term::Take { tray, then } => format!("take {tray} ({})", of(then)),
        Term::RepeatedTake { tray, then } => format!("repeat {tray} ({})", of(then)),
        Term::SideBySide { left, right } => format!("({}) beside ({})", of(left), of(right)),
        Term::Atom { body } => format!("block ({})", of(body)),
        Term::End => "end".to_owned(),
        Term::Retry => "retry".to_owned(),
        Term::Rd { tray, rest } => format!("rd {tray}, {}", of(rest)),
        Term::Wt { tray, rest } => format!("wt {tray}, {}", of(rest)),
        Term::OrElse { left, right } => format!("({}) else ({})", of(left), of(right)),
    }
}

fn shape_of(table: &Table, place: &Place) -> Built {
    match place {
        Place::Putting { tray } => format!("put {tray}"),
        Place::Waiting { term, .. } => shape(table, *term),
    }
}

/// The ways of an expression from the first to the last, and whether each ends.
fn ways(table: &Table, expression: usize) -> Vec<(Path, bool)> {
    let behind = |action: Action, rest: usize| {
        let ways = ways(table, rest).into_iter();
        let ways = ways.map(|(mut path, ends)| {
            path.insert(0, action);
            (path, ends)
        });
        ways.collect()
    };
    match table.terms[expression] {
        Term::End => vec![(Vec::new(), true)],
        Term::Retry => vec![(Vec::new(), false)],
        Term::Rd { tray, rest } => behind(Action::Read(tray), rest),
        Term::Wt { tray, rest } => behind(Action::Write(tray), rest),
        Term::OrElse { left, right } => {
            let mut all = ways(table, left);
            all.extend(ways(table, right));
            all
        }
        other => panic!("no expression: {other:?}"),
    }
}

/// The number of the way that a block commits by, from 1.
fn way(table: &Table, state: &OneStep, position: usize) -> Option<u64> {
    let Place::Waiting { term, .. } = state.places[position] else {
        return None;
    };
    let Term::Atom { body } = table.terms[term] else {
        return None;
    };
    let path = first_readable_path(table, term, &state.counts)?;
    let is_it = |way: &(Path, bool)| way.1 && way.0 == path;
    let at = ways(table, body).iter().position(is_it);
    Some(at.expect("a way of the block") as u64 + 1)
}

/// A graph made by trying everything.
#[derive(Default)]
struct Tried {
    arrows: BTreeMap<Situation, BTreeSet<Arrow>>,
    distance: BTreeMap<Situation, usize>,
}

/// The graph of a table; none where it is large.
fn tried(table: &Table, trays: &[usize], most: usize) -> Option<Tried> {
    let situation = |state: &OneStep| -> Situation {
        let counts = trays.iter().map(|tray| u64::from(state.counts[*tray]));
        let places = state.places.iter().map(|place| shape_of(table, place));
        let mut places: Vec<Built> = places.collect();
        places.sort();
        (counts.collect(), places)
    };
    let mut graph = Tried::default();
    let mut to_see = VecDeque::from([(start(table, Tally::FRESH), 0)]);
    while let Some((state, distance)) = to_see.pop_front() {
        let from = situation(&state);
        if graph.arrows.contains_key(&from) {
            continue;
        }
        if graph.arrows.len() == most {
            return None;
        }
        let mut arrows = BTreeSet::new();
        for step in possible_steps(table, &state) {
            let (word, position) = match step {
                Step::Out { position } => ("puts", position),
                Step::In { position } => ("takes", position),
                Step::Rep { position } => ("repeats", position),
                Step::Commit { position } => ("commits", position),
            };
            let mut next = state.clone();
            take_step(table, &mut next, step).unwrap();
            arrows.insert((
                shape_of(table, &state.places[position]),
                word.to_owned(),
                way(table, &state, position),
                situation(&next),
            ));
            to_see.push_back((next, distance + 1));
        }
        graph.distance.insert(from.clone(), distance);
        graph.arrows.insert(from, arrows);
    }
    Some(graph)
}

/// A graph that was written, in the words of the other one.
struct Written {
    nodes: Vec<Situation>,
    arrows: Vec<Vec<Arrow>>,
    steps: Vec<u64>,
    ends: Vec<bool>,
    complete: bool,
}

fn numbers(value: &Value) -> Vec<usize> {
    let number = |value: &Value| match value {
        Value::Number(number) => usize::try_from(*number).unwrap(),
        other => panic!("no number: {other:?}"),
    };
    value.list().iter().map(number).collect()
}

/// The shape that a kind of station says it has.
fn shape_of_kind(table: &Table, kind: &Value) -> Built {
    let tray = || kind.words("tray").trim_start_matches('t').to_owned();
    assert_eq!(*kind.field("noted"), Value::Null);
    if *kind.field("term") == Value::Null {
        assert_eq!(kind.words("does"), "put");
        return format!("put {}", tray());
    }
    let term = usize::try_from(kind.number("term")).unwrap();
    let (does, of_tray) = match table.terms[term] {
        Term::Take { tray, .. } => ("take", Some(tray)),
        Term::RepeatedTake { tray, .. } => ("repeatedly take", Some(tray)),
        _ => ("block", None),
    };
    assert_eq!(kind.words("does"), does);
    match of_tray {
        Some(of) => assert_eq!(tray(), of.to_string()),
        None => assert_eq!(*kind.field("tray"), Value::Null),
    }
    shape(table, term)
}

/// Explores a table with a graph of so many situations.
fn explored(bytes: &[u8], most: usize) -> Value {
    let most = most.to_string();
    let mut arguments = vec!["explore", "-", "--binary", "--json", "--graph", &most];
    // Enough for the graphs that are compared.
    arguments.extend(["--memory", "1"]);
    let answer = called(&arguments, bytes, Style::PLAIN, false);
    assert_eq!((answer.code, answer.err.as_str()), (Some(0), ""));
    parsed(answer.out.trim_end())
}

impl Written {
    fn of(table: &Table, exploration: &Value) -> Written {
        let graph = exploration.field("graph");
        let kinds = graph.field("kinds").list().iter();
        let kinds: Vec<Built> = kinds.map(|kind| shape_of_kind(table, kind)).collect();
        let nodes = graph.field("nodes").list();
        let situation = |node: &Value| -> Situation {
            let trays = node.field("trays");
            let names = trays.fields().iter().map(|(name, _)| name);
            let counts = names.map(|name| trays.number(name)).collect();
            let stations = numbers(node.field("stations")).into_iter();
            let mut stations: Vec<Built> = stations.map(|kind| kinds[kind].clone()).collect();
            stations.sort();
            (counts, stations)
        };
        let mut written = Written {
            nodes: nodes.iter().map(situation).collect(),
            arrows: vec![Vec::new(); nodes.len()],
            steps: nodes.iter().map(|node| node.number("steps")).collect(),
            ends: nodes
                .iter()
                .map(|node| *node.field("end") == Value::Truth(true))
                .collect(),
            complete: *graph.field("complete") == Value::Truth(true),
        };
        for edge in graph.field("edges").list() {
            let number = |name: &str| usize::try_from(edge.number(name)).unwrap();
            let way = edge.field("way");
            written.arrows[number("from")].push((
                kinds[number("kind")].clone(),
                edge.words("word").to_owned(),
                (*way != Value::Null).then(|| edge.number("way")),
                written.nodes[number("to")].clone(),
            ));
        }
        written
    }

    /// Each of its situations is one of the other graph, with all steps that
    /// lead to others of its own.
    fn is_part_of(&self, tried: &Tried) {
        let own: BTreeSet<&Situation> = self.nodes.iter().collect();
        assert_eq!(own.len(), self.nodes.len(), "none is there twice");
        for (place, node) in self.nodes.iter().enumerate() {
            let all = &tried.arrows[node];
            let inside = all.iter().filter(|(_, _, _, to)| own.contains(to));
            let written: BTreeSet<&Arrow> = self.arrows[place].iter().collect();
            assert_eq!(written.len(), self.arrows[place].len());
            assert_eq!(written, inside.collect());
            assert_eq!(self.steps[place], all.len() as u64);
            assert_eq!(self.ends[place], all.is_empty());
        }
        let distances = self.nodes.iter().map(|node| tried.distance[node]);
        let distances: Vec<usize> = distances.collect();
        assert!(distances.is_empty() || distances[0] == 0);
        assert!(distances.windows(2).all(|two| two[0] <= two[1]));
    }
}

#[derive(Debug, Default)]
struct Met {
    halls: usize,
    with_notes: usize,
    large: usize,
    parts: usize,
    edges: usize,
    left_out: usize,
    second_ways: usize,
}

impl Met {
    fn compare(&mut self, bytes: &[u8], random: &mut Random) {
        const MOST: usize = 300;
        let table = read_table(bytes).unwrap();
        let whole = explored(bytes, MOST);
        if whole.words("exact_by").contains("with notes") {
            self.with_notes += 1;
            return;
        }
        let names = whole.field("trays").fields().iter().map(|(name, _)| name);
        let trays: Vec<usize> = names.map(|name| name[1..].parse().unwrap()).collect();
        let Some(tried) = tried(&table, &trays, MOST) else {
            self.large += 1;
            assert_eq!(*whole.field("graph").field("complete"), Value::Truth(false));
            return;
        };
        let written = Written::of(&table, &whole);
        written.is_part_of(&tried);
        assert!(written.complete);
        assert_eq!(written.nodes.len(), tried.arrows.len());
        assert_eq!(whole.field("graph").number("limit"), MOST as u64);
        self.halls += 1;
        let arrows = written.arrows.iter().flatten();
        self.second_ways += arrows.clone().filter(|it| it.2 > Some(1)).count();
        self.edges += arrows.count();
        self.part(bytes, &table, &tried, random);
    }

    /// The same with a limit below the number of situations.
    fn part(&mut self, bytes: &[u8], table: &Table, tried: &Tried, random: &mut Random) {
        let all = tried.arrows.len();
        if all == 1 {
            return;
        }
        let most = 1 + random.below(all - 1);
        let part = explored(bytes, most);
        let written = Written::of(table, &part);
        written.is_part_of(tried);
        assert!(!written.complete);
        assert_eq!(written.nodes.len(), most);
        let graph = part.field("graph");
        assert_eq!(graph.number("limit"), most as u64);
        assert_eq!(*graph.field("cut_by"), Value::Null);
        self.parts += 1;
        let arrows: usize = written.arrows.iter().map(Vec::len).sum();
        self.left_out += usize::from(written.steps.iter().sum::<u64>() > arrows as u64);
    }
}

#[test]
fn graphs_of_random_halls() {
    let mut met = Met::default();
    for seed in 0..700 {
        let mut random = Random::new(seed);
        met.compare(&contended_table(&mut random), &mut random);
        let shape = Shape::small(&mut random);
        met.compare(&accepted_table(&mut random, shape), &mut random);
    }
    assert!(met.halls > 900 && met.large > 5, "{met:?}");
    assert!(met.parts > 600 && met.left_out > 500, "{met:?}");
    assert!(met.edges > 10_000 && met.second_ways > 100, "{met:?}");
}
