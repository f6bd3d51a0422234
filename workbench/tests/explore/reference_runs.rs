//! Explorations against the one-step run of the second implementation: the same
//! situations, steps, ends and runs without end.
use std::collections::{BTreeMap, BTreeSet, VecDeque};

use crate::halls::{near_the_limits, tight};
use reference::atomic::{possible_steps, start, take_step, NotPossible, OneStep, Place, Step};
use reference::generator::{contended_table, Random};
use reference::run::Tally;
use reference::table::{read_table, Term};
use workbench::explore::endless::{endless, feeds_nothing_round, Allowed, Endless};
use workbench::explore::model::Model;
use workbench::explore::search::{search, Found, Limits, Questions};
use workbench::stations::Station;
use workbench::table::Table;

/// A situation as the model writes it.
type Situation = Vec<u8>;

/// What the second implementation finds: from each situation the steps to
/// others, and whether each is a commit.
#[derive(Default)]
struct Graph {
    steps: BTreeMap<Situation, BTreeSet<(u8, bool, Situation)>>,
    full_hall: bool,
    full_tray: bool,
}

fn code(model: &Model, place: &Place) -> u8 {
    let station = match place {
        Place::Putting { tray } => Station::Putting(*tray),
        Place::Waiting { term, .. } => Station::Waiting(u8::try_from(*term).unwrap()),
    };
    model.code(&station).unwrap()
}

fn situation(model: &Model, state: &OneStep) -> Situation {
    let codes = state
        .places
        .iter()
        .map(|place| code(model, place))
        .collect();
    model.sorted(&state.counts, codes)
}

/// The step that a station would make, whether it can or not.
fn step_of(table: &reference::table::Table, place: &Place, position: usize) -> Step {
    match place {
        Place::Putting { .. } => Step::Out { position },
        Place::Waiting { term, .. } => match table.terms[*term] {
            Term::Take { .. } => Step::In { position },
            Term::RepeatedTake { .. } => Step::Rep { position },
            _ => Step::Commit { position },
        },
    }
}

fn graph(bytes: &[u8], model: &Model) -> Graph {
    let table = read_table(bytes).unwrap();
    let first = start(&table, Tally::FRESH);
    let mut graph = Graph::default();
    let mut to_see = VecDeque::from([first]);
    while let Some(state) = to_see.pop_front() {
        let from = situation(model, &state);
        if graph.steps.contains_key(&from) {
            continue;
        }
        for (position, place) in state.places.iter().enumerate() {
            match take_step(&table, &mut state.clone(), step_of(&table, place, position)) {
                Err(NotPossible::FullHall) => graph.full_hall = true,
                Err(NotPossible::FullTray) => graph.full_tray = true,
                _ => {}
            }
        }
        let mut steps = BTreeSet::new();
        for step in possible_steps(&table, &state) {
            let mut next = state.clone();
            take_step(&table, &mut next, step).unwrap();
            let (Step::Out { position }
            | Step::In { position }
            | Step::Rep { position }
            | Step::Commit { position }) = step;
            let commit = matches!(step, Step::Commit { .. });
            let who = code(model, &state.places[position]);
            steps.insert((who, commit, situation(model, &next)));
            to_see.push_back(next);
        }
        graph.steps.insert(from, steps);
    }
    graph
}

/// Whether there is a run without end: situations that nothing leads to are
/// taken away until none is left, or none can be.
fn goes_on_for_ever(graph: &Graph, with_commits: bool) -> bool {
    let allowed = |commit: &bool| with_commits || !commit;
    let mut left: BTreeSet<&Situation> = graph.steps.keys().collect();
    loop {
        let reached: BTreeSet<&Situation> = left
            .iter()
            .flat_map(|from| &graph.steps[*from])
            .filter(|(_, commit, _)| allowed(commit))
            .map(|(_, _, to)| to)
            .collect();
        let fewer: BTreeSet<&Situation> = left.intersection(&reached).copied().collect();
        if fewer.len() == left.len() {
            return !left.is_empty();
        }
        left = fewer;
    }
}

fn limits() -> Limits {
    Limits::memory(300_000)
}

fn endless_by_walk(model: &Model, found: &Found, allowed: Allowed) -> bool {
    match endless(model, found, allowed, limits()) {
        Endless::No => false,
        Endless::Round(round) => {
            assert!(round.len() > 1);
            assert_eq!(round.first(), round.last());
            true
        }
        Endless::Unknown(_) => panic!("nothing was cut short"),
    }
}

#[derive(Debug, Default)]
struct Met {
    halls: usize,
    for_ever: usize,
    no_commit: usize,
    full_hall: usize,
    /// No walk was needed to see that every run ends: with commits, without.
    fed_nothing: [usize; 2],
}

impl Met {
    fn compare(&mut self, bytes: &[u8], most: u64) {
        let model = Model::of(&Table::read(bytes).unwrap());
        let found = search(&model, &Questions::default(), limits(), &mut |_, _| {});
        if found.cut.is_some() || found.situations > most {
            return;
        }
        let graph = graph(bytes, &model);
        let store = &found.store;
        let all: BTreeSet<Situation> = store.indexes().map(|it| store.get(it)).collect();
        let same: BTreeSet<Situation> = graph.steps.keys().cloned().collect();
        assert_eq!(all, same, "{bytes:?}");
        let steps: usize = graph.steps.values().map(BTreeSet::len).sum();
        assert_eq!(found.marks.steps, steps as u64, "{bytes:?}");
        let ends = graph
            .steps
            .values()
            .filter(|steps| steps.is_empty())
            .count();
        assert_eq!(found.ends.len(), ends, "{bytes:?}");
        assert_eq!(
            found.marks.full_hall.is_some(),
            graph.full_hall,
            "{bytes:?}"
        );
        assert_eq!(
            found.marks.full_tray.is_some(),
            graph.full_tray,
            "{bytes:?}"
        );
        let for_ever = goes_on_for_ever(&graph, true);
        let no_commit = goes_on_for_ever(&graph, false);
        assert_eq!(endless_by_walk(&model, &found, Allowed::Any), for_ever);
        assert_eq!(
            endless_by_walk(&model, &found, Allowed::NoCommit),
            no_commit
        );
        for (met, allowed) in self
            .fed_nothing
            .iter_mut()
            .zip([Allowed::Any, Allowed::NoCommit])
        {
            *met += usize::from(found.marks.repeats && feeds_nothing_round(&model, allowed));
        }
        self.halls += 1;
        self.for_ever += usize::from(for_ever);
        self.no_commit += usize::from(no_commit);
        self.full_hall += usize::from(graph.full_hall);
    }
}

#[test]
fn contended_halls() {
    let mut met = Met::default();
    for seed in 10_000..11_000 {
        met.compare(&contended_table(&mut Random::new(seed)), 400);
    }
    assert!(met.halls > 700, "{met:?}");
    assert!(
        met.for_ever > met.no_commit && met.no_commit > 20,
        "{met:?}"
    );
    let [any, no_commit] = met.fed_nothing;
    assert!(any > 20 && no_commit > any, "{met:?}");
}

#[test]
fn halls_near_the_limits() {
    let mut met = Met::default();
    for seed in 10_000..10_600 {
        met.compare(&near_the_limits(&mut Random::new(seed)), 200);
        met.compare(&tight(&mut Random::new(seed)), 200);
    }
    assert!(met.halls > 800 && met.full_hall > 300, "{met:?}");
}
