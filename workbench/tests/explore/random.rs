//! Explorations against the library's own steps, on random small halls.
use std::collections::{BTreeMap, BTreeSet};

use crate::halls::{going_round, near_the_limits, stuck, tight};
use reference::generator::{accepted_table, contended_table, Random, Shape};
use ruonfidd::Hall;
use workbench::explore::engine::{engine_search, EngineFound};
use workbench::explore::facts::{Asked, Collector, Facts, ForEver, LastRound, Verdict};
use workbench::explore::investigate::{investigate, Exact, Explored};
use workbench::explore::model::Model;
use workbench::explore::question::{Binder, Question};
use workbench::explore::replay::{Line, Witness};
use workbench::explore::rounds::{last_rounds, Members};
use workbench::explore::search::{search, Limits, Questions};
use workbench::explore::situations::Glance;
use workbench::stations::{counts, stations};
use workbench::table::Table;
use workbench::text::source::Source;
use workbench::text::tree::Program;
use workbench::text::understand;

/// What a random hall may cost; a larger one is passed over.
const SMALL: usize = 60_000;

fn by_steps(table: &Table, questions: &Questions) -> Explored {
    let limits = Limits::memory(100_000_000);
    investigate(table, questions, limits, &mut |_, _| {})
}

fn by_engine(table: &Table) -> Option<EngineFound> {
    let found = engine_search(table, Limits::memory(SMALL), &mut |_, _| None).unwrap();
    found.cut.is_none().then_some(found)
}

/// Situations and ends of an exploration, notes left out.
fn sets(explored: &Explored) -> [BTreeSet<Vec<u8>>; 2] {
    let store = &explored.found.store;
    let all = store
        .indexes()
        .map(|index| store.get(index))
        .filter(|situation| explored.model.without_notes(situation));
    let ends = explored.found.ends.iter();
    let read = |end: &u32| explored.model.read_without_notes(&store.get(*end));
    [all.collect(), ends.map(read).collect()]
}

fn engine_sets(found: &EngineFound) -> [BTreeSet<Vec<u8>>; 2] {
    let store = &found.situations;
    let all = store.indexes().map(|index| store.get(index).to_vec());
    let ends = found.ends.iter();
    [
        all.collect(),
        ends.map(|end| store.get(*end).to_vec()).collect(),
    ]
}

/// The rounds that are never left, each a set of situations, notes left out.
fn round_sets(table: &Table, with_notes: bool) -> BTreeSet<BTreeSet<Vec<u8>>> {
    let model = if with_notes {
        Model::with_notes(table).unwrap()
    } else {
        Model::of(table)
    };
    let limits = Limits::memory(100_000_000);
    let mut found = search(&model, &Questions::default(), limits, &mut |_, _| {});
    let mut rounds = BTreeSet::new();
    last_rounds(&model, &mut found, limits, |found, round| {
        let members: Vec<u32> = match round.members {
            Members::All => found.store.indexes().collect(),
            Members::Some(members) => members.to_vec(),
        };
        assert!(members.windows(2).all(|pair| pair[0] < pair[1]));
        let read = |index: &u32| model.read_without_notes(&found.store.get(*index));
        rounds.insert(members.iter().map(read).collect());
        Ok(())
    })
    .unwrap();
    rounds
}

fn engine_rounds(found: &EngineFound) -> BTreeSet<BTreeSet<Vec<u8>>> {
    let situation = |index: &u32| found.situations.get(*index).to_vec();
    let rounds = found.rounds.iter();
    rounds
        .map(|round| round.iter().map(situation).collect())
        .collect()
}

/// What would be found if notes were never taken.
fn without_notes(table: &Table) -> [BTreeSet<Vec<u8>>; 2] {
    let model = Model::of(table);
    let questions = Questions::default();
    let limits = Limits::memory(100_000_000);
    let found = search(&model, &questions, limits, &mut |_, _| {});
    sets(&Explored {
        model,
        found,
        exact: Exact::NeverFull,
        rounds: None,
        possible: Vec::new(),
        leads: Vec::new(),
    })
}

/// One run over all choices of a witness comes to the hall that it shows.
fn runs(table: &Table, witness: &Witness) -> Hall {
    let (mut hall, mut tally) = Hall::open(table.bytes()).unwrap();
    let done = hall.run(table.bytes(), &witness.bytes(), &mut tally);
    assert_eq!(done, Ok(witness.lines.len()));
    assert_eq!(stations(&hall), Some(witness.last.stations.clone()));
    hall
}

/// The choices of a round lead back to the same counts and stations, and can be
/// made by the same bytes again as often as stations keep their positions; at
/// least the situation is the same.
fn comes_round(table: &Table, witness: &Witness, before: usize) {
    let model = Model::of(table);
    let situation = |choices: &[Line]| {
        let (mut hall, mut tally) = Hall::open(table.bytes()).unwrap();
        for line in choices {
            hall.step(table.bytes(), line.choice, &mut tally).unwrap();
        }
        model.situation(&counts(&hall), &stations(&hall).unwrap())
    };
    assert!(before < witness.lines.len());
    let (entry, _) = witness.lines.split_at(before);
    assert_eq!(situation(entry), situation(&witness.lines));
}

/// How often what was met.
#[derive(Debug, Default)]
struct Met {
    halls: usize,
    passed_over: usize,
    full_hall: usize,
    full_tray: usize,
    with_notes: usize,
    without_alternatives: usize,
    notes_mattered: usize,
    broken: usize,
    ends: usize,
    rounds: usize,
    last_rounds: usize,
    stuck_beside: usize,
    /// Sorts with rounds at different distances, and halls with such sorts.
    unlike_rounds: usize,
    unlike_sorts: usize,
    stuck: usize,
    kept_as_numbers: usize,
}

/// One question of each sort, about a tray by chance.
fn questions(table: &Table, program: &Program, random: &mut Random) -> Questions {
    let binder = Binder::new(table, program);
    let mut questions = Questions::default();
    for (asked, sign) in [(Asked::Never, ">"), (Asked::Ends, "<=")] {
        if let Some(tray) = random.pick(&table.trays_in_use()) {
            let text = format!("t{tray} {sign} {}", random.below(3));
            questions.add(binder.read(asked, &text).unwrap());
        }
    }
    questions
}

impl Met {
    /// Makes every way on the library, and has the answers be those that the
    /// sets give. The sets are those of the library.
    fn replay(
        &mut self,
        table: &Table,
        program: &Program,
        explored: &Explored,
        questions: &Questions,
        [all, ends]: &[BTreeSet<Vec<u8>>; 2],
        rounds: &BTreeSet<BTreeSet<Vec<u8>>>,
    ) {
        let facts = Collector {
            table,
            program,
            explored,
            questions,
            limits: Limits::memory(100_000_000),
            most_ends: usize::MAX,
        }
        .collect()
        .unwrap();
        let is_so = |question: &Question, situation: &Vec<u8>| {
            let (counts, codes) = explored.model.split(situation);
            question.holds(Glance::of_codes(counts, codes, usize::MAX))
        };
        for answer in &facts.answers {
            let holds = match answer.asked {
                Asked::Never => !all.iter().any(|it| is_so(&questions.never[0], it)),
                Asked::Ends => {
                    let mut last = ends.iter().chain(rounds.iter().flatten());
                    last.all(|it| is_so(&questions.ends[0], it))
                }
                Asked::Possible | Asked::Leads => unreachable!("not asked"),
            };
            match &answer.verdict {
                Verdict::Holds => assert!(holds),
                Verdict::Broken(witness, _) => {
                    assert!(!holds);
                    self.broken += 1;
                    runs(table, witness);
                }
                Verdict::Open => panic!("all is known"),
            }
        }
        let of_ends: usize = facts.ends.iter().map(|end| end.situations).sum();
        assert_eq!(of_ends, ends.len());
        for end in &facts.ends {
            runs(table, &end.witness);
            self.ends += 1;
        }
        self.last_rounds(table, explored, &facts, rounds);
        if let ForEver::Yes(witness, before) = &facts.for_ever {
            comes_round(table, witness, *before);
            self.rounds += 1;
        }
        for witness in facts.full_hall.iter().chain(&facts.full_tray) {
            runs(table, witness);
        }
    }

    /// Each told round is entered by its way, which is a shortest one: it leads
    /// to a situation of a round with these trays.
    fn last_rounds(
        &mut self,
        table: &Table,
        explored: &Explored,
        facts: &Facts,
        rounds: &BTreeSet<BTreeSet<Vec<u8>>>,
    ) {
        let model = Model::of(table);
        let told = facts.rounds.as_ref().unwrap();
        assert_eq!(told.is_empty(), rounds.is_empty());
        if explored.exact != Exact::WithNotes {
            self.sorts_of_rounds(explored, told, rounds);
        }
        for round in told {
            let hall = runs(table, &round.witness);
            let situation = model.situation(&counts(&hall), &stations(&hall).unwrap());
            let entered = rounds
                .iter()
                .filter(|set| set.contains(situation.as_ref().unwrap()));
            let entered: Vec<_> = entered.collect();
            // Notes are steps too, and no situation of the set is nearer.
            let store = &explored.found.store;
            let steps = |it: &Vec<u8>| store.find(it).map(|at| store.way_to(at).len() - 1);
            for set in entered
                .iter()
                .filter(|_| explored.exact != Exact::WithNotes)
            {
                let nearest = set.iter().filter_map(steps).min();
                assert_eq!(nearest, Some(round.witness.steps));
            }
            let sizes: Vec<u64> = entered.iter().map(|set| set.len() as u64).collect();
            assert!(sizes.contains(&round.situations), "{sizes:?}");
            assert!(!round.who.go_on.is_empty());
            self.last_rounds += 1;
            self.stuck_beside += usize::from(!round.who.never_again.is_empty());
        }
    }

    /// Rounds in which trays have the same are told once: the nearest of them, and
    /// how many there are; of all sorts the nearest first.
    fn sorts_of_rounds(
        &mut self,
        explored: &Explored,
        told: &[LastRound],
        rounds: &BTreeSet<BTreeSet<Vec<u8>>>,
    ) {
        let store = &explored.found.store;
        let steps = |it: &Vec<u8>| store.way_to(store.find(it).unwrap()).len() - 1;
        let trays = explored.model.trays().len();
        let mut sorts: BTreeMap<Vec<(u8, u8)>, Vec<usize>> = BTreeMap::new();
        for set in rounds {
            let extremes = (0..trays).map(|slot| {
                let counts = || set.iter().map(|it| it[slot]);
                (counts().min().unwrap(), counts().max().unwrap())
            });
            let nearest = set.iter().map(steps).min().unwrap();
            sorts.entry(extremes.collect()).or_default().push(nearest);
        }
        assert_eq!(told.len(), sorts.len());
        for round in told {
            let of_sort = &sorts[&round.extremes];
            assert_eq!(round.rounds, of_sort.len());
            assert_eq!(Some(&round.witness.steps), of_sort.iter().min());
            self.unlike_rounds += usize::from(of_sort.iter().min() != of_sort.iter().max());
        }
        let distances: Vec<usize> = told.iter().map(|round| round.witness.steps).collect();
        assert!(
            distances.windows(2).all(|pair| pair[0] <= pair[1]),
            "{distances:?}"
        );
        self.unlike_sorts += usize::from(distances.first() != distances.last());
    }

    fn compare(&mut self, bytes: &[u8], what: &str) {
        let table = Table::read(bytes).unwrap();
        let Some(engine) = by_engine(&table) else {
            self.passed_over += 1;
            return;
        };
        let program = Program::of_table(&table);
        let questions = questions(&table, &program, &mut Random::new(bytes.len() as u64));
        let explored = by_steps(&table, &questions);
        assert!(explored.complete(), "{what}: {bytes:?}");
        let sets = sets(&explored);
        assert_eq!(sets, engine_sets(&engine), "{what}: {bytes:?}");
        assert_eq!(explored.found.situations, sets[0].len() as u64, "{what}");
        let rounds = engine_rounds(&engine);
        let with_notes = explored.exact == Exact::WithNotes;
        assert_eq!(round_sets(&table, with_notes), rounds, "{what}: {bytes:?}");
        self.replay(&table, &program, &explored, &questions, &sets, &rounds);
        self.halls += 1;
        self.kept_as_numbers += usize::from(explored.found.store.are_numbers());
        self.full_hall += usize::from(engine.full_hall);
        self.full_tray += usize::from(engine.full_tray);
        match explored.exact {
            Exact::WithNotes => {
                self.with_notes += 1;
                let noted = |end: &&u32| {
                    !explored
                        .model
                        .without_notes(&explored.found.store.get(**end))
                };
                self.stuck += explored.found.ends.iter().filter(noted).count();
                self.notes_mattered += usize::from(without_notes(&table) != sets);
            }
            Exact::NoAlternatives => self.without_alternatives += 1,
            _ => {}
        }
    }
}

#[test]
fn contended_halls() {
    let mut met = Met::default();
    for seed in 0..1_500 {
        let table = contended_table(&mut Random::new(seed));
        met.compare(&table, &format!("contended {seed}"));
    }
    assert!(met.halls > 350 && met.full_tray > 5, "{met:?}");
}

#[test]
fn any_small_halls() {
    let mut met = Met::default();
    for seed in 0..2_000 {
        let mut random = Random::new(seed);
        let shape = Shape::small(&mut random);
        let table = accepted_table(&mut random, shape);
        met.compare(&table, &format!("any {seed}"));
    }
    assert!(met.halls > 1_200 && met.full_tray > 10, "{met:?}");
    let as_they_are = met.halls - met.kept_as_numbers;
    assert!(met.kept_as_numbers > 500 && as_they_are > 20, "{met:?}");
    assert!(
        met.broken > 500 && met.ends > 1_000 && met.rounds > 20,
        "{met:?}"
    );
}

#[test]
fn halls_near_the_limits() {
    let mut met = Met::default();
    for seed in 0..450 {
        let table = near_the_limits(&mut Random::new(seed));
        met.compare(&table, &format!("near the limits {seed}"));
    }
    assert!(met.halls > 200 && met.full_tray > 20, "{met:?}");
    assert!(
        met.with_notes > 20 && met.without_alternatives > 10,
        "{met:?}"
    );
}

#[test]
fn halls_where_notes_matter() {
    let mut met = Met::default();
    for seed in 0..300 {
        let table = tight(&mut Random::new(seed));
        met.compare(&table, &format!("tight {seed}"));
    }
    assert!(met.with_notes > 50 && met.notes_mattered > 10, "{met:?}");
}

#[test]
fn halls_with_stuck_attempts() {
    let mut met = Met::default();
    for seed in 0..400 {
        let table = stuck(&mut Random::new(seed));
        met.compare(&table, &format!("stuck {seed}"));
    }
    assert!(met.halls > 200 && met.stuck > 50, "{met:?}");
    assert!(met.stuck_beside > 50, "{met:?}");
}

#[test]
fn halls_that_go_round() {
    let mut met = Met::default();
    for seed in 0..1_500 {
        let table = going_round(&mut Random::new(seed));
        met.compare(&table, &format!("round {seed}"));
    }
    assert!(met.halls > 500 && met.last_rounds > 200, "{met:?}");
    assert!(met.stuck_beside > 50, "{met:?}");
    assert!(met.unlike_rounds > 0 && met.unlike_sorts > 10, "{met:?}");
}

/// All situations lead back to the opening, but for one in which an attempt is
/// stuck: then there is no round that is never left.
#[test]
fn all_go_round_but_a_stuck_attempt() {
    let text = "tray turn has 1\ntray a has 1\ntray idle\n\
        rule desk is repeatedly take turn then block (\n\
        take a, put turn, put a, end or else put turn, put a, put a, end)\n\
        start desk beside 61 of (take idle then nothing)\n";
    let table = understand(&Source::new("", text)).unwrap().table;
    assert!(round_sets(&table, true).is_empty());
    assert_eq!(round_sets(&table, false).len(), 1);
    let mut met = Met::default();
    met.compare(table.bytes(), "a stuck attempt");
    assert_eq!(
        (met.halls, met.stuck, met.last_rounds),
        (1, 1, 0),
        "{met:?}"
    );
}
