//! Every sort of question against a brute force, on random halls: holding and
//! broken, and broken by a shortest way.

use std::collections::HashSet;

use reference::generator::{accepted_table, contended_table, Random, Shape};
use ruonfidd::{Choice, Hall, Tally};
use workbench::explore::facts::{Answer, Asked, Collector, Verdict};
use workbench::explore::investigate::{investigate, Exact, Explored};
use workbench::explore::model::Model;
use workbench::explore::question::Binder;
use workbench::explore::replay::{Line, Witness};
use workbench::explore::search::{Limits, Questions};
use workbench::show::{readable, Labels};
use workbench::stations::{counts, stations};
use workbench::table::Table;
use workbench::text::asking::{self, Mistake};
use workbench::text::source::Source;
use workbench::text::tree::Program;
use workbench::text::{understand, Understood};

use crate::asked::{Asker, Condition, Moment};
use crate::brute::Graph;
use crate::halls::going_round;

/// How often what was met.
#[derive(Debug, Default)]
struct Met {
    halls: usize,
    not_told_apart: usize,
    never_stands: usize,
    /// For each sort of question those that hold, and those that are broken.
    answers: [[usize; 2]; 4],
    rounds: usize,
}

/// A text of a few rules, some of them with several stations of one name.
fn random_text(random: &mut Random) -> String {
    let tray = |random: &mut Random| ["a", "b", "c"][random.below(3)];
    let mut text = String::new();
    for name in ["a", "b", "c"] {
        let has = ["", " has 1", " has 2"][random.below(3)];
        text.push_str(&format!("tray {name}{has}\n"));
    }
    let rules = random.between(2, 3);
    for rule in 0..rules {
        let mut body = match random.below(4) {
            0 => format!("put {}", tray(random)),
            1 => format!("(put {} beside put {})", tray(random), tray(random)),
            _ => {
                let first = format!("take {}, put {}, end", tray(random), tray(random));
                let other = ["retry", "put c, end", "take b, take a, put b, end"][random.below(3)];
                match random.below(2) {
                    0 => format!("block ({first})"),
                    _ => format!("block ({first} or else {other})"),
                }
            }
        };
        if random.percent(40) {
            body = format!("take {} then {body}", tray(random));
        }
        if random.percent(60) {
            let again = ["", "repeatedly "][random.below(2)];
            body = format!("{again}take {} then {body}", tray(random));
        }
        text.push_str(&format!("rule r{rule} is {body}\n"));
    }
    let mut all: Vec<String> = (0..rules)
        .map(|rule| match random.below(4) {
            0 => format!("2 of r{rule}"),
            _ => format!("r{rule}"),
        })
        .collect();
    if random.percent(50) {
        // What goes round by itself, or takes turns with another.
        let [there, back] = [tray(random), tray(random)];
        text.push_str(&format!(
            "rule there is repeatedly take {there} then put {back}\n"
        ));
        text.push_str(&format!(
            "rule back is repeatedly take {back} then put {there}\n"
        ));
        all.push("there beside back".to_owned());
    }
    text + &format!("start {}\n", all.join(" beside "))
}

/// The text of a random table.
fn text_of_table(random: &mut Random) -> String {
    let bytes = match random.below(3) {
        0 => contended_table(random),
        1 => going_round(random),
        _ => {
            let shape = Shape::small(random);
            accepted_table(random, shape)
        }
    };
    readable(&Table::read(&bytes).unwrap(), &Labels::default())
}

/// What is asked: in words, and as it is looked up.
struct Ask {
    asked: Asked,
    condition: Condition,
    goal: Option<Condition>,
}

impl Ask {
    fn random(program: &Program, random: &mut Random) -> Ask {
        let sorts = [Asked::Never, Asked::Ends, Asked::Possible, Asked::Leads];
        let asked = random.pick(&sorts).unwrap();
        let mut asking = Asker {
            program,
            random,
            events: asked != Asked::Leads,
        };
        let condition = asking.condition(2);
        let goal = (asked == Asked::Leads).then(|| asking.condition(1));
        Ask {
            asked,
            condition,
            goal,
        }
    }

    fn words(&self, program: &Program) -> String {
        let condition = self.condition.words(program);
        match (&self.asked, &self.goal) {
            (Asked::Never, _) => format!("never {condition}"),
            (Asked::Ends, _) => format!("at every end {condition}"),
            (Asked::Possible, _) => format!("always possible {condition}"),
            (_, goal) => format!(
                "{condition} leads to {}",
                goal.as_ref().unwrap().words(program)
            ),
        }
    }

    /// The least number of steps to where it is broken.
    fn broken(&self, graph: &Graph<'_>) -> Option<usize> {
        let so = |at: usize| self.condition.is_so(graph, at, Moment::Next);
        let all = 0..graph.situations.len();
        let broken: Vec<usize> = match self.asked {
            Asked::Never => all.filter(|at| so(*at)).collect(),
            Asked::Ends => {
                let last = graph.last_sets().into_iter().flatten();
                last.filter(|at| !so(*at)).collect()
            }
            Asked::Possible => {
                let good = all.clone().filter(|at| so(*at));
                let good = good.fold(0, |good, at| good | 1_u128 << at);
                let reach = graph.reach();
                all.filter(|at| reach[*at] & good == 0).collect()
            }
            Asked::Leads => {
                let goal = self.goal.as_ref().unwrap();
                let still = |at: usize| goal.is_so(graph, at, Moment::Still);
                return graph.breaks(so, still, |at, who| {
                    goal.is_so(graph, at, Moment::Step(who))
                });
            }
        };
        broken.into_iter().map(|at| graph.depths[at]).min()
    }

    fn sort(&self) -> usize {
        match self.asked {
            Asked::Never => 0,
            Asked::Ends => 1,
            Asked::Possible => 2,
            Asked::Leads => 3,
        }
    }
}

/// Asks one question, and gives the answer with what it rests on.
fn answer(text: &Understood, words: &str) -> Result<(Answer, Explored), Mistake> {
    let Understood { table, program, .. } = text;
    let binder = Binder::new(table, program);
    let mut questions = Questions::default();
    questions.add(binder.bind(&asking::read(words, program)?)?);
    let limits = Limits::memory(100_000_000);
    let explored = investigate(table, &questions, limits, &mut |_, _| {});
    let mut answers = Collector {
        table,
        program,
        explored: &explored,
        questions: &questions,
        limits,
        most_ends: 0,
    }
    .answers()
    .unwrap();
    assert_eq!(answers.len(), 1);
    Ok((answers.remove(0), explored))
}

/// The situation behind some choices of a way, each made on the engine.
fn situation(table: &Table, lines: &[Line]) -> Option<Vec<u8>> {
    let (mut hall, mut tally) = Hall::open(table.bytes()).unwrap();
    for line in lines {
        hall.step(table.bytes(), line.choice, &mut tally).unwrap();
    }
    Model::of(table).situation(&counts(&hall), &stations(&hall).unwrap())
}

/// A round comes back to where it was entered.
fn comes_round(table: &Table, witness: &Witness, before: usize) {
    assert!(before < witness.lines.len());
    let entered = situation(table, &witness.lines[..before]);
    assert_eq!(entered, situation(table, &witness.lines));
}

impl Met {
    fn compare(&mut self, text: &str, random: &mut Random) {
        let understood = understand(&Source::new("", text)).unwrap();
        let program = &understood.program;
        let Some(graph) = Graph::of(program).filter(|graph| !graph.full) else {
            return;
        };
        if program.trays.is_empty() {
            return;
        }
        self.halls += 1;
        for _ in 0..6 {
            let ask = Ask::random(program, random);
            let words = ask.words(program);
            self.answer(&understood, &graph, &ask, &words, text);
        }
    }

    fn answer(
        &mut self,
        text: &Understood,
        graph: &Graph<'_>,
        ask: &Ask,
        words: &str,
        shown: &str,
    ) {
        let (answer, explored) = match answer(text, words) {
            Ok(answered) => answered,
            Err(mistake) if mistake.message.contains("not told apart") => {
                self.not_told_apart += 1;
                return;
            }
            Err(mistake) => {
                let known = ["no station can ever stand so", "no block is called so"];
                let known = known.iter().any(|it| mistake.message.contains(it));
                assert!(known, "{words}\n{mistake}\n{shown}");
                self.never_stands += 1;
                return;
            }
        };
        let broken = ask.broken(graph);
        self.answers[ask.sort()][usize::from(broken.is_some())] += 1;
        let what = || format!("{words}\n{shown}\n{answer:?}");
        assert_eq!(answer.asked, ask.asked);
        match (&answer.verdict, broken) {
            (Verdict::Holds, None) => {}
            (Verdict::Broken(witness, _), Some(steps)) => {
                if let Some(again) = answer.again {
                    comes_round(&text.table, witness, again.before);
                    assert_eq!(witness.steps - again.steps, steps, "{}", what());
                    let led = explored.leads[0].as_ref().unwrap();
                    let lasso = led.broken.as_ref().unwrap();
                    let begun = explored.found.store.way_to(lasso.begins).len() - 1;
                    assert_eq!(begun + lasso.way.len(), steps, "{}", what());
                    self.rounds += 1;
                } else {
                    assert_eq!(witness.steps, steps, "{}", what());
                }
            }
            _ => panic!("{broken:?}: {}", what()),
        }
    }
}

#[test]
fn answers_of_random_texts() {
    let mut met = Met::default();
    for seed in 0..1_500 {
        let mut random = Random::new(seed);
        let text = random_text(&mut random);
        met.compare(&text, &mut random);
    }
    assert!(met.halls > 600, "{met:?}");
    for [holds, broken] in met.answers {
        assert!(holds > 200 && broken > 150, "{met:?}");
    }
    assert!(met.rounds > 20 && met.not_told_apart > 50, "{met:?}");
}

#[test]
fn answers_of_random_tables() {
    let mut met = Met::default();
    for seed in 0..1_500 {
        let mut random = Random::new(seed);
        let text = text_of_table(&mut random);
        met.compare(&text, &mut random);
    }
    assert!(met.halls > 400, "{met:?}");
    for [holds, broken] in met.answers {
        assert!(holds > 100 && broken > 100, "{met:?}");
    }
    assert!(met.rounds > 10, "{met:?}");
}

/// Which of commits, failures and attempts given up the engine's own steps show,
/// in all halls there are; none where these are too many.
fn by_own_steps(table: &Table) -> Option<[bool; 3]> {
    let (hall, _) = Hall::open(table.bytes()).unwrap();
    let mut seen = HashSet::from([hall.clone()]);
    let mut halls = vec![hall];
    let mut shown = [false; 3];
    while let Some(hall) = halls.pop() {
        let standing = u8::try_from(stations(&hall).unwrap().len()).unwrap();
        let act = (0..standing).map(|position| Choice::Act { position });
        let inside = (0..standing).flat_map(|position| {
            // A block of eight ways, parted, has fifteen nodes.
            (0..15).map(move |node| Choice::Inside { position, node })
        });
        for choice in act.chain(inside) {
            let (mut next, mut tally) = (hall.clone(), Tally::fresh());
            if next.step(table.bytes(), choice, &mut tally).is_err() {
                continue;
            }
            let happened = [tally.commits, tally.failed, tally.retries];
            for (shown, happened) in shown.iter_mut().zip(happened) {
                *shown |= happened > 0;
            }
            if seen.insert(next.clone()) {
                halls.push(next);
            }
        }
        if seen.len() > 400 {
            return None;
        }
    }
    Some(shown)
}

/// An event that is never so in a situation never happens on the engine, and one
/// that is so somewhere happens there.
#[test]
fn events_are_those_of_the_engine() {
    let mut met = [[0; 2]; 3];
    for seed in 0..1_000 {
        let mut random = Random::new(seed);
        let text = match random.below(2) {
            0 => random_text(&mut random),
            _ => text_of_table(&mut random),
        };
        let understood = understand(&Source::new("", &text)).unwrap();
        let Some(shown) = by_own_steps(&understood.table) else {
            continue;
        };
        let events = ["commits", "fails", "gives up"];
        for ((event, happens), met) in events.into_iter().zip(shown).zip(&mut met) {
            let broken = match answer(&understood, &format!("never block {event}")) {
                Ok((_, explored)) if explored.exact != Exact::NeverFull => continue,
                Ok((answer, _)) => matches!(answer.verdict, Verdict::Broken(..)),
                Err(mistake) => {
                    assert!(
                        mistake.message.contains("no block is called so"),
                        "{mistake}"
                    );
                    false
                }
            };
            assert_eq!(broken, happens, "{event}\n{text}");
            met[usize::from(broken)] += 1;
        }
    }
    assert!(met.iter().flatten().all(|times| *times > 40), "{met:?}");
}
