//! A second way to every answer: small halls gone through by the words of their
//! text, stations told apart by what they say, and all that is asked looked up in
//! the whole graph.
//!
//! Nothing of the exploration is used: no codes, no packed situations, no bottom
//! components. What is never left is found by closure, fair runs by trying every
//! set of those that act for ever.

use std::cmp::Ordering;
use std::collections::{BTreeMap, BTreeSet};

use workbench::text::tree::{PartId, PartKind, Program};

/// More situations are not gone through.
const MOST: usize = 64;

/// A station: what it says in full, and what it waits to do. Two that say the same
/// are one.
#[derive(Clone, Debug)]
pub(crate) struct Station {
    phrase: String,
    pub(crate) does: Does,
}

impl PartialEq for Station {
    fn eq(&self, other: &Station) -> bool {
        self.phrase == other.phrase
    }
}

impl Eq for Station {}

impl PartialOrd for Station {
    fn partial_cmp(&self, other: &Station) -> Option<Ordering> {
        Some(self.cmp(other))
    }
}

impl Ord for Station {
    fn cmp(&self, other: &Station) -> Ordering {
        self.phrase.cmp(&other.phrase)
    }
}

/// The rule that a station is called after, and whether it has kept the name from
/// an earlier take.
pub(crate) type Called = (Option<String>, bool);

/// What a station waits to do.
#[derive(Clone, Copy, Debug)]
pub(crate) enum Does {
    Put(u8),
    Take(u8, PartId),
    Repeatedly(u8, PartId),
    Block(PartId),
}

/// What the trays have, and who stands there, sorted.
#[derive(Clone, Debug, PartialEq, Eq, PartialOrd, Ord)]
pub(crate) struct Situation {
    pub(crate) counts: [u8; 16],
    pub(crate) stations: Vec<Station>,
}

/// A way of a block: what it takes of each tray, and what it puts.
type Way = ([u8; 16], Vec<u8>);

/// All situations of a hall, in the order of their distance, and the steps.
#[derive(Debug)]
pub(crate) struct Graph<'a> {
    program: &'a Program,
    pub(crate) situations: Vec<Situation>,
    pub(crate) depths: Vec<usize>,
    /// Who acts, and where it leads.
    pub(crate) steps: Vec<Vec<(Station, usize)>>,
    /// Whether the limit of 64 stations forbade a step.
    pub(crate) full: bool,
    /// All that the stations are called.
    called: BTreeMap<Station, BTreeSet<Called>>,
}

impl<'a> Graph<'a> {
    /// None where it is too large.
    pub(crate) fn of(program: &'a Program) -> Option<Graph<'a>> {
        let opening = opened(program, program.start);
        let mut stations: Vec<Station> = opening.iter().map(|(it, _)| it.clone()).collect();
        stations.sort();
        let first = Situation {
            counts: program.counts(),
            stations,
        };
        let mut graph = Graph {
            program,
            situations: vec![first.clone()],
            depths: vec![0],
            steps: Vec::new(),
            full: false,
            called: BTreeMap::new(),
        };
        let mut numbers = BTreeMap::from([(first, 0)]);
        while graph.steps.len() < graph.situations.len() {
            let at = graph.steps.len();
            let mut steps = Vec::new();
            for (station, next) in graph.next(at) {
                let number = *numbers.entry(next.clone()).or_insert_with(|| {
                    graph.situations.push(next);
                    graph.depths.push(graph.depths[at] + 1);
                    graph.situations.len() - 1
                });
                steps.push((station, number));
            }
            graph.steps.push(steps);
            if graph.situations.len() > MOST {
                return None;
            }
        }
        graph.call(opening);
        Some(graph)
    }

    /// What the stations are called, from those at the opening on: whoever acts
    /// hands names on to what it opens.
    fn call(&mut self, opening: Vec<(Station, Option<String>)>) {
        let mut to_call: Vec<(Station, Called)> = opening
            .into_iter()
            .map(|(station, name)| (station, (name, false)))
            .collect();
        let acting: BTreeSet<Station> =
            self.steps.iter().flatten().map(|it| it.0.clone()).collect();
        while let Some((station, called)) = to_call.pop() {
            let known = self.called.entry(station.clone()).or_default();
            if !known.insert(called.clone()) || !acting.contains(&station) {
                continue;
            }
            let (then, stays) = match station.does {
                Does::Put(_) => continue,
                Does::Take(_, then) => (then, false),
                Does::Repeatedly(_, then) => (then, true),
                Does::Block(body) => {
                    for (_, puts) in ways(self.program, body).into_iter().flatten() {
                        to_call.extend(puts.into_iter().map(|it| (put(it), (None, false))));
                    }
                    continue;
                }
            };
            let opened = opened(self.program, then);
            let alone = opened.len() == 1 && !stays;
            for (station, name) in opened {
                let keeps = alone && name.is_none() && called.0.is_some();
                let name = if keeps { called.0.clone() } else { name };
                to_call.push((station, (name, keeps)));
            }
        }
    }

    /// All that a station is called.
    pub(crate) fn called(&self, station: &Station) -> impl Iterator<Item = &Called> {
        self.called.get(station).into_iter().flatten()
    }

    fn next(&mut self, at: usize) -> Vec<(Station, Situation)> {
        let now = self.situations[at].clone();
        let mut all = Vec::new();
        let stations: BTreeSet<&Station> = now.stations.iter().collect();
        for station in stations {
            let Some((takes, opens)) = self.act(&now, station) else {
                continue;
            };
            let mut next = now.clone();
            for (count, taken) in next.counts.iter_mut().zip(takes) {
                *count -= taken;
            }
            if let Does::Put(tray) = station.does {
                let count = &mut next.counts[usize::from(tray)];
                if *count == 255 {
                    continue;
                }
                *count += 1;
            }
            let gone = next.stations.iter().position(|it| it == station);
            next.stations.remove(gone.unwrap());
            next.stations.extend(opens);
            next.stations.sort();
            if next.stations.len() > 64 {
                self.full = true;
                continue;
            }
            all.push((station.clone(), next));
        }
        all
    }

    /// What a station takes and opens, itself where it stays.
    fn act(&self, now: &Situation, station: &Station) -> Option<([u8; 16], Vec<Station>)> {
        let there = |takes: &[u8; 16]| now.counts.iter().zip(takes).all(|(it, need)| it >= need);
        match station.does {
            Does::Put(_) => Some(([0; 16], Vec::new())),
            Does::Take(tray, then) | Does::Repeatedly(tray, then) => {
                let mut takes = [0; 16];
                takes[usize::from(tray)] = 1;
                let stays = matches!(station.does, Does::Repeatedly(..));
                let opens = opened(self.program, then).into_iter();
                let mut opens: Vec<Station> = opens.map(|(it, _)| it).collect();
                if stays {
                    opens.push(station.clone());
                }
                there(&takes).then_some((takes, opens))
            }
            Does::Block(_) => {
                let (takes, puts) = self.first_way(now, station)?;
                Some((takes, puts.into_iter().map(put).collect()))
            }
        }
    }

    /// The first way of a block that can be gone.
    pub(crate) fn first_way(&self, now: &Situation, station: &Station) -> Option<Way> {
        let Does::Block(body) = station.does else {
            return None;
        };
        let ways = ways(self.program, body).into_iter().flatten();
        let mut ways = ways.filter(|(takes, _)| {
            let mut both = now.counts.iter().zip(takes);
            both.all(|(count, need)| count >= need)
        });
        ways.next()
    }

    /// Whether another one can take, in one step, what a block has found.
    pub(crate) fn can_be_robbed(&self, at: usize, station: &Station) -> bool {
        let now = &self.situations[at];
        let Some((needs, _)) = self.first_way(now, station) else {
            return false;
        };
        let alike = now.stations.iter().filter(|it| *it == station).count();
        self.steps[at].iter().any(|(other, next)| {
            let left = &self.situations[*next].counts;
            let short = left.iter().zip(needs).any(|(count, need)| *count < need);
            short && (other != station || alike > 1)
        })
    }

    /// For each situation all that it reaches, itself among them; a bit for each.
    pub(crate) fn reach(&self) -> Vec<u128> {
        let edges = self.steps.iter();
        let edges = edges.map(|steps| steps.iter().map(|(_, to)| *to).collect());
        closure(&edges.collect::<Vec<Vec<usize>>>())
    }

    /// The situations of ends and of rounds that are never left: a list for each.
    pub(crate) fn last_sets(&self) -> Vec<Vec<usize>> {
        let reach = self.reach();
        let mut sets = BTreeSet::new();
        for (at, reached) in reach.iter().enumerate() {
            let members: Vec<usize> = bits(*reached);
            if members.iter().all(|other| reach[*other] >> at & 1 == 1) {
                sets.insert(members);
            }
        }
        sets.into_iter().collect()
    }

    /// The least number of steps to a situation in which a run can be that has
    /// begun and never meets its goal, neither in a situation nor by a step, and
    /// that ends there or is within a fair round.
    pub(crate) fn breaks(
        &self,
        begins: impl Fn(usize) -> bool,
        goal: impl Fn(usize) -> bool,
        met_by: impl Fn(usize, &Station) -> bool,
    ) -> Option<usize> {
        let free = |at: usize| !goal(at);
        let edges: Vec<Vec<(&Station, usize)>> = (0..self.situations.len())
            .map(|at| {
                let steps = self.steps[at].iter();
                let steps = steps.filter(|(who, to)| free(at) && free(*to) && !met_by(at, who));
                steps.map(|(who, to)| (who, *to)).collect()
            })
            .collect();
        let bad = self.bad_ends(&edges, &free);
        // The distance is that to the beginning, then by steps without the goal.
        let mut distance: Vec<Option<usize>> = (0..edges.len())
            .map(|at| (begins(at) && free(at)).then_some(self.depths[at]))
            .collect();
        for _ in 0..edges.len() {
            for at in 0..edges.len() {
                for (_, to) in &edges[at] {
                    if let Some(through) = distance[at].map(|it| it + 1) {
                        if distance[*to].map_or(true, |known| through < known) {
                            distance[*to] = Some(through);
                        }
                    }
                }
            }
        }
        bad.into_iter().filter_map(|at| distance[at]).min()
    }

    fn bad_ends(
        &self,
        edges: &[Vec<(&Station, usize)>],
        free: &impl Fn(usize) -> bool,
    ) -> BTreeSet<usize> {
        let all = 0..edges.len();
        let mut bad: BTreeSet<usize> = all
            .filter(|at| free(*at) && self.steps[*at].is_empty())
            .collect();
        let actors: BTreeSet<&Station> = self.steps.iter().flatten().map(|(who, _)| who).collect();
        let actors: Vec<&Station> = actors.into_iter().collect();
        assert!(actors.len() <= 12, "too many for every set of them");
        for set in 1..1_u32 << actors.len() {
            let inside = |who: &Station| {
                let at = actors.iter().position(|it| *it == who).unwrap();
                set >> at & 1 == 1
            };
            let allowed = |at: usize| free(at) && self.steps[at].iter().all(|(who, _)| inside(who));
            let kept: Vec<Vec<usize>> = (0..edges.len())
                .map(|at| {
                    let steps = edges[at].iter().filter(|_| allowed(at));
                    steps.map(|(_, to)| *to).filter(|to| allowed(*to)).collect()
                })
                .collect();
            let reach = closure(&kept);
            for at in 0..edges.len() {
                let round = bits(reach[at]);
                let round: Vec<usize> = round
                    .into_iter()
                    .filter(|it| reach[*it] >> at & 1 == 1)
                    .collect();
                let acting: BTreeSet<&Station> = round
                    .iter()
                    .flat_map(|from| edges[*from].iter())
                    .filter(|(_, to)| round.contains(to))
                    .map(|(who, _)| *who)
                    .collect();
                let wanted = actors.iter().filter(|who| inside(who)).count();
                if allowed(at) && acting.len() == wanted && acting.iter().all(|who| inside(who)) {
                    bad.insert(at);
                }
            }
        }
        bad
    }
}

/// Which members each one reaches, itself among them.
fn closure(edges: &[Vec<usize>]) -> Vec<u128> {
    let mut reach: Vec<u128> = (0..edges.len()).map(|at| 1 << at).collect();
    loop {
        let before = reach.clone();
        for (at, to) in edges.iter().enumerate() {
            for to in to {
                reach[at] |= reach[*to];
            }
        }
        if reach == before {
            return reach;
        }
    }
}

fn bits(set: u128) -> Vec<usize> {
    (0..128).filter(|at| set >> at & 1 == 1).collect()
}

fn put(tray: u8) -> Station {
    Station {
        phrase: format!("put {tray}"),
        does: Does::Put(tray),
    }
}

/// What a part says, with no name in it. Sides are grouped as a table has them.
fn phrase(program: &Program, part: PartId) -> String {
    let of = |part: PartId| phrase(program, part);
    match program.part(part).kind {
        PartKind::Named(index) => of(program.definitions[index].body),
        PartKind::Put(tray) => format!("put {tray}"),
        PartKind::Take(tray, then) => format!("take {tray} then {}", of(then)),
        PartKind::Repeatedly(tray, then) => format!("repeatedly {tray} then {}", of(then)),
        PartKind::Beside(left, right) => format!("({} beside {})", of(left), of(right)),
        PartKind::Copies(number, one) => copies(&of(one), number),
        PartKind::Block(body) => format!("block {}", of(body)),
        PartKind::NoteTake(tray, rest) => format!("take {tray}, {}", of(rest)),
        PartKind::NotePut(tray, rest) => format!("put {tray}, {}", of(rest)),
        PartKind::OrElse(first, other) => format!("({} or else {})", of(first), of(other)),
        PartKind::Nothing => "nothing".to_owned(),
        PartKind::End => "end".to_owned(),
        PartKind::Retry => "retry".to_owned(),
    }
}

fn copies(one: &str, number: u8) -> String {
    if number == 1 {
        return one.to_owned();
    }
    let right = number / 2;
    let left = copies(one, number - right);
    format!("({left} beside {})", copies(one, right))
}

/// The stations of a part, each with the innermost rule around it.
fn opened(program: &Program, part: PartId) -> Vec<(Station, Option<String>)> {
    let mut stations = Vec::new();
    open_into(program, part, None, &mut stations);
    stations
}

fn open_into(
    program: &Program,
    part: PartId,
    rule: Option<&str>,
    all: &mut Vec<(Station, Option<String>)>,
) {
    let does = match program.part(part).kind {
        PartKind::Named(index) => {
            let definition = &program.definitions[index];
            return open_into(program, definition.body, Some(&definition.name), all);
        }
        PartKind::Beside(left, right) => {
            open_into(program, left, rule, all);
            return open_into(program, right, rule, all);
        }
        PartKind::Copies(number, of) => {
            for _ in 0..number {
                open_into(program, of, rule, all);
            }
            return;
        }
        PartKind::Put(tray) => Does::Put(tray),
        PartKind::Take(tray, then) => Does::Take(tray, then),
        PartKind::Repeatedly(tray, then) => Does::Repeatedly(tray, then),
        PartKind::Block(body) => Does::Block(body),
        _ => return,
    };
    let station = Station {
        phrase: phrase(program, part),
        does,
    };
    all.push((station, rule.map(str::to_owned)));
}

/// The ways of a block, the first one first; none in the place of one that gives
/// up by itself.
fn ways(program: &Program, part: PartId) -> Vec<Option<Way>> {
    let kind = program.part(part).kind;
    match kind {
        PartKind::Named(index) => ways(program, program.definitions[index].body),
        PartKind::End => vec![Some(([0; 16], Vec::new()))],
        PartKind::OrElse(first, other) => {
            let mut all = ways(program, first);
            all.extend(ways(program, other));
            all
        }
        PartKind::NoteTake(tray, rest) | PartKind::NotePut(tray, rest) => {
            let mut all = ways(program, rest);
            for (takes, puts) in all.iter_mut().flatten() {
                if matches!(kind, PartKind::NoteTake(..)) {
                    takes[usize::from(tray)] += 1;
                } else {
                    puts.push(tray);
                }
            }
            all
        }
        _ => vec![None],
    }
}
