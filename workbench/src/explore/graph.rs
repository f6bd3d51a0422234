//! The graph of situations for programs: the nearest situations, and the steps
//! between them.

use crate::json::{list, string, Object};
use crate::text::tree::Program;

use super::investigate::Explored;
use super::labels::Labels;
use super::model::Kind;
use super::report::cut_words;
use super::search::{Cut, Limits};
use super::steps::{Deed, Step, Stepper, Tried};
use super::store::Index;

/// No graph has more situations.
pub const MOST_NODES: usize = 100_000;

/// So many situations are gone through between two looks at the limits, and so
/// many whatever the limits are.
const BETWEEN_LOOKS: usize = 256;

/// What about a situation and a step take until they are written.
const MEMORY_OF_NODE: usize = 600;
const MEMORY_OF_EDGE: usize = 250;

/// The nearest situations, and all steps between them.
#[derive(Clone, Debug)]
pub struct Graph<'a> {
    explored: &'a Explored,
    /// So many situations were wanted at most.
    limit: usize,
    /// The first ones, each with its place for a number.
    nodes: Vec<Node>,
    edges: Vec<Edge>,
    /// Why there are not as many as were wanted.
    cut: Option<Cut>,
}

#[derive(Clone, Copy, Debug)]
struct Node {
    /// How many steps lead on from it, out of the graph too.
    steps: usize,
    /// Whether nothing but opened attempts can follow.
    end: bool,
}

#[derive(Clone, Copy, Debug)]
struct Edge {
    from: Index,
    to: Index,
    step: Step,
}

impl<'a> Graph<'a> {
    /// The graph of so many situations at most, as far as the limits allow.
    #[must_use]
    pub fn of(explored: &'a Explored, limit: usize, limits: Limits) -> Graph<'a> {
        let mut graph = Graph {
            explored,
            limit,
            nodes: Vec::new(),
            edges: Vec::new(),
            cut: None,
        };
        let found = &explored.found;
        let mut stepper = Stepper::new(&explored.model);
        for index in found.store.indexes().take(limit) {
            if index > 0 && graph.nodes.len() % BETWEEN_LOOKS == 0 {
                graph.cut = limits.met(found.memory() + graph.memory());
                if graph.cut.is_some() {
                    break;
                }
            }
            graph.go_on(&mut stepper, index);
        }
        let nodes = graph.nodes.len();
        graph
            .edges
            .retain(|edge| usize::try_from(edge.to).is_ok_and(|to| to < nodes));
        graph
    }

    fn memory(&self) -> usize {
        MEMORY_OF_NODE * self.nodes.len() + MEMORY_OF_EDGE * self.edges.len()
    }

    /// Takes in a situation and its steps.
    fn go_on(&mut self, stepper: &mut Stepper<'_>, from: Index) {
        let store = &self.explored.found.store;
        let mut node = Node {
            steps: 0,
            end: true,
        };
        stepper.each(&store.get(from), |step, tried| {
            let Tried::To(next) = tried else { return };
            node.steps += 1;
            node.end &= matches!(step.deed, Deed::Note(_));
            let to = store.find(next);
            self.edges.extend(to.map(|to| Edge { from, to, step }));
        });
        self.nodes.push(node);
    }

    /// Whether every situation of the hall is in it.
    fn complete(&self) -> bool {
        self.explored.complete() && self.nodes.len() == self.explored.found.store.len()
    }

    /// The graph as an object.
    #[must_use]
    pub fn object(&self, program: &Program, labels: &Labels) -> String {
        let kinds = (0..=u8::MAX).zip(self.explored.model.kinds());
        let kinds = kinds.map(|(code, kind)| self.kind(program, labels, code, kind));
        let nodes = (0..).zip(&self.nodes);
        let nodes = nodes.map(|(index, node)| self.node(program, index, *node));
        let cut = self.cut.map(|cut| string(cut_words(cut)));
        Object::new()
            .count("limit", self.limit)
            .truth("complete", self.complete())
            .raw("cut_by", cut.unwrap_or_else(null))
            .raw("kinds", list(kinds))
            .raw("nodes", list(nodes))
            .raw(
                "edges",
                list(self.edges.iter().map(|edge| self.edge(*edge))),
            )
            .written()
    }

    /// A kind of station. Equal stations are of one kind, and so is a block
    /// whether it has an attempt or not; unless the attempt has noted a way.
    fn kind(&self, program: &Program, labels: &Labels, code: u8, kind: &Kind) -> String {
        let model = &self.explored.model;
        let noted = match kind {
            Kind::Noted { way, .. } => model.ways(code).get(*way).map(|way| way.number),
            _ => None,
        };
        let (does, slot, term) = match model.kind(model.without_note(code)) {
            Some(Kind::Put { slot }) => ("put", Some(*slot), None),
            Some(Kind::Take {
                slot, term, stays, ..
            }) => {
                let does = if *stays { "repeatedly take" } else { "take" };
                (does, Some(*slot), Some(*term))
            }
            Some(Kind::Block { term, .. }) => ("block", None, Some(*term)),
            _ => ("", None, None),
        };
        let tray = slot.and_then(|slot| model.trays().get(slot));
        let tray = tray.map(|tray| string(&program.tray_name(*tray)));
        Object::new()
            .string("station", labels.told(code))
            .string("does", does)
            .raw("tray", tray.unwrap_or_else(null))
            .raw("term", term.map_or_else(null, |term| term.to_string()))
            .raw("noted", noted.map_or_else(null, |way| way.to_string()))
            .written()
    }

    fn node(&self, program: &Program, index: Index, node: Node) -> String {
        let model = &self.explored.model;
        let situation = self.explored.found.store.get(index);
        let (counts, stations) = model.split(&situation);
        let trays = model.trays().iter().zip(counts);
        let trays = trays.fold(Object::new(), |trays, (tray, count)| {
            trays.number(&program.tray_name(*tray), *count)
        });
        Object::new()
            .raw("trays", trays.written())
            .raw("stations", list(stations.iter().map(u8::to_string)))
            .count("steps", node.steps)
            .truth("end", node.end)
            .written()
    }

    fn edge(&self, edge: Edge) -> String {
        let Edge { from, to, step } = edge;
        let (deed, way) = match step.deed {
            Deed::Put => ("puts", None),
            Deed::Take => ("takes", None),
            Deed::Repeat => ("repeats", None),
            Deed::Commit(way) => ("commits", Some(way)),
            Deed::Note(way) => ("opens", Some(way)),
            Deed::Drop => ("fails", None),
        };
        let ways = self.explored.model.ways(step.code);
        let way = way.and_then(|way| ways.get(way));
        Object::new()
            .number("from", from)
            .number("to", to)
            .number("kind", step.code)
            .string("word", deed)
            .raw("way", way.map_or_else(null, |way| way.number.to_string()))
            .written()
    }
}

fn null() -> String {
    "null".to_owned()
}
