//! Sets of a graph's members that are never left: its bottom components, found
//! without a list of its edges.
//!
//! All members can be reached from the first one, the opening. An end is a bottom
//! component of a single member; here are the others. From every member an end or
//! such a set can be reached, so it is enough to look where nothing known is
//! reached:
//!
//! 1. For each member one that it reaches is known. Followed from one to the next
//!    these lead to an end, to the opening, or into a circle: the **class** of all
//!    that lead into one circle has a **root** in it that they all reach. No edge
//!    is looked up for this.
//! 2. What reaches the opening is done with, as is what reaches an end: if there
//!    is an end or a set never left that the opening is not in, the opening
//!    reaches it too; if there is none, all members reach the opening and are one
//!    set.
//! 3. Of what is left, each root is gone on from. Roots that reach each other
//!    are taken together, one that reaches something done with is done with. One
//!    that reaches nothing else is never left: the members gone through.
//!
//! A graph that is not known to its end is asked in the same way: members that were
//! not gone on from are done with, since nobody knows what they reach. What is
//! found is never left whatever else there is. What each root was seen to reach is
//! kept for the next time, when more is known.

use std::collections::HashMap;

use super::rounds::Codes;
use super::search::{Cut, Limits};
use super::store::{Index, NOWHERE};

/// A graph whose edges are made when they are asked for.
pub(super) trait Graph {
    /// Gives all that these members lead to, and takes in who acts there.
    fn go_on(
        &mut self,
        from: impl Iterator<Item = Index>,
        acting: &mut Codes,
        reached: &mut Vec<Index>,
    );
}

/// What a walk may cost.
#[derive(Clone, Copy, Debug)]
pub(super) struct Allowance {
    /// Time and memory.
    pub(super) limits: Limits,
    /// So many members may be gone on from.
    pub(super) members: usize,
}

/// Shows every set of members that is never left and that nothing done with is
/// in, with its members in order and who acts there.
///
/// `reaches` has for each member one that it reaches, [`NOWHERE`] where none is
/// known. Any will do; the fewer circles these make, the less is left to be gone
/// through. Afterwards it has what is known then; a set that was shown is not
/// shown again. `done` has the members that are done with: ends, the opening, and
/// what was not gone on from.
///
/// # Errors
///
/// The limit that was met before all were found, where too many members would
/// have been gone on from that of time; or what `show` returns.
pub(super) fn never_left(
    graph: impl Graph,
    reaches: &mut [Index],
    done: Vec<bool>,
    allowance: Allowance,
    show: impl FnMut(&[Index], Codes) -> Result<(), Cut>,
) -> Result<(), Cut> {
    let mut classes = Classes { of: reaches, done };
    let known = classes.follow();
    Walk::new(graph, classes, known, allowance).each(show)
}

/// For each member that is not done with the root of its class, which has itself
/// there; for others something that they reach.
struct Classes<'a> {
    of: &'a mut [Index],
    done: Vec<bool>,
}

impl Classes<'_> {
    fn get(&self, index: Index) -> Index {
        self.of.get(place(index)).copied().unwrap_or(NOWHERE)
    }

    fn set(&mut self, index: Index, reached: Index) {
        if let Some(class) = self.of.get_mut(place(index)) {
            *class = reached;
        }
    }

    fn is_done(&self, index: Index) -> bool {
        self.done.get(place(index)).copied().unwrap_or(true)
    }

    /// A member is done with, since it reaches one that is.
    fn all_done(&mut self, index: Index, reached: Index) {
        self.set(index, reached);
        if let Some(done) = self.done.get_mut(place(index)) {
            *done = true;
        }
    }

    /// The root of a member's class, none where it is done with.
    fn root(&self, index: Index) -> Option<Index> {
        let root = self.get(index);
        let done = self.is_done(index) || self.is_done(root);
        (!done).then_some(root)
    }

    /// From one that each member reaches, to roots. Gives memory for a mark of each
    /// member.
    fn follow(&mut self) -> Vec<bool> {
        let mut known = self.done.clone();
        let mut way = Vec::new();
        for first in (0..).take(self.of.len()) {
            way.clear();
            let mut at = first;
            // What is on the way is known too, with the next one for a root: if
            // it is met again, that is a circle.
            while let Some(known @ false) = known.get_mut(place(at)) {
                *known = true;
                way.push(at);
                at = self.get(at);
            }
            if way.is_empty() {
                continue;
            }
            if self.is_done(at) {
                self.end_at(&way, at);
                continue;
            }
            let root = if way.contains(&at) { at } else { self.get(at) };
            for index in &way {
                self.set(*index, root);
            }
        }
        known.fill(false);
        known
    }

    /// A way that ends at something done with, or nowhere: then its last one is an
    /// end.
    fn end_at(&mut self, way: &[Index], at: Index) {
        let Some((last, before)) = way.split_last() else {
            return;
        };
        self.all_done(*last, at);
        let end = if at == NOWHERE { *last } else { at };
        for index in before {
            self.all_done(*index, end);
        }
    }
}

/// Roots that reach each other, as far as is known.
#[derive(Default)]
struct Component {
    roots: Vec<Index>,
    /// Members that are to be gone on from.
    queue: Vec<Index>,
    /// Members of the graph that were reached and not looked at.
    reached: Vec<Index>,
    /// Those that were gone on from, or are in the queue.
    members: Vec<Index>,
    acting: Codes,
}

impl Component {
    fn take_in(&mut self, other: Component) {
        self.roots.extend(other.roots);
        self.queue.extend(other.queue);
        self.reached.extend(other.reached);
        self.members.extend(other.members);
        self.acting.extend(other.acting);
    }

    fn memory(&self) -> usize {
        4 * (self.roots.len() + self.queue.len() + self.reached.len() + self.members.len())
    }
}

/// So many members are gone on from together.
const TOGETHER: usize = 64;

struct Walk<'a, G> {
    graph: G,
    classes: Classes<'a>,
    /// Which members of the graph are in some component.
    entered: Vec<bool>,
    /// Each reaches the next one.
    components: Vec<Component>,
    /// In which of them a root is.
    place_of: HashMap<Index, usize>,
    allowance: Allowance,
}

impl<'a, G: Graph> Walk<'a, G> {
    fn new(
        graph: G,
        classes: Classes<'a>,
        entered: Vec<bool>,
        allowance: Allowance,
    ) -> Walk<'a, G> {
        Walk {
            graph,
            classes,
            entered,
            components: Vec::new(),
            place_of: HashMap::new(),
            allowance,
        }
    }

    fn each(
        &mut self,
        mut show: impl FnMut(&[Index], Codes) -> Result<(), Cut>,
    ) -> Result<(), Cut> {
        for index in (0..).take(self.classes.of.len()) {
            if index % (1 << 16) == 0 {
                self.look_at_limits()?;
            }
            if self.classes.root(index) != Some(index) {
                continue;
            }
            self.begin(index);
            while let Some(last) = self.components.last_mut() {
                if let Some(reached) = last.reached.pop() {
                    self.look_at(reached);
                } else if last.queue.is_empty() {
                    let mut members = std::mem::take(&mut last.members);
                    members.sort_unstable();
                    let acting = last.acting;
                    self.all_end_in_the_last();
                    show(&members, acting)?;
                } else {
                    self.go_on()?;
                    self.look_at_limits()?;
                }
            }
        }
        Ok(())
    }

    fn look_at_limits(&self) -> Result<(), Cut> {
        let components: usize = self.components.iter().map(Component::memory).sum();
        let own = 2 * self.classes.of.len();
        match self.allowance.limits.met(own + components) {
            Some(cut) => Err(cut),
            None => Ok(()),
        }
    }

    /// A component of a root that is in none yet.
    fn begin(&mut self, root: Index) {
        self.place_of.insert(root, self.components.len());
        self.components.push(Component {
            roots: vec![root],
            ..Component::default()
        });
        self.enter(root);
    }

    /// Makes a member of the graph one of the last component.
    fn enter(&mut self, index: Index) {
        let Some(entered @ false) = self.entered.get_mut(place(index)) else {
            return;
        };
        *entered = true;
        if let Some(last) = self.components.last_mut() {
            last.queue.push(index);
            last.members.push(index);
        }
    }

    /// A member that the last component has reached.
    fn look_at(&mut self, index: Index) {
        let Some(root) = self.classes.root(index) else {
            return self.all_reach(index);
        };
        if let Some(place) = self.place_of.get(&root).copied() {
            self.join_from(place);
            self.enter(index);
            return;
        }
        // Whether it reaches this component has to be known first.
        if let Some(last) = self.components.last_mut() {
            last.reached.push(index);
        }
        self.begin(root);
    }

    /// The last component reaches this one again: those between are all one.
    fn join_from(&mut self, place: usize) {
        while self.components.len() > place + 1 {
            let Some(last) = self.components.pop() else {
                return;
            };
            let below = self.components.len() - 1;
            for root in &last.roots {
                self.place_of.insert(*root, below);
            }
            if let Some(component) = self.components.last_mut() {
                component.take_in(last);
            }
        }
    }

    /// The last component reaches what is done with, so all of them do.
    fn all_reach(&mut self, reached: Index) {
        for component in std::mem::take(&mut self.components) {
            for root in component.roots {
                self.classes.all_done(root, reached);
            }
        }
        self.place_of.clear();
    }

    /// The last component is never left. It is as good as an end, which all
    /// others reach.
    fn all_end_in_the_last(&mut self) {
        let Some(last) = self.components.pop() else {
            return;
        };
        for root in &last.roots {
            self.classes.all_done(*root, NOWHERE);
        }
        self.all_reach(last.roots.first().copied().unwrap_or(NOWHERE));
    }

    /// Goes on from some of the last component's queue.
    fn go_on(&mut self) -> Result<(), Cut> {
        let Some(last) = self.components.last_mut() else {
            return Ok(());
        };
        let Component {
            queue,
            reached,
            acting,
            ..
        } = last;
        let first = queue.len().saturating_sub(TOGETHER);
        let members = self.allowance.members.checked_sub(queue.len() - first);
        self.allowance.members = members.ok_or(Cut::Time)?;
        self.graph.go_on(queue.drain(first..), acting, reached);
        Ok(())
    }
}

fn place(index: Index) -> usize {
    usize::try_from(index).unwrap_or(usize::MAX)
}

#[cfg(test)]
#[allow(clippy::unwrap_used, clippy::indexing_slicing)]
mod tests {
    use super::super::components::{bottom_components, Edges};
    use super::super::rounds::Codes;
    use super::super::search::Limits;
    use super::super::store::{Index, NOWHERE};
    use super::{never_left, place, Allowance, Graph};

    /// For each member all that it leads to. The walk is handed the first of
    /// these, so that there are as many classes as the graph can have.
    type Listed = Vec<Vec<Index>>;

    impl Graph for &Listed {
        fn go_on(
            &mut self,
            from: impl Iterator<Item = Index>,
            acting: &mut Codes,
            reached: &mut Vec<Index>,
        ) {
            for member in from {
                acting.insert(u8::try_from(member).unwrap());
                reached.extend(&self[place(member)]);
            }
        }
    }

    /// A set that was shown, and those that act in it.
    type Shown = (Vec<Index>, Vec<Index>);

    /// What a walk shows that knows of the first members alone what they lead to,
    /// each set with those that act in it.
    fn walk(graph: &Listed, known: usize, reaches: &mut [Index], members: usize) -> Vec<Shown> {
        let done = (0..).zip(graph);
        let done = done.map(|(at, edges): (usize, _)| at == 0 || at >= known || edges.is_empty());
        let mut sets = Vec::new();
        let show = |members: &[Index], acting: Codes| {
            assert!(members.iter().all(|member| place(*member) < known));
            let acting = (0..=u8::MAX).filter(|code| acting.contains(*code));
            sets.push((members.to_vec(), acting.map(Index::from).collect()));
            Ok(())
        };
        let allowance = Allowance {
            limits: Limits::memory(1 << 20),
            members,
        };
        let walked = never_left(graph, reaches, done.collect(), allowance, show);
        assert!(walked.is_ok() || members < graph.len());
        sets
    }

    /// The same of a walk that knows all of them.
    fn by_walk(graph: &Listed) -> Vec<Shown> {
        let first = |edges: &Vec<Index>| edges.first().copied().unwrap_or(NOWHERE);
        let mut reaches: Vec<Index> = graph.iter().map(first).collect();
        let mut sets = walk(graph, graph.len(), &mut reaches, graph.len());
        sets.sort();
        sets
    }

    /// All bottom components but ends, by the list of edges.
    fn by_edges(graph: &Listed) -> Vec<Vec<Index>> {
        let mut edges = Edges::default();
        for member in graph {
            for to in member {
                edges.add(*to);
            }
            edges.close();
        }
        let bottoms = bottom_components(&edges).into_iter();
        let index = |member: usize| Index::try_from(member).unwrap();
        let mut bottoms: Vec<Vec<Index>> = bottoms
            .filter(|set| !graph[set[0]].is_empty())
            .map(|set| set.into_iter().map(index).collect())
            .collect();
        bottoms.sort();
        bottoms
    }

    /// The walk shows what the list of edges shows, but for a set with the
    /// opening in it: that one is all of the graph. Gives how many are shown.
    fn compare(graph: &Listed) -> usize {
        let mut expected = by_edges(graph);
        if expected.iter().any(|set| set[0] == 0) {
            assert_eq!(expected.len(), 1, "{graph:?}");
            assert_eq!(expected[0].len(), graph.len(), "{graph:?}");
            expected.clear();
        }
        let shown = by_walk(graph);
        // In such a graph every member of a set acts there.
        let expected: Vec<_> = expected.into_iter().map(|set| (set.clone(), set)).collect();
        assert_eq!(shown, expected, "{graph:?}");
        shown.len()
    }

    /// All that a member of four may lead to, and each of them first.
    fn ways_on() -> Vec<Vec<Index>> {
        let mut ways = vec![Vec::new()];
        for first in 0..4 {
            for others in (0..16_u32).filter(|others| others >> first & 1 == 0) {
                let others = (0..4).filter(|to| others >> to & 1 == 1);
                ways.push([first].into_iter().chain(others).collect());
            }
        }
        ways
    }

    /// All graphs of four members whose first one leads to all others, with each
    /// choice of what the walk is handed.
    #[test]
    fn small_graphs() {
        let ways = ways_on();
        let mut shown = 0;
        for one in &ways {
            for two in &ways {
                for three in &ways {
                    let opening = vec![1, 2, 3];
                    shown += compare(&vec![opening, one.clone(), two.clone(), three.clone()]);
                }
            }
        }
        assert_eq!(ways.len(), 33);
        assert!(shown > 5_000, "{shown}");
    }

    /// Numbers that look random, the same at every run.
    struct Chance(u64);

    impl Chance {
        fn below(&mut self, bound: u32) -> u32 {
            let Chance(state) = self;
            *state = state
                .wrapping_mul(6_364_136_223_846_793_005)
                .wrapping_add(1_442_695_040_888_963_407);
            u32::try_from(*state >> 33).unwrap() % bound
        }

        /// Members that lead to few others, more often to near ones, and one in
        /// `loops` first to itself, so that it is a class by itself.
        fn graph(&mut self, members: u32, loops: u32) -> Listed {
            let mut graph: Listed = vec![(1..members).collect()];
            for member in 1..members {
                let mut edges = Vec::new();
                if self.below(loops) == 0 {
                    edges.push(member);
                }
                for _ in 0..=self.below(2) {
                    edges.push(1 + (member + self.below(3)) % (members - 1));
                }
                if self.below(members) == 0 {
                    edges.push(self.below(members));
                }
                graph.push(edges);
            }
            graph
        }
    }

    impl Chance {
        /// Members that lead to others of their cluster, and seldom elsewhere.
        fn clusters(&mut self, members: u32) -> Listed {
            let mut graph: Listed = vec![(1..members).collect()];
            for member in 1..members {
                let first = member - member % 6;
                let others = (0..=self.below(3)).map(|_| first + self.below(6));
                let mut edges: Vec<Index> = others.collect();
                if self.below(15) == 0 {
                    edges.push(self.below(members));
                }
                edges.retain(|to| (1..members).contains(to));
                graph.push(edges);
            }
            graph
        }
    }

    /// Graphs of which more and more is known: each set is shown as soon as all that
    /// its members lead to is known, and once.
    #[test]
    fn graphs_that_become_known() {
        let mut chance = Chance(2);
        let (mut shown, mut early) = (0, 0);
        for round in 0..6_000 {
            let members = 5 + round % 40;
            let graph = chance.clusters(members);
            let mut expected = by_walk(&graph);
            let mut reaches = vec![NOWHERE; graph.len()];
            let mut known = 0;
            while known < graph.len() {
                let more = 1 + place(chance.below(members));
                for member in known..graph.len().min(known + more) {
                    reaches[member] = graph[member].first().copied().unwrap_or(NOWHERE);
                }
                known = graph.len().min(known + more);
                let mut sets = walk(&graph, known, &mut reaches, graph.len());
                sets.sort();
                let is_known = |(set, _): &Shown| set.iter().all(|it| place(*it) < known);
                let (closed, open): (Vec<_>, Vec<_>) = expected.into_iter().partition(is_known);
                assert_eq!(sets, closed, "{known} of {graph:?}");
                shown += sets.len();
                early += if known < graph.len() { sets.len() } else { 0 };
                expected = open;
            }
        }
        assert!(shown > 2_000 && early > 500, "{shown} {early}");
    }

    /// Walks that may go on from a few members only lose no set for a later one, and
    /// show none twice.
    #[test]
    fn walks_that_stop() {
        let mut chance = Chance(3);
        let mut stopped = 0;
        for round in 0..3_000 {
            let graph = chance.clusters(20 + round % 200);
            let first = |edges: &Vec<Index>| edges.first().copied().unwrap_or(NOWHERE);
            let mut reaches: Vec<Index> = graph.iter().map(first).collect();
            let mut sets = Vec::new();
            for members in [0, 1, 3, 10, 30] {
                sets.extend(walk(&graph, graph.len(), &mut reaches, members));
            }
            let before = sets.len();
            sets.extend(walk(&graph, graph.len(), &mut reaches, graph.len()));
            stopped += usize::from(0 < before && before < sets.len());
            sets.sort();
            assert_eq!(sets, by_walk(&graph), "{graph:?}");
        }
        assert!(stopped > 100, "{stopped}");
    }

    #[test]
    fn random_graphs() {
        let mut chance = Chance(1);
        let mut shown = 0;
        for round in 0..20_000 {
            let members = 5 + round % 12;
            shown += compare(&chance.graph(members, 1 + round % 3));
        }
        // More members than are gone on from together.
        for round in 0..300 {
            shown += compare(&chance.graph(250, 1 + round % 3));
        }
        assert!(shown > 5_000, "{shown}");
    }
}
