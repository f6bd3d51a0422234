//! The bottom components of a graph that is there as a list of its edges: sets
//! that are never left, all of whose members reach each other.
//!
//! By Tarjan's algorithm, with a stack of its own in the place of recursion.

/// The edges of a graph, those of one member together and in the order of
/// members.
#[derive(Clone, Debug, Default)]
pub struct Edges {
    /// Where the edges of each member end.
    ends: Vec<usize>,
    to: Vec<u32>,
}

impl Edges {
    /// Adds an edge of the member that is next.
    pub fn add(&mut self, to: u32) {
        self.to.push(to);
    }

    /// The next member has no more edges.
    pub fn close(&mut self) {
        self.ends.push(self.to.len());
    }

    /// The memory in use.
    #[must_use]
    pub fn memory(&self) -> usize {
        8 * self.ends.len() + 4 * self.to.len()
    }

    fn of(&self, member: usize) -> &[u32] {
        let start = member
            .checked_sub(1)
            .and_then(|before| self.ends.get(before));
        let start = start.copied().unwrap_or(0);
        let end = self.ends.get(member).copied().unwrap_or(start);
        self.to.get(start..end).unwrap_or(&[])
    }
}

/// A member on its way to be numbered: how many of its edges were looked at.
struct Frame {
    member: usize,
    edges: usize,
}

struct Walk<'a> {
    edges: &'a Edges,
    /// In which order members were met, counted from 1.
    number: Vec<u32>,
    /// The first that a member is known to reach of those that are in no
    /// component yet.
    lowest: Vec<u32>,
    /// Which component a member is in; they are numbered from 1.
    component: Vec<u32>,
    open: Vec<usize>,
    frames: Vec<Frame>,
    met: u32,
    components: u32,
}

/// All bottom components, each with its members. An edge to what is no member
/// leads out of its component.
#[must_use]
pub fn bottom_components(edges: &Edges) -> Vec<Vec<usize>> {
    walked(edges).bottoms()
}

/// All components, each with its members.
#[must_use]
pub fn components(edges: &Edges) -> Vec<Vec<usize>> {
    let walk = walked(edges);
    let mut components = vec![Vec::new(); place(walk.components)];
    for (member, component) in walk.component.iter().enumerate() {
        let own = place(*component).checked_sub(1);
        if let Some(members) = own.and_then(|own| components.get_mut(own)) {
            members.push(member);
        }
    }
    components
}

fn walked(edges: &Edges) -> Walk<'_> {
    let members = edges.ends.len();
    let mut walk = Walk {
        edges,
        number: vec![0; members],
        lowest: vec![0; members],
        component: vec![0; members],
        open: Vec::new(),
        frames: Vec::new(),
        met: 0,
        components: 0,
    };
    for member in 0..members {
        if at(&walk.number, member) == 0 {
            walk.enter(member);
            while walk.go_on() {}
        }
    }
    walk
}

fn at(numbers: &[u32], member: usize) -> u32 {
    numbers.get(member).copied().unwrap_or(0)
}

fn set(numbers: &mut [u32], member: usize, number: u32) {
    if let Some(slot) = numbers.get_mut(member) {
        *slot = number;
    }
}

fn place(member: u32) -> usize {
    usize::try_from(member).unwrap_or(usize::MAX)
}

impl Walk<'_> {
    fn enter(&mut self, member: usize) {
        self.met += 1;
        set(&mut self.number, member, self.met);
        set(&mut self.lowest, member, self.met);
        self.open.push(member);
        self.frames.push(Frame { member, edges: 0 });
    }

    /// Looks at the next edge of the last member; false where there is none.
    fn go_on(&mut self) -> bool {
        let Some(Frame { member, edges }) = self.frames.last_mut() else {
            return false;
        };
        let member = *member;
        let Some(to) = self.edges.of(member).get(*edges).copied().map(place) else {
            self.leave(member);
            return true;
        };
        *edges += 1;
        if to >= self.number.len() {
            return true;
        }
        if at(&self.number, to) == 0 {
            self.enter(to);
        } else if at(&self.component, to) == 0 {
            self.reaches(member, at(&self.number, to));
        }
        true
    }

    fn reaches(&mut self, member: usize, number: u32) {
        let lowest = at(&self.lowest, member).min(number);
        set(&mut self.lowest, member, lowest);
    }

    fn leave(&mut self, member: usize) {
        self.frames.pop();
        let lowest = at(&self.lowest, member);
        if let Some(before) = self.frames.last().map(|frame| frame.member) {
            self.reaches(before, lowest);
        }
        if lowest < at(&self.number, member) {
            return;
        }
        self.components += 1;
        while let Some(other) = self.open.pop() {
            set(&mut self.component, other, self.components);
            if other == member {
                return;
            }
        }
    }

    fn bottoms(&self) -> Vec<Vec<usize>> {
        let mut members = vec![Vec::new(); place(self.components) + 1];
        let mut left = vec![false; members.len()];
        for member in 0..self.component.len() {
            let own = at(&self.component, member);
            let mut edges = self.edges.of(member).iter();
            let leaves = edges.any(|to| at(&self.component, place(*to)) != own);
            if let (Some(members), Some(left)) =
                (members.get_mut(place(own)), left.get_mut(place(own)))
            {
                members.push(member);
                *left |= leaves;
            }
        }
        let bottoms = members.into_iter().zip(left).skip(1);
        bottoms
            .filter(|(_, left)| !left)
            .map(|(members, _)| members)
            .collect()
    }
}

#[cfg(test)]
#[allow(clippy::indexing_slicing)]
mod tests {
    use super::{bottom_components, Edges};

    fn bottoms(graph: &[&[u32]]) -> Vec<Vec<usize>> {
        let mut edges = Edges::default();
        for member in graph {
            for to in *member {
                edges.add(*to);
            }
            edges.close();
        }
        let mut bottoms = bottom_components(&edges);
        bottoms.sort();
        bottoms
    }

    #[test]
    fn known_graphs() {
        assert_eq!(bottoms(&[]), Vec::<Vec<usize>>::new());
        assert_eq!(bottoms(&[&[]]), [vec![0]]);
        assert_eq!(bottoms(&[&[0]]), [vec![0]]);
        assert_eq!(bottoms(&[&[1], &[0]]), [vec![0, 1]]);
        // A circle that is left, one that is not, and an end.
        let graph: &[&[u32]] = &[&[1, 5], &[2], &[1, 3], &[4], &[3], &[]];
        assert_eq!(bottoms(graph), [vec![3, 4], vec![5]]);
        // The same with a member that is not known, to which two lead.
        let graph: &[&[u32]] = &[&[1, 5], &[2], &[1, 3], &[4, 6], &[3, 6], &[]];
        assert_eq!(bottoms(graph), [vec![5]]);
    }

    /// Against a closure by hand, on all graphs of four members with two edges
    /// each.
    #[test]
    fn small_graphs() {
        for code in 0..65_536_u32 {
            let graph: Vec<Vec<u32>> = (0..4)
                .map(|member| {
                    let both = code >> (4 * member);
                    vec![both & 3, both >> 2 & 3]
                })
                .collect();
            let mut reach: Vec<u32> = vec![1, 2, 4, 8];
            for _ in 0..4 {
                for member in 0..4 {
                    for to in &graph[member] {
                        reach[member] |= reach[*to as usize];
                    }
                }
            }
            let bottom = |member: &usize| {
                let reached = (0..4).filter(|to| reach[*member] >> to & 1 == 1);
                reached
                    .into_iter()
                    .all(|to: usize| reach[to] >> member & 1 == 1)
            };
            let mut expected: Vec<Vec<usize>> = (0..4)
                .filter(bottom)
                .map(|member| (0..4).filter(|to| reach[member] >> to & 1 == 1).collect())
                .collect();
            expected.sort();
            expected.dedup();
            let slices: Vec<&[u32]> = graph.iter().map(Vec::as_slice).collect();
            assert_eq!(bottoms(&slices), expected, "{graph:?}");
        }
    }
}
