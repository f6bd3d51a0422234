//! Runs that avoid something for ever though each station that can act again and
//! again does: rounds in a list of steps.
//!
//! Strong fairness, by code: a run is fair if every code that can act in
//! infinitely many of its situations also acts infinitely often. Equal stations
//! need no more than that: whenever one of them acts, let it be the one that has
//! waited longest.
//!
//! Such a run stays in the end within one component, and in it all that can act
//! does. So a component is good if each code that can act in one of its members
//! acts on a step inside it. One that is not loses the members in which such a
//! code can act, since a fair run is in them but finitely often, and what is left
//! is parted into components again.

use std::collections::VecDeque;

use super::components::{components, Edges};
use super::rounds::Codes;
use super::search::{Cut, Limits};

/// A step of a list: by which code, and to which member; none where it leads to
/// what is avoided.
pub(super) type Move = (u8, Option<u32>);

/// Members and the steps from each of them.
#[derive(Clone, Debug, Default)]
pub(super) struct Moves {
    ends: Vec<usize>,
    codes: Vec<u8>,
    to: Vec<u32>,
}

/// In the place of a member: what is avoided.
const AVOIDED: u32 = u32::MAX;

impl Moves {
    /// Adds a step of the member that is next.
    pub(super) fn add(&mut self, (code, to): Move) {
        self.codes.push(code);
        self.to.push(to.unwrap_or(AVOIDED));
    }

    /// The next member has no more steps.
    pub(super) fn close(&mut self) {
        self.ends.push(self.to.len());
    }

    pub(super) fn members(&self) -> usize {
        self.ends.len()
    }

    pub(super) fn steps(&self) -> usize {
        self.to.len()
    }

    pub(super) fn memory(&self) -> usize {
        8 * self.ends.len() + 5 * self.to.len()
    }

    fn of(&self, member: u32) -> impl Iterator<Item = (u8, u32)> + '_ {
        let member = place(member);
        let before = member.checked_sub(1).and_then(|it| self.ends.get(it));
        let start = before.copied().unwrap_or(0);
        let end = self.ends.get(member).copied().unwrap_or(start);
        let codes = self.codes.get(start..end).unwrap_or(&[]);
        let to = self.to.get(start..end).unwrap_or(&[]);
        codes.iter().copied().zip(to.iter().copied())
    }

    /// Who can act at a member.
    fn can_act(&self, member: u32) -> Codes {
        let mut codes = Codes::default();
        for (code, _) in self.of(member) {
            codes.insert(code);
        }
        codes
    }

    /// Whether nothing follows.
    pub(super) fn is_end(&self, member: u32) -> bool {
        self.of(member).next().is_none()
    }

    /// All sets of members in which a fair run can stay for ever.
    ///
    /// # Errors
    ///
    /// The time may be over before that is known.
    pub(super) fn fair_sets(&self, limits: Limits) -> Result<Vec<Vec<u32>>, Cut> {
        let mut fair = Vec::new();
        let mut place_in = vec![AVOIDED; self.members()];
        let all = (0..).take(self.members()).collect();
        let mut to_part: Vec<Vec<u32>> = vec![all];
        while let Some(members) = to_part.pop() {
            if let Some(cut) = limits.met(0) {
                return Err(cut);
            }
            for set in self.parted(&members, &mut place_in) {
                let (can_act, acting) = self.who(&set, &mut place_in);
                if acting == Codes::default() {
                    continue;
                }
                let missing = can_act.without(acting);
                if missing == Codes::default() {
                    fair.push(set);
                    continue;
                }
                let stays = |member: &u32| !self.can_act(*member).meets(missing);
                let left: Vec<u32> = set.into_iter().filter(stays).collect();
                if !left.is_empty() {
                    to_part.push(left);
                }
            }
        }
        Ok(fair)
    }

    /// About what it takes to part all members.
    pub(super) fn memory_to_part(&self) -> usize {
        64 * self.ends.len() + 4 * self.to.len()
    }

    /// The components of these members, by steps among them.
    fn parted(&self, members: &[u32], place_in: &mut [u32]) -> Vec<Vec<u32>> {
        set_places(place_in, members);
        let mut edges = Edges::default();
        for member in members {
            for (_, to) in self.of(*member) {
                let to = place_in.get(place(to)).copied().unwrap_or(AVOIDED);
                if to != AVOIDED {
                    edges.add(to);
                }
            }
            edges.close();
        }
        clear_places(place_in, members);
        let member = |at: usize| members.get(at).copied();
        let sets = components(&edges).into_iter();
        sets.map(|set| set.into_iter().filter_map(member).collect())
            .collect()
    }

    /// Who can act in these members, and who acts on steps among them.
    fn who(&self, members: &[u32], place_in: &mut [u32]) -> (Codes, Codes) {
        set_places(place_in, members);
        let (mut can_act, mut acting) = (Codes::default(), Codes::default());
        for member in members {
            for (code, to) in self.of(*member) {
                can_act.insert(code);
                if place_in.get(place(to)).is_some_and(|it| *it != AVOIDED) {
                    acting.insert(code);
                }
            }
        }
        clear_places(place_in, members);
        (can_act, acting)
    }

    /// A round from a member of a fair set, in which all that can act on the way
    /// does. Nothing makes it a shortest one.
    pub(super) fn round(&self, set: &[u32], from: u32) -> Vec<(u8, u32)> {
        let mut inside = vec![false; self.members()];
        for member in set {
            if let Some(inside) = inside.get_mut(place(*member)) {
                *inside = true;
            }
        }
        let mut round: Vec<(u8, u32)> = Vec::new();
        let mut acted = Codes::default();
        let mut can_act = self.can_act(from);
        let mut at = from;
        loop {
            let missing = can_act.without(acted);
            let done = missing == Codes::default();
            if done && at == from && !round.is_empty() {
                return round;
            }
            let wanted = |code: u8, to: u32| {
                if done {
                    to == from
                } else {
                    missing.contains(code)
                }
            };
            let way = self.nearest(at, &inside, wanted);
            if way.is_empty() {
                // No fair set is like that.
                return round;
            }
            for (code, to) in way {
                acted.insert(code);
                can_act.extend(self.can_act(to));
                at = to;
                round.push((code, to));
            }
        }
    }

    /// The steps up to the nearest one that is wanted.
    fn nearest(
        &self,
        from: u32,
        inside: &[bool],
        wanted: impl Fn(u8, u32) -> bool,
    ) -> Vec<(u8, u32)> {
        let mut before: Vec<Option<(u8, u32)>> = vec![None; self.members()];
        let mut queue = VecDeque::from([from]);
        while let Some(at) = queue.pop_front() {
            for (code, to) in self.of(at) {
                if inside.get(place(to)) != Some(&true) {
                    continue;
                }
                if wanted(code, to) {
                    let mut way = vec![(code, to)];
                    let mut back = at;
                    while back != from {
                        let Some((code, earlier)) = before.get(place(back)).copied().flatten()
                        else {
                            break;
                        };
                        way.push((code, back));
                        back = earlier;
                    }
                    way.reverse();
                    return way;
                }
                match before.get_mut(place(to)) {
                    Some(slot @ None) if to != from => {
                        *slot = Some((code, at));
                        queue.push_back(to);
                    }
                    _ => {}
                }
            }
        }
        Vec::new()
    }
}

fn set_places(place_in: &mut [u32], members: &[u32]) {
    for (at, member) in (0..).zip(members) {
        if let Some(slot) = place_in.get_mut(place(*member)) {
            *slot = at;
        }
    }
}

fn clear_places(place_in: &mut [u32], members: &[u32]) {
    for member in members {
        if let Some(slot) = place_in.get_mut(place(*member)) {
            *slot = AVOIDED;
        }
    }
}

fn place(member: u32) -> usize {
    usize::try_from(member).unwrap_or(usize::MAX)
}
