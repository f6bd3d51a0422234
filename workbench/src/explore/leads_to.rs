//! Whether one condition leads to another: in no fair run from a situation in
//! which it is so is the other one missing for ever.
//!
//! Gone through once more is all that can be reached from such situations without
//! the other condition, the nearest first. There a run breaks it that comes to an
//! end, or that goes round for ever and is fair.

use super::fair::Moves;
use super::model::Model;
use super::question::Question;
use super::search::{Cut, Found, Limits};
use super::steps::{Limit, Step, Stepper};
use super::store::{Batch, Index, NOWHERE};

/// What was found.
#[derive(Clone, Debug, PartialEq, Eq)]
pub struct Led {
    /// A run that breaks it.
    pub broken: Option<Lasso>,
    /// How many situations were gone through once more.
    pub situations: usize,
    /// How many steps from these.
    pub steps: usize,
    /// How many bytes that took.
    pub memory: usize,
}

/// A run to an end, or into a round.
#[derive(Clone, Debug, PartialEq, Eq)]
pub struct Lasso {
    /// The situation in which the first condition is so.
    pub begins: Index,
    /// The steps from there to the end, or into the round: the code that acts, and
    /// the situation after it.
    pub way: Vec<(u8, Index)>,
    /// The steps of the round; none at an end.
    pub round: Vec<(u8, Index)>,
}

/// So many situations are gone on from together.
const TOGETHER: usize = 128;

/// Looks for a run that breaks a question, among all situations of a hall.
///
/// # Errors
///
/// The limit that was met before that was known.
pub fn leads_to(
    model: &Model,
    found: &Found,
    question: &Question,
    limits: Limits,
) -> Result<Led, Cut> {
    let mut walk = Walk {
        found,
        question,
        stepper: Stepper::new(model),
        batch: Batch::default(),
        begun: Begun::of(found, question),
        reached: Vec::new(),
        number: vec![NOWHERE; found.store.len()],
        before: Vec::new(),
        moves: Moves::default(),
    };
    walk.go_through(limits)?;
    let memory = walk.memory() + walk.moves.memory_to_part();
    if let Some(cut) = limits.met(found.memory() + memory) {
        return Err(cut);
    }
    Ok(Led {
        broken: walk.lasso(limits)?,
        situations: walk.moves.members(),
        steps: walk.moves.steps(),
        memory,
    })
}

/// Where the first condition is so and the other is not.
struct Begun {
    /// Whether the other one is so.
    goal: Vec<bool>,
    /// Those situations, and after how many steps they are reached.
    from: Vec<(u32, Index)>,
}

impl Begun {
    fn of(found: &Found, question: &Question) -> Begun {
        let mut begun = Begun {
            goal: Vec::with_capacity(found.store.len()),
            from: Vec::new(),
        };
        let mut depths: Vec<u32> = Vec::with_capacity(found.store.len());
        for index in found.store.indexes() {
            let parent = found.store.parent(index);
            let depth = match index {
                0 => 0,
                _ => depths.get(place(parent)).copied().unwrap_or(0) + 1,
            };
            depths.push(depth);
            found.store.glance(index, |glance| {
                let goal = question.goal_holds(glance);
                begun.goal.push(goal);
                if !goal && question.holds(glance) {
                    begun.from.push((depth, index));
                }
            });
        }
        begun
    }
}

struct Walk<'a> {
    found: &'a Found,
    question: &'a Question,
    stepper: Stepper<'a>,
    batch: Batch,
    begun: Begun,
    /// The situations that were reached, the nearest first.
    reached: Vec<Index>,
    /// Which of these a situation is.
    number: Vec<u32>,
    /// From which one each was reached, and by whom; none where the first
    /// condition is so.
    before: Vec<Option<(u32, u8)>>,
    moves: Moves,
}

impl Walk<'_> {
    /// All that is reached without the goal, by its distance from the opening.
    fn go_through(&mut self, limits: Limits) -> Result<(), Cut> {
        let begun = std::mem::take(&mut self.begun.from);
        let mut begun = begun.into_iter().peekable();
        let mut distance = 0;
        let mut next = 0;
        loop {
            if next == self.reached.len() {
                let Some((depth, _)) = begun.peek() else {
                    return Ok(());
                };
                distance = *depth;
            }
            while let Some((_, index)) = begun.next_if(|(depth, _)| *depth <= distance) {
                self.reach(index, None)?;
            }
            let level = self.reached.len();
            while next < level {
                if let Some(cut) = limits.met(self.found.memory() + self.memory()) {
                    return Err(cut);
                }
                let together = (next + TOGETHER).min(level);
                self.go_on(next, together)?;
                next = together;
            }
            distance += 1;
        }
    }

    fn memory(&self) -> usize {
        13 * self.number.len() + 16 * self.reached.len() + self.moves.memory()
    }

    /// The number of a situation that is reached.
    fn reach(&mut self, index: Index, before: Option<(u32, u8)>) -> Result<u32, Cut> {
        let next = u32::try_from(self.reached.len()).map_err(|_| Cut::Memory)?;
        match self.number.get_mut(place(index)) {
            Some(number) if *number == NOWHERE => {
                *number = next;
                self.reached.push(index);
                self.before.push(before);
                Ok(next)
            }
            Some(number) => Ok(*number),
            None => Err(Cut::Memory),
        }
    }

    /// The steps from some of those that were reached.
    fn go_on(&mut self, from: usize, to: usize) -> Result<(), Cut> {
        let together: Vec<Index> = self.reached.get(from..to).unwrap_or(&[]).to_vec();
        let mut acting: Vec<(u8, bool)> = Vec::new();
        self.batch.clear();
        for index in &together {
            let first = acting.len();
            let show = |step: Step, barred: Option<Limit>| {
                if barred.is_none() {
                    acting.push((step.code, false));
                }
            };
            let Walk {
                found,
                stepper,
                batch,
                ..
            } = self;
            found.store.go_on(stepper, *index, batch, show, |_| {});
            let question = self.question;
            self.found.store.glance(*index, |glance| {
                for (code, meets) in acting.iter_mut().skip(first) {
                    *meets = question.goal_met_by(glance, *code);
                }
            });
        }
        let mut steps: Vec<(Index, Index)> = Vec::new();
        let store = &self.found.store;
        store.find_batch(&mut self.batch, |index, parent| steps.push((parent, index)));
        let mut steps = steps.into_iter().zip(acting).peekable();
        for (member, index) in (from..).zip(together) {
            let member = u32::try_from(member).map_err(|_| Cut::Memory)?;
            while let Some(((_, next), (code, meets))) =
                steps.next_if(|((parent, _), _)| *parent == index)
            {
                let goal = meets || self.begun.goal.get(place(next)) == Some(&true);
                let to = if goal {
                    None
                } else {
                    Some(self.reach(next, Some((member, code)))?)
                };
                self.moves.add((code, to));
            }
            self.moves.close();
        }
        Ok(())
    }

    /// The nearest run that breaks the question.
    fn lasso(&self, limits: Limits) -> Result<Option<Lasso>, Cut> {
        let fair = self.moves.fair_sets(limits)?;
        let in_round = fair.iter().filter_map(|set| {
            let nearest = set.iter().min()?;
            Some((*nearest, Some(set)))
        });
        let ends = (0..).take(self.moves.members());
        let ends = ends.filter(|member| self.moves.is_end(*member));
        let ends = ends.map(|member| (member, None));
        let Some((last, set)) = in_round.chain(ends).min_by_key(|(member, _)| *member) else {
            return Ok(None);
        };
        let (begins, way) = self.way_to(last);
        let round = set.map_or(Vec::new(), |set| self.moves.round(set, last));
        Ok(Some(Lasso {
            begins,
            way,
            round: round
                .into_iter()
                .map(|(code, member)| (code, self.situation(member)))
                .collect(),
        }))
    }

    fn way_to(&self, member: u32) -> (Index, Vec<(u8, Index)>) {
        let mut way = Vec::new();
        let mut at = member;
        while let Some((before, code)) = self.before.get(place(at)).copied().flatten() {
            way.push((code, self.situation(at)));
            at = before;
        }
        way.reverse();
        (self.situation(at), way)
    }

    fn situation(&self, member: u32) -> Index {
        self.reached.get(place(member)).copied().unwrap_or(0)
    }
}

fn place(index: Index) -> usize {
    usize::try_from(index).unwrap_or(usize::MAX)
}
