//! A question about the situations of a model.
//!
//! What `text::asking` has read names trays and rules; here it is about slots and
//! codes. Equal stations have one code, whatever they are called: a question that
//! would have to tell them apart is a mistake.

use std::sync::Arc;

use crate::table::Table;
use crate::text::asking::{
    read_condition, Asked, Asking, Caller, Comparison, Condition as Written, Doing, Event, Mistake,
    Place, Standing, Value as WrittenValue, Who,
};
use crate::text::tree::Program;

use super::events::Doers;
use super::labels::Labels;
use super::model::{Kind, Model};
use super::rounds::Codes;
use super::situations::Glance;

/// A question, about one model.
#[derive(Clone, Debug, PartialEq, Eq)]
pub struct Question {
    /// What is asked.
    pub asked: Asked,
    /// As it was written.
    pub text: String,
    /// Which of all that are asked it is: answers are told in this order.
    pub place: usize,
    /// As it was read, for another model of the same text.
    pub asking: Asking,
    condition: Condition,
    goal: Option<Condition>,
}

#[derive(Clone, Debug, PartialEq, Eq)]
enum Condition {
    Compare(Sum, Comparison, Sum),
    AtLeast(i64, Codes),
    Event(Event, Codes, Arc<Doers>),
    Not(Box<Condition>),
    All(Vec<Condition>),
    Any(Vec<Condition>),
}

/// Values, each with the sign that stands before it.
type Sum = Vec<(i64, Value)>;

#[derive(Clone, Copy, Debug, PartialEq, Eq)]
enum Value {
    Number(i64),
    Slot(usize),
    Stations,
    Standing(Codes),
}

/// What events are looked up in.
#[derive(Clone, Copy, Debug, PartialEq, Eq)]
enum Moment {
    /// A situation: an event is so where it can happen next.
    Situation,
    /// On its own an event is not so: it happens between situations.
    Still,
    /// A step of the station of this code.
    Step(u8),
}

/// Puts questions to a model.
#[derive(Debug)]
pub struct Binder<'a> {
    program: &'a Program,
    /// With notes where there can be some: then these are asked about too.
    model: Model,
    labels: Labels,
    doers: Arc<Doers>,
    /// Whether somebody who is asked about may be missing.
    some_missing: bool,
}

impl<'a> Binder<'a> {
    /// For a text and its table.
    #[must_use]
    pub fn new(table: &Table, program: &'a Program) -> Binder<'a> {
        let model = Model::with_notes(table).unwrap_or_else(|| Model::of(table));
        Binder {
            program,
            labels: Labels::of(table, program, &model),
            doers: Arc::new(Doers::of(&model)),
            model,
            some_missing: false,
        }
    }

    /// The slots of the trays that may have something at an end.
    #[must_use]
    pub fn may_stay(&self) -> Vec<usize> {
        let trays = self.model.trays().iter().enumerate();
        let stays = trays.filter(|(_, tray)| self.program.tray_may_stay(**tray));
        stays.map(|(slot, _)| slot).collect()
    }

    /// The same for a group of the stations, in which not everybody stands.
    #[must_use]
    pub fn of_group(self) -> Binder<'a> {
        Binder {
            some_missing: true,
            ..self
        }
    }

    /// Reads a condition, of which this is asked.
    ///
    /// # Errors
    ///
    /// The first mistake in it.
    pub fn read(&self, asked: Asked, text: &str) -> Result<Question, Mistake> {
        self.bind(&read_condition(asked, text, self.program)?)
    }

    /// A question that was read.
    ///
    /// # Errors
    ///
    /// Where no situation of the model could answer it.
    pub fn bind(&self, asking: &Asking) -> Result<Question, Mistake> {
        let goal = asking.goal.as_ref();
        if asking.asked == Asked::Leads {
            for condition in std::iter::once(&asking.condition).chain(goal) {
                no_abandoned(condition)?;
            }
        }
        Ok(Question {
            asked: asking.asked,
            text: asking.text.clone(),
            place: 0,
            asking: asking.clone(),
            condition: self.condition(&asking.condition)?,
            goal: goal.map(|goal| self.condition(goal)).transpose()?,
        })
    }

    fn condition(&self, written: &Written) -> Result<Condition, Mistake> {
        Ok(match written {
            Written::Compare(left, comparison, right) => {
                Condition::Compare(self.sum(left)?, *comparison, self.sum(right)?)
            }
            Written::AtLeast(number, standing) => {
                Condition::AtLeast(*number, self.standing(standing)?)
            }
            Written::Event(caller, event) => {
                let blocks = self.blocks(caller, *event)?;
                Condition::Event(*event, blocks, Arc::clone(&self.doers))
            }
            Written::Not(inner) => Condition::Not(Box::new(self.condition(inner)?)),
            Written::All(parts) => Condition::All(self.conditions(parts)?),
            Written::Any(parts) => Condition::Any(self.conditions(parts)?),
        })
    }

    fn conditions(&self, parts: &[Written]) -> Result<Vec<Condition>, Mistake> {
        parts.iter().map(|part| self.condition(part)).collect()
    }

    fn sum(&self, sum: &[(i64, WrittenValue)]) -> Result<Sum, Mistake> {
        sum.iter()
            .map(|(sign, value)| Ok((*sign, self.value(value)?)))
            .collect()
    }

    /// A tray that no record names has nothing and gets nothing.
    fn value(&self, value: &WrittenValue) -> Result<Value, Mistake> {
        Ok(match value {
            WrittenValue::Number(number) => Value::Number(*number),
            WrittenValue::Stations => Value::Stations,
            WrittenValue::Tray(tray) => self.slot(*tray).map_or(Value::Number(0), Value::Slot),
            WrittenValue::Standing(standing) => Value::Standing(self.standing(standing)?),
        })
    }

    fn slot(&self, tray: u8) -> Option<usize> {
        self.model.trays().iter().position(|it| *it == tray)
    }

    /// The codes of stations that stand where they are asked for.
    fn standing(&self, standing: &Standing) -> Result<Codes, Mistake> {
        let Standing { caller, place } = standing;
        let codes = match &caller.who {
            Who::Rule(rule) => self.called(caller, rule, *place)?,
            Who::Doing(doing) => self.all_codes(|code, _| {
                self.does(code, *doing) && { *place != Place::Inside && self.is_at(code, *place) }
            }),
        };
        if codes == Codes::default() && !self.some_missing {
            let words = "no station can ever stand so, and the answer would say nothing";
            return Err(mistake(caller, words));
        }
        Ok(codes)
    }

    /// The codes of a rule's stations, told apart from all others.
    fn called(&self, caller: &Caller, rule: &str, place: Place) -> Result<Codes, Mistake> {
        let mut shared = None;
        let codes = self.all_codes(|code, plain| {
            let wanted = |name: &Option<String>, kept: bool| {
                name.as_deref() == Some(rule) && (place != Place::Inside || kept)
            };
            let mut callers = self.labels.callers(plain);
            if !self.is_at(code, place) || !callers.any(|(name, kept)| wanted(name, *kept)) {
                return false;
            }
            let mut callers = self.labels.callers(plain);
            if callers.any(|(name, kept)| !wanted(name, *kept)) {
                shared.get_or_insert(plain);
            }
            true
        });
        match shared {
            None => Ok(codes),
            Some(code) => {
                let names = self.labels.told(code);
                let words = format!("these are not told apart, since they do the same: {names}");
                Err(mistake(caller, &words))
            }
        }
    }

    /// The codes of blocks.
    fn blocks(&self, caller: &Caller, event: Event) -> Result<Codes, Mistake> {
        let place = Place::At(Doing::Block);
        let codes = self.standing(&Standing {
            caller: caller.clone(),
            place,
        });
        codes.map_err(|other| {
            let never = format!("no block is called so: it never {}", event.words());
            match &caller.who {
                Who::Rule(rule) if self.called(caller, rule, place).is_ok() => {
                    mistake(caller, &never)
                }
                Who::Doing(_) => mistake(caller, &never),
                Who::Rule(_) => other,
            }
        })
    }

    /// All codes of which something is so; it is handed the code, and the code of
    /// the block where that is one with a note.
    fn all_codes(&self, mut is_so: impl FnMut(u8, u8) -> bool) -> Codes {
        let mut codes = Codes::default();
        for code in (0..=u8::MAX).take(self.model.kinds().len()) {
            if is_so(code, self.model.without_note(code)) {
                codes.insert(code);
            }
        }
        codes
    }

    fn is_at(&self, code: u8, place: Place) -> bool {
        match place {
            Place::Stands | Place::Inside => true,
            Place::Waits => !matches!(self.model.kind(code), Some(Kind::Put { .. })),
            Place::At(doing) => self.does(code, doing),
        }
    }

    fn does(&self, code: u8, doing: Doing) -> bool {
        match (self.model.kind(code), doing) {
            (Some(Kind::Put { slot }), Doing::Put(tray)) => self.slot(tray) == Some(*slot),
            (Some(Kind::Take { slot, stays, .. }), Doing::Take(tray)) => {
                !stays && self.slot(tray) == Some(*slot)
            }
            (Some(Kind::Take { slot, stays, .. }), Doing::Repeatedly(tray)) => {
                *stays && self.slot(tray) == Some(*slot)
            }
            (Some(Kind::Block { .. } | Kind::Noted { .. }), Doing::Block) => true,
            _ => false,
        }
    }
}

fn mistake(caller: &Caller, words: &str) -> Mistake {
    Mistake {
        message: words.to_owned(),
        column: caller.column,
        length: caller.length,
    }
}

/// Attempts that are abandoned are no steps: nothing leads to them.
fn no_abandoned(condition: &Written) -> Result<(), Mistake> {
    match condition {
        Written::Event(caller, event @ (Event::Fails | Event::GivesUp)) => Err(mistake(
            caller,
            &format!(
                "'leads to' is about steps, and '{}' is none: an attempt that comes to nothing \
                 changes nothing",
                event.words()
            ),
        )),
        Written::Not(inner) => no_abandoned(inner),
        Written::All(parts) | Written::Any(parts) => parts.iter().try_for_each(no_abandoned),
        Written::Event(..) | Written::Compare(..) | Written::AtLeast(..) => Ok(()),
    }
}

impl Question {
    /// Whether it is so in a situation. What can happen there next counts as
    /// happening.
    #[must_use]
    pub fn holds(&self, glance: Glance<'_>) -> bool {
        self.condition.holds(glance, Moment::Situation)
    }

    /// Whether what another condition leads to is so in a situation, where
    /// nothing happens.
    #[must_use]
    pub fn goal_holds(&self, glance: Glance<'_>) -> bool {
        let goal = self.goal.as_ref();
        goal.is_some_and(|goal| goal.holds(glance, Moment::Still))
    }

    /// The same for a step of this code from the situation.
    #[must_use]
    pub fn goal_met_by(&self, glance: Glance<'_>, code: u8) -> bool {
        let goal = self.goal.as_ref();
        goal.is_some_and(|goal| goal.holds(glance, Moment::Step(code)))
    }

    /// Whether it asks for one of these events.
    #[must_use]
    pub fn asks_for(&self, wanted: impl Fn(Event) -> bool) -> bool {
        self.condition.asks_for(&wanted)
    }
}

impl Condition {
    fn holds(&self, glance: Glance<'_>, moment: Moment) -> bool {
        match self {
            Condition::Compare(left, comparison, right) => {
                let left = total(left, glance);
                let right = total(right, glance);
                match comparison {
                    Comparison::Equal => left == right,
                    Comparison::Unequal => left != right,
                    Comparison::Less => left < right,
                    Comparison::AtMost => left <= right,
                    Comparison::More => left > right,
                    Comparison::AtLeast => left >= right,
                }
            }
            Condition::AtLeast(number, codes) => number_of(glance, *codes) >= *number,
            Condition::Event(event, codes, doers) => match moment {
                Moment::Situation => doers.can_happen(*event, *codes, glance),
                Moment::Still => false,
                Moment::Step(code) => codes.contains(code),
            },
            Condition::Not(inner) => !inner.holds(glance, moment),
            Condition::All(parts) => parts.iter().all(|part| part.holds(glance, moment)),
            Condition::Any(parts) => parts.iter().any(|part| part.holds(glance, moment)),
        }
    }

    fn asks_for(&self, wanted: &impl Fn(Event) -> bool) -> bool {
        match self {
            Condition::Event(event, ..) => wanted(*event),
            Condition::Not(inner) => inner.asks_for(wanted),
            Condition::All(parts) | Condition::Any(parts) => {
                parts.iter().any(|part| part.asks_for(wanted))
            }
            Condition::Compare(..) | Condition::AtLeast(..) => false,
        }
    }
}

fn total(sum: &Sum, glance: Glance<'_>) -> i64 {
    sum.iter()
        .map(|(sign, value)| {
            sign * match value {
                Value::Number(number) => *number,
                Value::Slot(slot) => glance.counts.get(*slot).copied().map_or(0, i64::from),
                Value::Stations => i64::try_from(glance.stations).unwrap_or(i64::MAX),
                Value::Standing(codes) => number_of(glance, *codes),
            }
        })
        .sum()
}

fn number_of(glance: Glance<'_>, codes: Codes) -> i64 {
    let mut number = 0;
    glance.each_code(|code, standing| {
        if codes.contains(code) {
            number += i64::from(standing);
        }
    });
    number
}
