//! What repeats, made one: `49 times: pump, put a`.

use std::collections::HashMap;

use super::{Change, Entry, Step, What};

/// So often something is done before it is told as one.
const FEWEST_TIMES: usize = 3;
/// So many steps at most are one round of what repeats.
const LONGEST_ROUND: usize = 12;

/// One line of a run told by steps.
#[derive(Clone, Debug, PartialEq, Eq)]
pub struct Row {
    /// The numbers of the first and the last step that it tells.
    pub numbers: (usize, usize),
    /// Who did what.
    pub who: String,
    /// What the trays became.
    pub changes: Vec<Change>,
    /// Why it went so.
    pub remark: String,
    /// What the last of the steps was.
    pub what: What,
    /// How often it was done.
    pub times: usize,
    /// The steps of the first round.
    pub steps: Vec<Step>,
}

impl Row {
    /// `4`, or `1-98` where several steps are one.
    #[must_use]
    pub fn number(&self) -> String {
        let (first, last) = self.numbers;
        if first == last {
            first.to_string()
        } else {
            format!("{first}-{last}")
        }
    }
}

/// What is told one after the other.
#[derive(Clone, Debug, PartialEq, Eq)]
pub enum Told {
    /// A line.
    Row(Row),
    /// Lines that are set apart.
    Apart(Vec<String>),
}

/// A run told by steps, with what repeats made one.
#[must_use]
pub fn told(entries: &[Entry]) -> Vec<Told> {
    let numbers = numbers(entries);
    let mut told = Vec::new();
    let mut steps: Vec<(usize, &Step)> = Vec::new();
    for (entry, number) in entries.iter().zip(&numbers) {
        match entry {
            Entry::Step(step) => steps.push((*number, step)),
            Entry::Untold => {}
            Entry::Apart(lines) => {
                told.extend(rows(&std::mem::take(&mut steps), &numbers).map(Told::Row));
                told.push(Told::Apart(lines.clone()));
            }
        }
    }
    told.extend(rows(&steps, &numbers).map(Told::Row));
    told
}

/// What is told from an entry on, with nothing made one.
#[must_use]
pub fn unfolded(entries: &[Entry], from: usize) -> Vec<Told> {
    let numbers = numbers(entries);
    let told = entries.iter().zip(&numbers).skip(from);
    told.filter_map(|(entry, number)| match entry {
        Entry::Step(step) => Some(Told::Row(single(*number, step, &numbers))),
        Entry::Apart(lines) => Some(Told::Apart(lines.clone())),
        Entry::Untold => None,
    })
    .collect()
}

/// The number of each step, from 1 on; for what is no step that of the step
/// before.
fn numbers(entries: &[Entry]) -> Vec<usize> {
    let mut number = 0;
    let count = |entry: &Entry| {
        number += usize::from(matches!(entry, Entry::Step(_)));
        number
    };
    entries.iter().map(count).collect()
}

fn rows<'a>(
    steps: &'a [(usize, &'a Step)],
    numbers: &'a [usize],
) -> impl Iterator<Item = Row> + 'a {
    let sorts = sorts(steps);
    let mut at = 0;
    std::iter::from_fn(move || {
        let (number, step) = *steps.get(at)?;
        let (length, times) = repeats(sorts.get(at..).unwrap_or(&[]));
        let all = steps.get(at..at + length * times).unwrap_or(&[]);
        at += length * times;
        if times == 1 {
            return Some(single(number, step, numbers));
        }
        Some(several(all, length, times))
    })
}

/// A number for each step, the same for those that repeat one another; none for
/// those that stand for themselves.
fn sorts(steps: &[(usize, &Step)]) -> Vec<Option<usize>> {
    let mut known = HashMap::new();
    let sort = |(_, step): &(usize, &Step)| {
        let alone = matches!(step.what, What::Opens | What::Refused(_)) || step.opened.is_some();
        if alone {
            return None;
        }
        let change = |it: &Change| (it.tray, i16::from(it.to) - i16::from(it.from));
        let changes: Vec<(u8, i16)> = step.changes.iter().map(change).collect();
        let next = known.len();
        let key = (step.each_time.clone(), step.what.words(), changes);
        Some(*known.entry(key).or_insert(next))
    };
    steps.iter().map(sort).collect()
}

/// The round with which most is told as one: its length, and how often it is
/// made; 1 and 1 where nothing repeats.
fn repeats(sorts: &[Option<usize>]) -> (usize, usize) {
    let mut best = (1, 1);
    for length in 1..=LONGEST_ROUND.min(sorts.len()) {
        let round = sorts.get(..length).unwrap_or(&[]);
        if round.contains(&None) {
            break;
        }
        let times = sorts
            .chunks_exact(length)
            .take_while(|other| *other == round)
            .count();
        if times >= FEWEST_TIMES && length * times > best.0 * best.1 {
            best = (length, times);
        }
    }
    best
}

fn single(number: usize, step: &Step, numbers: &[usize]) -> Row {
    let remark = &step.remark;
    let opened = step.opened.and_then(|entry| numbers.get(entry));
    let remark = match (opened, remark.is_empty()) {
        (None, _) => remark.clone(),
        (Some(opened), true) => format!("opened at {opened}"),
        (Some(opened), false) if step.by_then => {
            format!("{remark} when it opened, at {opened}")
        }
        (Some(opened), false) => format!("{remark}; opened at {opened}"),
    };
    Row {
        numbers: (number, number),
        who: format!("{}{}", step.who, step.what.words()),
        changes: step.changes.clone(),
        remark,
        what: step.what,
        times: 1,
        steps: vec![step.clone()],
    }
}

fn several(all: &[(usize, &Step)], length: usize, times: usize) -> Row {
    let number = |it: Option<&(usize, &Step)>| it.map_or(0, |(number, _)| *number);
    let round: Vec<Step> = all
        .iter()
        .take(length)
        .map(|(_, step)| (*step).clone())
        .collect();
    let remark = round.first().map_or("", |step| step.remark.as_str());
    let same = length == 1 && all.iter().all(|(_, step)| step.remark == remark);
    Row {
        numbers: (number(all.first()), number(all.last())),
        who: format!("{times} times: {}", who(&round)),
        changes: net(all),
        remark: if same {
            remark.to_owned()
        } else {
            String::new()
        },
        what: round.last().map_or(What::Puts, |step| step.what),
        times,
        steps: round,
    }
}

/// Who acts in a round. Of what somebody lays down who acts in it too, the name
/// says what it does alone.
fn who(round: &[Step]) -> String {
    let acts = |person: &str| round.iter().any(|step| step.each_time == person);
    let words: Vec<String> = round
        .iter()
        .map(|step| {
            let name = if acts(&step.person) && step.person != step.each_time {
                &step.label
            } else {
                &step.each_time
            };
            format!("{name}{}", step.what.words())
        })
        .collect();
    words.join(", ")
}

/// What the trays became in all.
fn net(all: &[(usize, &Step)]) -> Vec<Change> {
    let mut net: Vec<Change> = Vec::new();
    for change in all.iter().flat_map(|(_, step)| &step.changes) {
        match net.iter_mut().find(|it| it.tray == change.tray) {
            Some(known) => known.to = change.to,
            None => net.push(*change),
        }
    }
    net.retain(|change| change.from != change.to);
    net.sort_by_key(|change| change.tray);
    net
}
