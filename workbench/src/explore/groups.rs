//! Every group of a hall's stations: which is the smallest that shows a fault?
//!
//! The stations are those that stand in the hall when it opens, whichever rule
//! put them there: a rule that opens several is several stations here. Equal
//! ones are not told apart, only counted.

use crate::stations::Station;
use crate::steps::Entry;
use crate::table::{Table, Term};
use crate::text::assembly::assemble;
use crate::text::compare::means;
use crate::text::source::Span;
use crate::text::tree::{PartId, PartKind, Program};

use super::facts::{Answer, Collector, Verdict};
use super::investigate::investigate;
use super::labels::opened_parts;
use super::model::{opened_terms, Model};
use super::question::{Binder, Question};
use super::replay::Contradiction;
use super::search::{Cut, Limits, Progress, Questions};
use super::start_line::start_line;

/// More groups are not gone through.
pub const MOST_GROUPS: usize = 4096;

/// A group, and what was found of it.
#[derive(Clone, Debug)]
pub struct Group {
    /// The line that opens it: `start clerk beside runner`.
    pub start: String,
    /// How many stations it has.
    pub size: usize,
    /// How many situations it has.
    pub situations: u64,
    /// What is answered to the questions.
    pub answers: Vec<Answer>,
    /// For each answer the way that breaks it, by steps.
    pub told: Vec<Option<Vec<Entry>>>,
}

/// The groups that were gone through.
#[derive(Clone, Debug)]
pub struct Groups {
    /// How many stations stand there at the opening.
    pub stations: usize,
    /// How many groups they make.
    pub all: u64,
    /// Those gone through, small ones first.
    pub tried: Vec<Group>,
    /// Every group of up to so many stations is among them.
    pub up_to: usize,
    /// Why some were left out.
    pub left_out: Option<LeftOut>,
}

/// Why groups were left out.
#[derive(Clone, Copy, Debug, PartialEq, Eq)]
pub enum LeftOut {
    /// Those of the next size would have been too many.
    TooMany,
    /// The time was over.
    Time,
    /// A signal asked for an end.
    Signal,
}

/// Equal stations of the opening.
#[derive(Clone, Copy, Debug, PartialEq, Eq)]
struct Sort {
    /// What a start line has for one of them.
    part: PartId,
    code: u8,
    copies: usize,
}

/// Explores every group, small ones first, as far as the limits allow, and shows
/// each when it is done with.
///
/// # Errors
///
/// Where the engine does not do what was foretold.
pub fn groups(
    table: &Table,
    program: &Program,
    questions: &Questions,
    limits: Limits,
    progress: &mut Progress<'_>,
    show: &mut dyn FnMut(&Group),
) -> Result<Groups, Contradiction> {
    let mut program = program.clone();
    program.choices = None;
    let sorts = sorts(table, &mut program);
    let sizes = sizes(&sorts);
    let mut groups = Groups {
        stations: sorts.iter().map(|sort| sort.copies).sum(),
        all: all_but_the_empty(&sizes),
        tried: Vec::new(),
        up_to: 0,
        left_out: None,
    };
    for (size, number) in sizes.into_iter().enumerate() {
        // The empty group is one only where there is no other.
        if size == 0 && groups.stations > 0 {
            continue;
        }
        let so_far = u128::try_from(groups.tried.len()).unwrap_or(u128::MAX);
        if number.saturating_add(so_far) > u128::try_from(MOST_GROUPS).unwrap_or(0) {
            groups.left_out = Some(LeftOut::TooMany);
            return Ok(groups);
        }
        for chosen in of_size(&sorts, size) {
            groups.left_out = match limits.met(0) {
                Some(Cut::Time) => Some(LeftOut::Time),
                Some(Cut::Signal) => Some(LeftOut::Signal),
                _ => None,
            };
            if groups.left_out.is_some() {
                return Ok(groups);
            }
            let group = explore(&program, &chosen, questions, limits, progress)?;
            show(&group);
            groups.tried.push(group);
        }
        groups.up_to = size;
    }
    Ok(groups)
}

/// The stations of the opening, equal ones together, in the order in which the
/// first of them stands. One that is all of a rule is called by that rule.
fn sorts(table: &Table, program: &mut Program) -> Vec<Sort> {
    let model = Model::of(table);
    let parts = opened_parts(program, program.start);
    let terms = opened_terms(table, table.start());
    let mut sorts: Vec<Sort> = Vec::new();
    for ((part, rule), term) in parts.into_iter().zip(terms) {
        let station = match table.term(term) {
            Term::Put { tray } => Station::Putting(tray),
            _ => Station::Waiting(term),
        };
        let Some(code) = model.code(&station) else {
            continue;
        };
        if let Some(sort) = sorts.iter_mut().find(|sort| sort.code == code) {
            sort.copies += 1;
            continue;
        }
        let part = match rule.filter(|rule| opens_one(program, *rule)) {
            Some(rule) => program.add(PartKind::Named(rule), Span::default()),
            None => part,
        };
        sorts.push(Sort {
            part,
            code,
            copies: 1,
        });
    }
    sorts
}

fn opens_one(program: &Program, rule: usize) -> bool {
    let body = program.definitions.get(rule).map(|it| it.body);
    body.is_some_and(|body| opened_parts(program, body).len() == 1)
}

/// How many groups there are of each size, that of no station first. All of 64
/// stations make 2^64 groups.
fn sizes(sorts: &[Sort]) -> Vec<u128> {
    let mut sizes = vec![1];
    for sort in sorts {
        let mut with = vec![0; sizes.len() + sort.copies];
        for (size, number) in sizes.iter().enumerate() {
            for sum in with.iter_mut().skip(size).take(sort.copies + 1) {
                *sum += number;
            }
        }
        sizes = with;
    }
    sizes
}

fn all_but_the_empty(sizes: &[u128]) -> u64 {
    let all: u128 = sizes.iter().skip(1).sum();
    u64::try_from(all).unwrap_or(u64::MAX).max(1)
}

/// The groups of a size: the stations that are in it, and how many of each.
fn of_size(sorts: &[Sort], size: usize) -> Vec<Vec<(PartId, usize)>> {
    let room: usize = sorts.iter().map(|sort| sort.copies).sum();
    let Some((first, rest)) = sorts.split_first().filter(|_| size > 0) else {
        return if size == 0 { vec![vec![]] } else { vec![] };
    };
    if room < size {
        return Vec::new();
    }
    let mut groups = Vec::new();
    for number in (0..=first.copies.min(size)).rev() {
        for others in of_size(rest, size - number) {
            let mut group = vec![(first.part, number)];
            group.retain(|(_, number)| *number > 0);
            group.extend(others);
            groups.push(group);
        }
    }
    groups
}

fn explore(
    program: &Program,
    chosen: &[(PartId, usize)],
    questions: &Questions,
    limits: Limits,
    progress: &mut Progress<'_>,
) -> Result<Group, Contradiction> {
    let program = started_with(program, chosen);
    let at_odds = |what: &str| Contradiction {
        what: what.to_owned(),
    };
    let table = Table::read(&assemble(&program).bytes)
        .map_err(|_| at_odds("the table of a group is not accepted"))?;
    if !means(&table, &program) {
        return Err(at_odds("the table of a group is another one"));
    }
    let questions = asked_of(questions, &program, &table)
        .ok_or_else(|| at_odds("a question cannot be read again"))?;
    let explored = investigate(&table, &questions, limits, progress);
    let facts = Collector {
        table: &table,
        program: &program,
        explored: &explored,
        questions: &questions,
        limits,
        most_ends: 0,
    };
    let answers = facts.answers()?;
    let told = |answer: &Answer| match &answer.verdict {
        Verdict::Broken(witness, _) => witness.told(&table, &program),
        _ => None,
    };
    Ok(Group {
        start: start_line(&program, chosen),
        size: chosen.iter().map(|(_, number)| number).sum(),
        situations: explored.found.situations,
        told: answers.iter().map(told).collect(),
        answers,
    })
}

/// Slots are those of a table, so that each group's questions are read anew.
fn asked_of(questions: &Questions, program: &Program, table: &Table) -> Option<Questions> {
    let binder = Binder::new(table, program).of_group();
    let mut all: Vec<&Question> = questions.all().collect();
    all.sort_by_key(|question| question.place);
    let mut again = Questions {
        only_first: questions.only_first,
        ..Questions::default()
    };
    for question in all {
        again.add(binder.bind(&question.asking).ok()?);
    }
    Some(again)
}

/// The same text with another start.
fn started_with(program: &Program, chosen: &[(PartId, usize)]) -> Program {
    let mut program = program.clone();
    let mut start = None;
    for (part, number) in chosen.iter().rev() {
        let number = u8::try_from(*number).unwrap_or(u8::MAX);
        let part = match number {
            1 => *part,
            _ => program.add(PartKind::Copies(number, *part), Span::default()),
        };
        start = Some(match start {
            None => part,
            Some(rest) => program.add(PartKind::Beside(part, rest), Span::default()),
        });
    }
    program.start = match start {
        Some(start) => start,
        None => program.add(PartKind::Nothing, Span::default()),
    };
    program
}

#[cfg(test)]
mod tests {
    use super::{of_size, sizes, Sort};

    fn sorts(copies: &[usize]) -> Vec<Sort> {
        let sort = |(part, copies): (usize, &usize)| Sort {
            part,
            code: 0,
            copies: *copies,
        };
        copies.iter().enumerate().map(sort).collect()
    }

    /// As many are made as were counted, no two alike, each of its size.
    #[test]
    fn groups_of_each_size() {
        for copies in [vec![], vec![1], vec![3, 1, 2], vec![1; 7], vec![64]] {
            let sorts = sorts(&copies);
            let sizes = sizes(&sorts);
            assert_eq!(sizes.len(), copies.iter().sum::<usize>() + 1);
            for (size, number) in sizes.into_iter().enumerate() {
                let mut groups = of_size(&sorts, size);
                for group in &groups {
                    let stations: usize = group.iter().map(|(_, number)| number).sum();
                    assert_eq!(stations, size);
                    assert!(group.iter().all(|(part, number)| *number > 0
                        && copies.get(*part).is_some_and(|copies| number <= copies)));
                }
                groups.sort();
                groups.dedup();
                assert_eq!(u128::try_from(groups.len()), Ok(number));
            }
            assert!(of_size(&sorts, copies.iter().sum::<usize>() + 1).is_empty());
        }
    }

    #[test]
    fn so_many_that_they_are_not_made() {
        let sizes = sizes(&sorts(&[1; 64]));
        assert_eq!(sizes.iter().sum::<u128>(), 1 << 64);
        assert_eq!(sizes.get(2), Some(&2016));
    }
}
