//! What can be chosen, numbered from 1 on. Equal stations that would do the same
//! are one item.

use ruonfidd::{Choice, Moved};

use super::{Failure, Playing};
use crate::board::doing;
use crate::lesson::choice_words;
use crate::rehearsal::position_of;
use crate::rules::Rule;
use crate::stations::{Node, Station};
use crate::steps::fold::{self, Row, Told};
use crate::steps::layout::Layout;
use crate::steps::{Steps, What};
use crate::style::{hung, width};
use crate::table::Term;

/// Something that can be chosen.
#[derive(Clone, Debug)]
pub(super) struct Item {
    /// The choice, of a whole step the first.
    pub(super) choice: Choice,
    pub(super) rule: Rule,
    /// The names of the equal stations that could do it, where there are several.
    alike: Vec<String>,
}

impl Item {
    pub(super) fn position(&self) -> u8 {
        position(self.choice)
    }

    /// `20 alike, up to desk 20`
    fn alike_words(&self) -> String {
        match self.alike.as_slice() {
            [] | [_] => String::new(),
            [.., last] => format!("{} alike, up to {last}", self.alike.len()),
        }
    }
}

/// The position that a choice names.
pub(super) fn position(choice: Choice) -> u8 {
    u8::try_from(position_of(choice)).unwrap_or(u8::MAX)
}

impl Playing<'_, '_, '_> {
    /// What can be chosen: single moves, or for each station its step.
    pub(super) fn listed(&self) -> Vec<Item> {
        let mut items: Vec<Item> = Vec::new();
        let now = self.state.lesson.now();
        for (choice, rule) in self.state.lesson.rehearsal().accepted() {
            let place = position_of(choice);
            let listed = |item: &Item| usize::from(item.position()) == place;
            if !self.moves && items.iter().any(listed) {
                continue;
            }
            let equal = items.iter_mut().find(|item| {
                let other = usize::from(item.position());
                other != place && self.equal(other, place)
            });
            match equal {
                Some(item) => item.alike.push(now.names.name(place)),
                None => items.push(Item {
                    choice,
                    rule,
                    alike: vec![now.names.name(place)],
                }),
            }
        }
        items
    }

    /// Whether two stations have one name but for the number, and do the same. An
    /// attempt is like no other: it has a history.
    fn equal(&self, one: usize, other: usize) -> bool {
        let now = self.state.lesson.now();
        let [first, second] = [one, other].map(|at| now.stations.get(at));
        first == second
            && !matches!(first, Some(Station::Attempt(_)))
            && now.names.alike(one, other)
    }

    /// The list, with the suggestion marked: it is the first.
    pub(super) fn menu(&mut self) -> Result<(), Failure> {
        let suggestion = self.state.lesson.rehearsal().suggestion();
        let suggestion = suggestion
            .map_err(|_| Failure::Contradiction("the engine refuses its own hall".to_owned()))?;
        let listed = self.listed();
        if listed.is_empty() {
            writeln!(
                self.streams.out,
                "The hall is still: no choice is accepted."
            )?;
        }
        let lines = if self.moves {
            self.moves_lines(&listed, suggestion)
        } else {
            self.step_lines(&listed, suggestion)
        };
        for line in lines {
            writeln!(self.streams.out, "{line}")?;
        }
        Ok(())
    }

    fn moves_lines(&self, listed: &[Item], suggestion: Option<Choice>) -> Vec<String> {
        let mut lines = Vec::new();
        for (number, item) in (1..).zip(listed) {
            let words = choice_words(self.state.lesson.now(), item.choice);
            let what = self.few_words(item.choice, item.rule);
            let alike = item.alike_words();
            let mark = if Some(item.choice) == suggestion {
                "(suggested)"
            } else {
                ""
            };
            let front = format!("{number:>4}  {words:<28} ");
            let words = [what.as_str(), &alike, mark];
            let words: Vec<&str> = words.into_iter().filter(|it| !it.is_empty()).collect();
            let line = format!("{front}{}", words.join("   "));
            if line.len() <= width() {
                lines.push(line);
            } else {
                lines.extend(hung(&front, 8, &words.join(" "), width()));
            }
        }
        lines
    }

    /// What each step would do, tried on a copy.
    fn step_lines(&self, listed: &[Item], suggestion: Option<Choice>) -> Vec<String> {
        let mut rows = Vec::new();
        for (number, item) in (1..).zip(listed) {
            let Some(mut row) = self.foretold(item) else {
                continue;
            };
            row.numbers = (number, number);
            let suggested = suggestion.map(position) == Some(item.position());
            let mark = if suggested { "(suggested)" } else { "" };
            let words = [mark, &row.remark, &item.alike_words()];
            let words: Vec<&str> = words.into_iter().filter(|it| !it.is_empty()).collect();
            row.remark = words.join("; ");
            rows.push(Told::Row(row));
        }
        let layout = Layout {
            program: self.program,
            style: self.streams.style,
            width: width(),
            indent: 0,
        };
        layout.lines(&rows)
    }

    /// The row that a whole step would be told by.
    fn foretold(&self, item: &Item) -> Option<Row> {
        let mut lesson = self.state.lesson.clone();
        let mut steps: Steps<'_> = self.state.steps.clone();
        let told = steps.entries().len();
        let whole = lesson.make_whole(item.position()).ok()?;
        for happened in &whole.moved {
            steps.moved(happened);
        }
        let rows = fold::unfolded(steps.entries(), told);
        let mut row = rows.into_iter().find_map(|it| match it {
            Told::Row(row) => Some(row),
            Told::Apart(_) => None,
        });
        if let (Some((_, refusal)), Some(row)) = (whole.refused, &mut row) {
            row.what = What::Refused(refusal.number);
            row.remark = String::from("at its end");
        }
        row
    }

    /// What a choice would do, in a few words.
    fn few_words(&self, choice: Choice, rule: Rule) -> String {
        let hall = self.state.lesson.rehearsal();
        let place = position_of(choice);
        let station = hall.now().stations.get(place);
        let from = hall
            .now()
            .names
            .origin(place)
            .map_or(String::new(), |from| format!(" (from {from})"));
        let next_tray = || self.next_tray(choice).unwrap_or_default();
        let what = match rule.number {
            Moved::ATST => "open an attempt".to_owned(),
            Moved::ATRE => "give up and wait again".to_owned(),
            Moved::ATFAIL => "try to commit: will fail".to_owned(),
            Moved::ATOK => "commit".to_owned(),
            Moved::ARDOK => format!("note to take {}", next_tray()),
            Moved::ARDF => format!("note to take {}: will lack it", next_tray()),
            Moved::AWR => format!("note to put {}", next_tray()),
            Moved::AOI => "split into its ways".to_owned(),
            Moved::AOF => "drop the way that gave up".to_owned(),
            Moved::AOE => "settle on the finished way".to_owned(),
            _ => station.map_or(String::new(), |station| {
                doing(hall.table(), hall.program(), station)
            }),
        };
        format!("{what}{from}")
    }

    /// The tray of the step that comes next at a node.
    fn next_tray(&self, choice: Choice) -> Option<String> {
        let Choice::Inside { position, node } = choice else {
            return None;
        };
        let hall = self.state.lesson.rehearsal();
        let station = hall.now().stations.get(usize::from(position))?;
        let Station::Attempt(attempt) = station else {
            return None;
        };
        let Node::Leaf(leaf) = attempt.nodes.get(usize::from(node))? else {
            return None;
        };
        match hall.table().term(leaf.rest?) {
            Term::NoteTake { tray, .. } | Term::NotePut { tray, .. } => {
                Some(hall.program().tray_name(tray))
            }
            _ => None,
        }
    }
}
