//! The hall as it stands: trays, then stations with position and name. An open
//! attempt is its tree, one line a node.

use crate::measures::measures;
use crate::rehearsal::Moment;
use crate::stations::{takes, Attempt, Leaf, Node, Station};
use crate::style::{hung, width, Style};
use crate::table::{Counts, Table, Term};
use crate::text::tree::Program;
use crate::ways::{
    action_words, count_of, expression_words, shortage_words, shortages, tray_counts,
    trays_counted, trays_taken, within,
};

/// What a station does next, in the words of a text.
#[must_use]
pub fn doing(table: &Table, program: &Program, station: &Station) -> String {
    let term = match station {
        Station::Putting(tray) => return format!("put {}", program.tray_name(*tray)),
        Station::Waiting(term) => *term,
        Station::Attempt(attempt) => attempt.block,
    };
    match table.term(term) {
        Term::Take { tray, .. } => format!("take {}", program.tray_name(tray)),
        Term::Repeatedly { tray, .. } => format!("repeatedly take {}", program.tray_name(tray)),
        _ => "block".to_owned(),
    }
}

/// Draws boards of one hall.
#[derive(Clone, Copy, Debug)]
pub struct Board<'a> {
    /// The table.
    pub table: &'a Table,
    /// The text's tree.
    pub program: &'a Program,
    /// Colour.
    pub style: Style,
    /// Whether equal stations share a line.
    pub folds: bool,
}

/// So many equal stations share a line.
const FEWEST_FOLDED: usize = 3;

impl Board<'_> {
    /// The lines of a board, each behind so many spaces.
    #[must_use]
    pub fn lines(&self, now: &Moment, indent: usize) -> Vec<String> {
        let mut lines = self.trays(now, indent);
        lines.extend(self.stations(now, indent));
        lines
    }

    fn trays(&self, now: &Moment, indent: usize) -> Vec<String> {
        let margin = " ".repeat(indent);
        let mut numbers: Vec<u8> = self.program.trays.iter().map(|tray| tray.number).collect();
        numbers.sort_unstable();
        if numbers.is_empty() {
            return vec![format!("{margin}trays     none")];
        }
        let mut lines = Vec::new();
        let mut line = format!("{margin}trays  ");
        let empty = line.len();
        for tray in numbers {
            let count = count_of(&now.counts, tray);
            let words = format!("   {} {count}", self.program.tray_name(tray));
            if line.len() > empty && line.len() + words.len() > width() {
                let next = " ".repeat(empty);
                lines.push(std::mem::replace(&mut line, next));
            }
            line.push_str(&words);
        }
        lines.push(line);
        lines
    }

    fn stations(&self, now: &Moment, indent: usize) -> Vec<String> {
        let margin = " ".repeat(indent);
        if now.stations.is_empty() {
            return vec![format!("{margin}stations  none")];
        }
        let told: Vec<(usize, String, usize)> = (0..now.stations.len())
            .filter_map(|position| self.told_name(now, position))
            .collect();
        let widest = told.iter().map(|(_, name, _)| name.len()).max();
        let widest = widest.unwrap_or(0);
        let mut lines = Vec::new();
        for (position, name, alike) in &told {
            let Some(station) = now.stations.get(*position) else {
                continue;
            };
            let word = if lines.is_empty() { "stations" } else { "" };
            let padding = " ".repeat(widest - name.len());
            let from = now
                .names
                .origin(*position)
                .map_or(String::new(), |from| format!(" (from {from})"));
            let alike = match alike {
                0 | 1 => String::new(),
                _ => format!(" ({alike} alike)"),
            };
            let front = format!("{margin}{word:<8}  {position:>2}  {name}{padding}  ");
            let words = format!("{}{from}{alike}", self.station(station, now));
            let roomy = front.len() + 24 <= width();
            let hang = if roomy { front.len() } else { indent + 16 };
            let mut further = hung(&front, hang, &words, width()).into_iter();
            let first = further.next().unwrap_or_default();
            lines.push(first.replacen(name, &self.style.bold(name), 1));
            lines.extend(further);
            if let Station::Attempt(attempt) = station {
                lines.extend(self.attempt(attempt, now, indent + 14));
            }
        }
        lines
    }

    /// The position, the name and how many share the line; none where an equal
    /// station before it has it.
    fn told_name(&self, now: &Moment, position: usize) -> Option<(usize, String, usize)> {
        let name = now.names.name(position);
        let station = now.stations.get(position)?;
        if !self.folds || matches!(station, Station::Attempt(_)) {
            return Some((position, name, 1));
        }
        let equal: Vec<usize> = (0..now.stations.len())
            .filter(|other| {
                now.stations.get(*other) == Some(station) && now.names.alike(position, *other)
            })
            .collect();
        match equal.as_slice() {
            [first, .., last] if equal.len() >= FEWEST_FOLDED => {
                let name = format!("{name} .. {}", now.names.name(*last));
                (*first == position).then_some((position, name, equal.len()))
            }
            _ => Some((position, name, 1)),
        }
    }

    fn station(&self, station: &Station, now: &Moment) -> String {
        let term = match station {
            Station::Putting(tray) => {
                let full = count_of(&now.counts, *tray) == u8::MAX;
                let wait = if full { " (full: must wait)" } else { "" };
                return format!("about to put {}{wait}", self.program.tray_name(*tray));
            }
            Station::Attempt(attempt) => return self.opened_at(attempt),
            Station::Waiting(term) => *term,
        };
        let (tray, stays) = match self.table.term(term) {
            Term::Take { tray, .. } => (tray, ""),
            Term::Repeatedly { tray, .. } => (tray, ", and stays for the next"),
            _ => return "block, not begun".to_owned(),
        };
        let there = match count_of(&now.counts, tray) {
            0 => "empty: must wait".to_owned(),
            count => format!("{count} there"),
        };
        let tray = self.program.tray_name(tray);
        format!("about to take {tray}{stays} ({there})")
    }

    fn opened_at(&self, attempt: &Attempt) -> String {
        let trays = trays_taken(self.table, attempt.block);
        if trays.is_empty() {
            return "attempt, takes nothing".to_owned();
        }
        let counts = tray_counts(self.program, &trays, &attempt.remembers);
        format!("attempt, opened at {counts}")
    }

    /// The tree of an attempt, and behind a finished one what its commit will
    /// do.
    fn attempt(&self, attempt: &Attempt, now: &Moment, indent: usize) -> Vec<String> {
        let margin = " ".repeat(indent);
        let branches = branches_drawn(&attempt.nodes);
        let mut lines = Vec::new();
        for (number, (node, branch)) in attempt.nodes.iter().zip(branches).enumerate() {
            let front = format!("{margin}node {number:<2} {branch}");
            let words = match node {
                Node::Fork { right } => self.fork(attempt, number, *right),
                Node::Leaf(leaf) => self.leaf(attempt, leaf, width().saturating_sub(front.len())),
            };
            lines.extend(fitted(&front, &words));
        }
        if let Some(leaf) = attempt.single_leaf() {
            if self.is_end(leaf) {
                lines.extend(self.commit_rows(attempt, leaf, now, &margin));
            }
        }
        lines
    }

    fn is_end(&self, leaf: &Leaf) -> bool {
        leaf.rest.map(|rest| self.table.term(rest)) == Some(Term::End)
    }

    fn gave_up(&self, leaf: &Leaf) -> bool {
        match leaf.rest {
            None => true,
            Some(rest) => self.table.term(rest) == Term::Retry,
        }
    }

    fn fork(&self, attempt: &Attempt, number: usize, right: usize) -> String {
        let end = subtree_end(&attempt.nodes, right);
        let inside = attempt.nodes.get(number..end).unwrap_or(&[]);
        let ways: u64 = inside.iter().map(|node| self.ways_left(node)).sum();
        match attempt.nodes.get(number + 1) {
            Some(Node::Leaf(leaf)) if self.gave_up(leaf) => {
                format!("{ways} ways: the first gave up, it can be dropped")
            }
            Some(Node::Leaf(leaf)) if self.is_end(leaf) => {
                format!("{ways} ways: the first is finished, it can settle")
            }
            _ => format!("{ways} ways"),
        }
    }

    fn ways_left(&self, node: &Node) -> u64 {
        let Node::Leaf(leaf) = node else { return 0 };
        let Some(rest) = leaf.rest else { return 1 };
        let measures = measures(self.table.terms());
        measures.get(usize::from(rest)).map_or(1, |it| it.branches)
    }

    /// What is noted, and what is still to come in the room that is left.
    fn leaf(&self, attempt: &Attempt, leaf: &Leaf, room: usize) -> String {
        let noted = action_words(self.program, &leaf.log);
        let gap = if noted.is_empty() { "" } else { "  " };
        let Some(rest) = leaf.rest else {
            return format!("{noted}{gap}xx  gave up");
        };
        let lacks = match self.table.term(rest) {
            Term::NoteTake { tray, .. } => {
                let taken = count_of(&takes(&leaf.log), tray);
                let short = taken >= count_of(&attempt.remembers, tray);
                short.then(|| format!("   (will lack {})", self.program.tray_name(tray)))
            }
            _ => None,
        };
        let lacks = lacks.unwrap_or_default();
        let coming = expression_words(self.table, self.program, rest);
        let used = noted.len() + gap.len() + 4 + lacks.len();
        let coming = cut(&coming, room.saturating_sub(used));
        format!("{noted}{gap}>>  {coming}{}", self.style.bad(&lacks))
    }

    /// Needs, at opening, now; and the verdict.
    fn commit_rows(
        &self,
        attempt: &Attempt,
        leaf: &Leaf,
        now: &Moment,
        margin: &str,
    ) -> Vec<String> {
        let needs = takes(&leaf.log);
        let trays = trays_counted(&needs);
        if trays.is_empty() {
            let verdict = self.style.good("it can commit now");
            return fitted(
                &format!("{margin}needs      "),
                &format!("nothing   <- {verdict}"),
            );
        }
        let row = |word: &str, counts: &Counts, verdict: &str| {
            let cells: Vec<String> = trays
                .iter()
                .map(|tray| {
                    let name = self.program.tray_name(*tray);
                    format!("{name} {:<3}", count_of(counts, *tray))
                })
                .collect();
            let cells = cells.join("  ");
            let words = format!("{}{verdict}", cells.trim_end());
            fitted(&format!("{margin}{word:<11}"), &words)
        };
        let verdict = if within(&needs, &now.counts) {
            format!("enough: {}", self.style.good("it can commit now"))
        } else {
            let short = shortage_words(self.program, &shortages(&needs, &now.counts));
            format!("{short}: {}", self.style.bad("it will fail"))
        };
        let verdict = format!("   <- {verdict}");
        [
            row("needs", &needs, ""),
            row("at opening", &attempt.remembers, ""),
            row("now", &now.counts, &verdict),
        ]
        .concat()
    }
}

/// Words behind something, as they are where they fit, else in several lines.
fn fitted(front: &str, words: &str) -> Vec<String> {
    let line = format!("{front}{words}");
    if line.len() <= width() {
        vec![line]
    } else {
        hung(front, front.len() + 2, words, width())
    }
}

/// Words cut to a length, with dots where something is missing.
fn cut(words: &str, length: usize) -> String {
    let length = length.max(12);
    if words.len() <= length {
        return words.to_owned();
    }
    let kept: String = words.chars().take(length - 4).collect();
    format!("{} ...", kept.trim_end())
}

/// The node behind a subtree.
fn subtree_end(nodes: &[Node], node: usize) -> usize {
    let mut at = node;
    while let Some(Node::Fork { right }) = nodes.get(at) {
        at = *right;
    }
    (at + 1).min(nodes.len())
}

/// The lines that join each node to its fork.
fn branches_drawn(nodes: &[Node]) -> Vec<String> {
    let mut drawn = vec![String::new(); nodes.len()];
    let mut inner = vec![String::new(); nodes.len()];
    for (number, node) in nodes.iter().enumerate() {
        let Node::Fork { right } = node else { continue };
        let front = inner.get(number).cloned().unwrap_or_default();
        for (child, mark, below) in [(number + 1, "|- ", "|  "), (*right, "`- ", "   ")] {
            if let (Some(line), Some(front_below)) = (drawn.get_mut(child), inner.get_mut(child)) {
                *line = format!("{front}{mark}");
                *front_below = format!("{front}{below}");
            }
        }
    }
    drawn
}

#[cfg(test)]
#[allow(clippy::unwrap_used)]
mod tests {
    use super::Board;
    use crate::lesson::Lesson;
    use crate::style::{width, Style};
    use crate::text::source::Source;
    use crate::text::understand;
    use ruonfidd::Choice;

    /// The board after an attempt of the first station was split at these nodes.
    fn board(text: &str, nodes: &[u8]) -> Vec<String> {
        let understood = understand(&Source::new("", text)).unwrap();
        let (table, program) = (&understood.table, &understood.program);
        let mut lesson = Lesson::open(table, program).unwrap();
        lesson.make(Choice::Act { position: 0 }).unwrap();
        for node in nodes {
            let (position, node) = (0, *node);
            lesson.make(Choice::Inside { position, node }).unwrap();
        }
        let style = Style::PLAIN;
        let board = Board {
            table,
            program,
            style,
            folds: false,
        };
        board.lines(lesson.now(), 0)
    }

    const TEXT: &str = "tray a has 1\ntray b\nrule desk is block (\n\
        (take a, end or else take b, end) or else (put a, end or else put b, retry or else end))\n\
        start desk";

    #[test]
    fn the_tree_of_an_attempt() {
        assert_eq!(
            board(TEXT, &[0, 1, 4, 6]),
            [
                "trays     a 1   b 0",
                "stations   0  desk  attempt, opened at a 1, b 0",
                "              node 0  5 ways",
                "              node 1  |- 2 ways",
                "              node 2  |  |- >>  take a, end",
                "              node 3  |  `- >>  take b, end   (will lack b)",
                "              node 4  `- 3 ways",
                "              node 5     |- >>  put a, end",
                "              node 6     `- 2 ways",
                "              node 7        |- >>  put b, retry",
                "              node 8        `- >>  end",
            ]
        );
    }

    #[test]
    fn what_a_fork_can_do() {
        let lines = board(TEXT, &[0, 1, 2, 3]);
        let fork = lines.iter().find(|line| line.contains("node 1"));
        assert_eq!(
            fork.map(String::as_str),
            Some("              node 1  |- 2 ways: the first is finished, it can settle")
        );
        let text = TEXT.replace("take a, end or", "take b, end or");
        let lines = board(&text, &[0, 1, 2]);
        let fork = lines.iter().find(|line| line.contains("node 1"));
        assert_eq!(
            fork.map(String::as_str),
            Some("              node 1  |- 2 ways: the first gave up, it can be dropped")
        );
        let leaf = lines.iter().find(|line| line.contains("node 2"));
        assert_eq!(
            leaf.map(String::as_str),
            Some("              node 2  |  |- xx  gave up")
        );
    }

    #[test]
    fn long_ways_are_cut_and_notes_are_not() {
        let step = "put b, take a, ".repeat(8);
        let text = format!("tray a has 9\ntray b\nstart block ({step}end)");
        let cut = board(&text, &[0, 0]);
        let line = cut.iter().find(|line| line.contains("node 0")).unwrap();
        assert!(line.len() <= width() && line.ends_with(" ..."), "{line}");
        let all = board(&text, &[0; 16]);
        assert!(all.iter().all(|line| line.len() <= width()), "{all:?}");
        let words = all.join(" ");
        let words: Vec<&str> = words.split_whitespace().collect();
        assert_eq!(words.join(" ").matches("take a").count(), 8, "{all:?}");
        let text = format!("tray b\nstart block ({}end)", "put b, ".repeat(16));
        let counted = board(&text, &[0, 0, 0]);
        let line = counted.iter().find(|line| line.contains("node 0")).unwrap();
        assert!(
            line.ends_with("node 0  put b x3  >>  put b x13, end"),
            "{line}"
        );
    }
}
