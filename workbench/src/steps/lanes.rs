//! A run as a picture: a line for each station, a mark for each step, and under
//! the mark what the trays became.
//!
//! The picture is plain SVG: letters of one width, so that it can be laid out
//! without knowing the font, and shapes that differ, so that nothing rests on
//! colour.

use std::fmt::Write as _;

use crate::names::{Identity, Names};
use crate::text::tree::Program;

use super::fold::{told, Row, Told};
use super::{Change, Entry, Step, What};

/// More steps than this make a picture that nobody can read.
pub const MOST_DRAWN: usize = 400;

/// How wide a letter is, in tenths of a unit.
const LETTER: usize = 66;
/// How far lines of letters are apart.
const LINE: usize = 14;
/// What a lane has above its line, and below what stands under its marks.
const ABOVE: usize = 18;
const BELOW: usize = 12;
/// The head with the title and the numbers of the steps.
const HEAD: usize = 52;
const MARGIN: usize = 16;

/// A run that is drawn.
#[derive(Clone, Debug)]
pub struct Drawn<'a> {
    /// What stands above it.
    pub title: String,
    /// The names at the opening.
    pub opening: &'a Names,
    /// What is told of it.
    pub entries: &'a [Entry],
}

/// One line of the picture. Stations of one name that do not stand at the same
/// time share it.
#[derive(Clone, Debug)]
struct Lane {
    title: String,
    /// Who stands on it, and from which column on.
    stands: Option<(Identity, usize)>,
    /// From which column to which somebody stood there.
    stood: Vec<(usize, usize)>,
    /// The lines under its marks, at most.
    lines: usize,
}

/// A mark: at which column of which lane, and what is told there.
struct Mark<'a> {
    column: usize,
    lane: usize,
    row: &'a Row,
    under: Vec<String>,
    /// The lanes of those that it laid down.
    laid: Vec<usize>,
}

/// Where everything stands.
struct Plan<'a> {
    lanes: Vec<Lane>,
    marks: Vec<Mark<'a>>,
    columns: usize,
}

/// The picture of these runs, one below the other; none where one has too many
/// steps.
#[must_use]
pub fn picture(program: &Program, runs: &[Drawn<'_>]) -> Option<String> {
    let mut body = String::new();
    let (mut width, mut height) = (0, MARGIN);
    for run in runs {
        let rows = rows(run.entries);
        if rows.len() > MOST_DRAWN {
            return None;
        }
        let plan = plan(program, run, &rows);
        let drawn = Drawing::of(&plan);
        let _ = writeln!(body, "<g transform=\"translate(0,{height})\">");
        drawn.write(&mut body, &run.title, &plan);
        body.push_str("</g>\n");
        width = width.max(drawn.width).max(letters(&run.title) + 2 * MARGIN);
        height += drawn.height + MARGIN;
    }
    let mut picture = format!(
        "<svg xmlns=\"http://www.w3.org/2000/svg\" width=\"{width}\" height=\"{height}\" \
         viewBox=\"0 0 {width} {height}\" font-family=\"monospace\" font-size=\"11\">\n\
         <rect width=\"{width}\" height=\"{height}\" fill=\"white\"/>\n"
    );
    picture.push_str(&body);
    picture.push_str("</svg>\n");
    Some(picture)
}

fn rows(entries: &[Entry]) -> Vec<Row> {
    let rows = told(entries).into_iter().filter_map(|it| match it {
        Told::Row(row) => Some(row),
        Told::Apart(_) => None,
    });
    rows.collect()
}

fn plan<'a>(program: &Program, run: &Drawn<'_>, rows: &'a [Row]) -> Plan<'a> {
    let steps: Vec<&Step> = run
        .entries
        .iter()
        .filter_map(|entry| match entry {
            Entry::Step(step) => Some(&**step),
            _ => None,
        })
        .collect();
    let mut plan = Plan {
        lanes: Vec::new(),
        marks: Vec::new(),
        columns: 0,
    };
    for position in 0..run.opening.len() {
        if let Some(identity) = run.opening.identity(position) {
            plan.come(identity, run.opening.name(position), 0);
        }
    }
    // Column 0 is the opening.
    let mut column = 0;
    for row in rows {
        // What is refused does nothing, and is not drawn.
        let first = row.steps.first().and_then(|step| step.station.as_ref());
        let Some(lane) = first.and_then(|station| plan.lane_of(station)) else {
            continue;
        };
        column += 1;
        let (from, to) = row.numbers;
        let all = steps.get(from.saturating_sub(1)..to).unwrap_or(&[]);
        let mut laid = Vec::new();
        for step in all {
            for identity in &step.went {
                plan.go(identity, column);
            }
            for (identity, name) in &step.came {
                laid.push(plan.come(identity.clone(), name.clone(), column));
            }
        }
        laid.sort_unstable();
        laid.dedup();
        let under = under(program, row);
        if let Some(lane) = plan.lanes.get_mut(lane) {
            lane.lines = lane.lines.max(under.len());
        }
        plan.marks.push(Mark {
            column,
            lane,
            row,
            under,
            laid,
        });
    }
    plan.columns = column;
    for lane in &mut plan.lanes {
        if let Some((_, from)) = lane.stands.take() {
            lane.stood.push((from, column + 1));
        }
    }
    plan
}

impl Plan<'_> {
    fn lane_of(&self, station: &Identity) -> Option<usize> {
        self.lanes
            .iter()
            .position(|lane| lane.stands.as_ref().is_some_and(|(who, _)| who == station))
    }

    /// A station comes at a column: its lane.
    fn come(&mut self, station: Identity, title: String, column: usize) -> usize {
        let free = |lane: &Lane| lane.stands.is_none() && lane.title == title;
        let at = self.lanes.iter().position(free);
        let at = at.unwrap_or_else(|| {
            self.lanes.push(Lane {
                title,
                stands: None,
                stood: Vec::new(),
                lines: 1,
            });
            self.lanes.len() - 1
        });
        if let Some(lane) = self.lanes.get_mut(at) {
            lane.stands = Some((station, column));
        }
        at
    }

    fn go(&mut self, station: &Identity, column: usize) {
        let lane = self.lane_of(station);
        if let Some(lane) = lane.and_then(|at| self.lanes.get_mut(at)) {
            if let Some((_, from)) = lane.stands.take() {
                lane.stood.push((from, column));
            }
        }
    }
}

/// What stands under a mark.
fn under(program: &Program, row: &Row) -> Vec<String> {
    let mut lines = Vec::new();
    if row.times > 1 {
        lines.push(format!("{} times", row.times));
    }
    let what = match row.what {
        _ if row.steps.len() > 1 => String::new(),
        What::Commits { of: 1, .. } => "commits".to_owned(),
        What::Commits { way, .. } => format!("way {way}"),
        other => other.words().trim().to_owned(),
    };
    if !what.is_empty() {
        lines.push(what);
    }
    for Change { tray, from, to } in &row.changes {
        lines.push(format!("{} {from} -> {to}", program.tray_name(*tray)));
    }
    lines
}

/// How wide letters are.
fn letters(text: &str) -> usize {
    (text.chars().count() * LETTER).div_ceil(10)
}

/// Numbers for everything that is drawn.
struct Drawing {
    /// The middle of each column.
    columns: Vec<usize>,
    /// The height of each lane's line.
    lanes: Vec<usize>,
    width: usize,
    height: usize,
}

impl Drawing {
    fn of(plan: &Plan<'_>) -> Drawing {
        let titles = plan.lanes.iter().map(|lane| letters(&lane.title)).max();
        let mut widths = vec![24; plan.columns + 2];
        for mark in &plan.marks {
            let numbers = letters(&mark.row.number());
            let under = mark.under.iter().map(|line| letters(line)).max();
            let wanted = under.unwrap_or(0).max(numbers) + 14;
            if let Some(width) = widths.get_mut(mark.column) {
                *width = wanted.max(*width);
            }
        }
        let mut right = MARGIN + titles.unwrap_or(0) + 8;
        let mut columns = Vec::new();
        for width in widths {
            columns.push(right + width / 2);
            right += width;
        }
        let mut down = HEAD;
        let mut lanes = Vec::new();
        for lane in &plan.lanes {
            lanes.push(down + ABOVE);
            down += ABOVE + LINE * lane.lines + BELOW;
        }
        Drawing {
            columns,
            lanes,
            width: right + MARGIN,
            height: down,
        }
    }

    fn x(&self, column: usize) -> usize {
        self.columns.get(column).copied().unwrap_or(0)
    }

    fn y(&self, lane: usize) -> usize {
        self.lanes.get(lane).copied().unwrap_or(0)
    }

    fn write(&self, out: &mut String, title: &str, plan: &Plan<'_>) {
        let _ = writeln!(
            out,
            "<text x=\"{MARGIN}\" y=\"16\" font-size=\"13\" font-weight=\"bold\">{}</text>",
            escaped(title)
        );
        for (at, lane) in plan.lanes.iter().enumerate() {
            self.lane(out, at, lane);
        }
        for mark in &plan.marks {
            self.laid(out, mark);
        }
        for mark in &plan.marks {
            self.mark(out, mark);
        }
    }

    fn lane(&self, out: &mut String, at: usize, lane: &Lane) {
        let y = self.y(at);
        let title = escaped(&lane.title);
        let _ = writeln!(out, "<text x=\"{MARGIN}\" y=\"{}\">{title}</text>", y + 4);
        for (from, to) in &lane.stood {
            let (from, to) = (self.x(*from), self.x(*to));
            let _ = writeln!(
                out,
                "<line x1=\"{from}\" y1=\"{y}\" x2=\"{to}\" y2=\"{y}\" stroke=\"#a0aec0\" \
                 stroke-width=\"2\"/>"
            );
        }
    }

    /// Thin lines to the lanes of what a step laid down.
    fn laid(&self, out: &mut String, mark: &Mark<'_>) {
        let (x, y) = (self.x(mark.column), self.y(mark.lane));
        for lane in mark.laid.iter().filter(|lane| **lane != mark.lane) {
            let to = self.y(*lane);
            let _ = writeln!(
                out,
                "<line x1=\"{x}\" y1=\"{y}\" x2=\"{x}\" y2=\"{to}\" stroke=\"#cbd5e0\" \
                 stroke-dasharray=\"2 3\"/>"
            );
        }
    }

    fn mark(&self, out: &mut String, mark: &Mark<'_>) {
        let (x, y) = (self.x(mark.column), self.y(mark.lane));
        let row = mark.row;
        let remark = match row.remark.as_str() {
            "" => String::new(),
            remark => format!(": {remark}"),
        };
        let _ = writeln!(
            out,
            "<g><title>{}</title>",
            escaped(&format!("{} {}{remark}", row.number(), row.who))
        );
        let _ = writeln!(
            out,
            "<text x=\"{x}\" y=\"{}\" text-anchor=\"middle\" fill=\"#718096\">{}</text>",
            HEAD - 14,
            row.number()
        );
        let _ = writeln!(out, "{}", shape(row.what, x, y));
        // Letters are read over the lines behind them.
        for (line, words) in (1..).zip(&mark.under) {
            let _ = writeln!(
                out,
                "<text x=\"{x}\" y=\"{}\" text-anchor=\"middle\" stroke=\"white\" \
                 stroke-width=\"3\" paint-order=\"stroke\">{}</text>",
                y + 5 + LINE * line,
                escaped(words)
            );
        }
        out.push_str("</g>\n");
    }
}

/// A put is full, a take is hollow, a commit is a square, what came to nothing is
/// a cross, an opening is small.
fn shape(what: What, x: usize, y: usize) -> String {
    let (left, right) = (x - 5, x + 5);
    let (top, bottom) = (y - 5, y + 5);
    match what {
        What::Puts => format!("<circle cx=\"{x}\" cy=\"{y}\" r=\"5\" fill=\"#2b6cb0\"/>"),
        What::Takes => format!(
            "<circle cx=\"{x}\" cy=\"{y}\" r=\"5\" fill=\"white\" stroke=\"#2b6cb0\" \
             stroke-width=\"2\"/>"
        ),
        What::Commits { .. } => {
            format!("<rect x=\"{left}\" y=\"{top}\" width=\"10\" height=\"10\" fill=\"#2f855a\"/>")
        }
        What::GivesUp | What::Fails | What::Refused(_) => format!(
            "<path d=\"M{left} {top}L{right} {bottom}M{left} {bottom}L{right} {top}\" \
             stroke=\"#c53030\" stroke-width=\"3\"/>"
        ),
        What::Opens => format!(
            "<circle cx=\"{x}\" cy=\"{y}\" r=\"3\" fill=\"white\" stroke=\"#718096\" \
             stroke-width=\"2\"/>"
        ),
    }
}

/// Letters that mean something in a picture, written out.
fn escaped(text: &str) -> String {
    let mut escaped = String::new();
    for letter in text.chars() {
        match letter {
            '&' => escaped.push_str("&amp;"),
            '<' => escaped.push_str("&lt;"),
            '>' => escaped.push_str("&gt;"),
            '"' => escaped.push_str("&quot;"),
            '\'' => escaped.push_str("&#39;"),
            _ => escaped.push(letter),
        }
    }
    escaped
}
