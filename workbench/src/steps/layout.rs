//! Steps in lines of a width: number, who, what the trays became, why. Where
//! there is no room for columns, one stands below the other. No word is broken.

use crate::style::Style;
use crate::text::tree::Program;

use super::fold::{Row, Told};
use super::{Change, What};

/// The reason gets so much room at least, where it is that long.
const ROOM_FOR_REMARKS: usize = 20;

/// Steps become lines.
#[derive(Clone, Copy, Debug)]
pub struct Layout<'a> {
    /// Names of trays.
    pub program: &'a Program,
    /// Colour.
    pub style: Style,
    /// How long a line may be.
    pub width: usize,
    /// How many spaces stand before each line.
    pub indent: usize,
}

/// A row in words, each cell in the pieces at which it may be parted.
struct Cells {
    number: String,
    who: Vec<String>,
    changes: Vec<String>,
    remark: Vec<String>,
    what: What,
}

/// Where the cells stand.
enum Form {
    /// Beside each other, so wide and so far apart.
    Beside {
        who: usize,
        changes: usize,
        remark: usize,
        gap: usize,
    },
    /// Who and the changes beside each other, the remark below.
    RemarkBelow { who: usize, changes: usize },
    /// Below each other.
    Below,
}

/// How long something is whole, and how long its longest piece.
#[derive(Clone, Copy)]
struct Size {
    whole: usize,
    piece: usize,
}

impl Layout<'_> {
    /// The lines of all that is told; an empty line around what is set apart.
    #[must_use]
    pub fn lines(&self, told: &[Told]) -> Vec<String> {
        let rows = |it: &Told| match it {
            Told::Row(row) => Some(self.cells(row)),
            Told::Apart(_) => None,
        };
        let cells: Vec<Cells> = told.iter().filter_map(rows).collect();
        let numbers = cells.iter().map(|it| it.number.len()).max().unwrap_or(0);
        let numbers = numbers.max(4);
        let form = self.form(&cells, numbers);
        let mut cells = cells.iter();
        let mut lines: Vec<String> = Vec::new();
        for it in told {
            match it {
                Told::Row(_) => {
                    let cells = cells.next();
                    lines.extend(
                        cells
                            .into_iter()
                            .flat_map(|it| self.row(it, numbers, &form)),
                    );
                }
                Told::Apart(apart) => {
                    if lines.last().is_some_and(|line| !line.is_empty()) {
                        lines.push(String::new());
                    }
                    lines.extend(apart.iter().cloned());
                    lines.push(String::new());
                }
            }
        }
        lines
    }

    fn cells(&self, row: &Row) -> Cells {
        let changes = match row.what {
            What::Refused(number) => vec![format!("refused {number}")],
            _ => self.changes(&row.changes),
        };
        Cells {
            number: row.number(),
            who: words(&row.who),
            changes,
            remark: words(&row.remark),
            what: row.what,
        }
    }

    /// `ballot 1 -> 0`, one piece for each tray.
    fn changes(&self, changes: &[Change]) -> Vec<String> {
        if changes.is_empty() {
            return vec!["no change".to_owned()];
        }
        let last = changes.len() - 1;
        let piece = |(at, change): (usize, &Change)| {
            let comma = if at == last { "" } else { "," };
            let Change { tray, from, to } = *change;
            format!("{} {from} -> {to}{comma}", self.program.tray_name(tray))
        };
        changes.iter().enumerate().map(piece).collect()
    }

    fn form(&self, cells: &[Cells], numbers: usize) -> Form {
        let front = self.indent + numbers + 2;
        let size = |of: fn(&Cells) -> &Vec<String>| Size {
            whole: cells
                .iter()
                .map(|it| joined_length(of(it)))
                .max()
                .unwrap_or(0),
            piece: cells
                .iter()
                .flat_map(of)
                .map(|it| length(it))
                .max()
                .unwrap_or(0),
        };
        let who = size(|it| &it.who);
        let changes = size(|it| &it.changes);
        let remark = size(|it| &it.remark);
        let short = remark.piece.max(remark.whole.min(ROOM_FOR_REMARKS));
        let room = |gap: usize| self.width.saturating_sub(front + 2 * gap);
        let narrow = who.piece.max(who.whole.min(room(2) * 2 / 5));
        // The first that fits, from what reads best on.
        let wanted = [
            (who.whole, changes.whole, remark.whole, 4),
            (who.whole, changes.whole, remark.whole, 2),
            (who.whole, changes.piece, remark.whole, 2),
            (who.whole, changes.whole, short, 2),
            (who.whole, changes.piece, short, 2),
            (narrow, changes.piece, short, 2),
        ];
        for (who, changes, remark, gap) in wanted {
            if who + changes + remark <= room(gap) {
                return Form::Beside {
                    who,
                    changes,
                    remark: room(gap) - who - changes,
                    gap,
                };
            }
        }
        for who in [who.whole, narrow] {
            if front + who + 2 + changes.piece <= self.width {
                let changes = self.width - front - who - 2;
                return Form::RemarkBelow { who, changes };
            }
        }
        Form::Below
    }

    fn row(&self, cells: &Cells, numbers: usize, form: &Form) -> Vec<String> {
        let margin = " ".repeat(self.indent);
        let front = format!("{margin}{:>numbers$}  ", cells.number);
        let below = |cell: &[String]| {
            let behind = " ".repeat(front.len() + 2);
            let lines = parted(cell, self.width.saturating_sub(behind.len()));
            lines.into_iter().map(move |line| format!("{behind}{line}"))
        };
        match *form {
            Form::Beside {
                who,
                changes,
                remark,
                gap,
            } => {
                let widths = [who, changes, remark];
                let columns = [&cells.who, &cells.changes, &cells.remark];
                self.beside(cells.what, &front, columns, widths, gap)
            }
            Form::RemarkBelow { who, changes } => {
                let columns = [&cells.who, &cells.changes, &Vec::new()];
                let mut lines = self.beside(cells.what, &front, columns, [who, changes, 0], 2);
                lines.extend(below(&cells.remark));
                lines
            }
            Form::Below => {
                let room = self.width.saturating_sub(front.len());
                let columns = [&cells.who, &Vec::new(), &Vec::new()];
                let mut lines = self.beside(cells.what, &front, columns, [room, 0, 0], 0);
                lines.extend(below(&cells.changes));
                lines.extend(below(&cells.remark));
                lines
            }
        }
    }

    /// Cells beside each other in columns of these widths.
    fn beside(
        &self,
        what: What,
        front: &str,
        cells: [&Vec<String>; 3],
        [who, changes, remark]: [usize; 3],
        gap: usize,
    ) -> Vec<String> {
        let columns = [
            parted(cells[0], who),
            parted(cells[1], changes),
            parted(cells[2], remark),
        ];
        let height = columns.iter().map(Vec::len).max().unwrap_or(0);
        let cell = |column: usize, line: usize| {
            let column = columns.get(column).and_then(|it| it.get(line));
            column.map_or("", String::as_str)
        };
        let gap = " ".repeat(gap);
        let behind = " ".repeat(front.len());
        let line = |line: usize| {
            let front = if line == 0 { front } else { &behind };
            let [name, change] = [cell(0, line), cell(1, line)];
            let after_name = " ".repeat(who.saturating_sub(length(name)));
            let after_change = " ".repeat(changes.saturating_sub(length(change)));
            let name = self.painted(what, name);
            let remark = cell(2, line);
            format!("{front}{name}{after_name}{gap}{change}{after_change}{gap}{remark}")
                .trim_end()
                .to_owned()
        };
        (0..height).map(line).collect()
    }

    fn painted(&self, what: What, words: &str) -> String {
        if words.is_empty() {
            return String::new();
        }
        match what {
            What::Commits { .. } => self.style.good(words),
            What::Fails | What::GivesUp | What::Refused(_) => self.style.bad(words),
            What::Opens => self.style.dim(words),
            What::Puts | What::Takes => self.style.bold(words),
        }
    }
}

fn length(words: &str) -> usize {
    words.chars().count()
}

fn joined_length(pieces: &[String]) -> usize {
    let letters: usize = pieces.iter().map(|it| length(it)).sum();
    letters + pieces.len().saturating_sub(1)
}

fn words(text: &str) -> Vec<String> {
    text.split_whitespace().map(str::to_owned).collect()
}

/// Pieces in lines of this length; one that is longer stands alone.
fn parted(pieces: &[String], room: usize) -> Vec<String> {
    let mut lines: Vec<String> = Vec::new();
    for piece in pieces {
        match lines.last_mut() {
            Some(line) if length(line) + 1 + length(piece) <= room => {
                line.push(' ');
                line.push_str(piece);
            }
            _ => lines.push(piece.clone()),
        }
    }
    lines
}
