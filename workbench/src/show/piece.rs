//! Pieces of readable text: how they may be joined, and how they are laid out
//! in lines.

/// A line of a readable text is at most so long, where its names allow it.
pub(super) const LONGEST_LINE: usize = 88;
/// What stands before a definition's body, with a name of usual length.
pub(super) const DEFINITION: usize = 14;
/// A block of several ways stands in one line where it is not longer than this.
const ONE_LINE: usize = 48;

const BLOCK: &str = "block (";
const WAY: &str = "    ";
const OR_ELSE: &str = "  or else";
const BESIDE: &str = "  beside ";

/// How a piece of text may be joined to others.
#[derive(Clone, Copy, PartialEq, Eq)]
pub(super) enum Form {
    /// Needs no brackets anywhere.
    Closed,
    /// Has a `then`: no `beside` may follow.
    Open,
    /// Two or more parts, joined by `beside` or `or else`.
    Joined,
}

/// What a piece is made of where it is laid out in lines.
#[derive(Clone)]
enum Parts {
    /// Words that are not parted.
    None,
    /// Several ways.
    Ways(Vec<String>),
    /// What stands before a block, and the ways of the block.
    Block(String, Vec<String>),
    /// Stations side by side.
    Stations(Vec<String>),
}

/// A term as it is written where it is used.
#[derive(Clone)]
pub(super) struct Piece {
    pub(super) words: String,
    /// How many times which term it is, grouped in halves: `words` is `n of ..`.
    pub(super) copies: Option<(u8, u8)>,
    form: Form,
    parts: Parts,
}

impl Piece {
    fn new(words: String, form: Form, parts: Parts) -> Piece {
        Piece {
            words,
            copies: None,
            form,
            parts,
        }
    }

    /// Words that need no brackets: a name, `nothing`, `put T`, a way.
    pub(super) fn closed(words: impl Into<String>) -> Piece {
        Piece::new(words.into(), Form::Closed, Parts::None)
    }

    /// `take T, M` and its like: `before` is what stands before M.
    pub(super) fn step(before: &str, rest: &Piece) -> Piece {
        Piece::closed(format!("{before}{}", rest.as_single()))
    }

    /// `take T then P` and its like: `before` is what stands before P.
    pub(super) fn take(before: &str, then: &Piece) -> Piece {
        let parts = match &then.parts {
            Parts::Block(head, ways) => Parts::Block(format!("{before}{head}"), ways.clone()),
            _ => Parts::None,
        };
        Piece::new(format!("{before}{}", then.as_single()), Form::Open, parts)
    }

    /// `block ( M )`
    pub(super) fn block(body: &Piece) -> Piece {
        let parts = match &body.parts {
            Parts::Ways(ways) => Parts::Block(String::new(), ways.clone()),
            _ => Parts::None,
        };
        Piece::new(format!("{BLOCK}{})", body.words), Form::Closed, parts)
    }

    /// `M or else N`, which groups to the right.
    pub(super) fn or_else(first: &Piece, others: &Piece) -> Piece {
        let first = first.as_single();
        let words = format!("{first} or else {}", others.words);
        let mut ways = vec![first];
        match &others.parts {
            Parts::Ways(more) => ways.extend(more.iter().cloned()),
            _ => ways.push(others.words.clone()),
        }
        Piece::new(words, Form::Joined, Parts::Ways(ways))
    }

    /// `P beside Q`, which groups to the right.
    pub(super) fn beside(first: &Piece, others: &Piece) -> Piece {
        let first = first.as_closed();
        let words = format!("{first} beside {}", others.words);
        let mut stations = vec![first];
        match &others.parts {
            Parts::Stations(more) => stations.extend(more.iter().cloned()),
            _ => stations.push(others.words.clone()),
        }
        Piece::new(words, Form::Joined, Parts::Stations(stations))
    }

    /// `n of P`
    pub(super) fn several(count: u8, one: u8, piece: &Piece) -> Piece {
        Piece {
            copies: Some((count, one)),
            ..Piece::closed(format!("{count} of {}", piece.as_closed()))
        }
    }

    /// For a place where nothing joined may stand.
    fn as_single(&self) -> String {
        match self.form {
            Form::Joined => format!("({})", self.words),
            _ => self.words.clone(),
        }
    }

    /// For a place where nothing joined and no `then` may stand.
    fn as_closed(&self) -> String {
        match self.form {
            Form::Closed => self.words.clone(),
            _ => format!("({})", self.words),
        }
    }

    /// How wide its widest line is, as a definition.
    pub(super) fn width(&self) -> usize {
        let widest = |lines: &[String]| lines.iter().map(String::len).max().unwrap_or(0);
        let line = match &self.parts {
            Parts::None => self.words.len(),
            Parts::Ways(ways) => WAY.len() + widest(ways),
            Parts::Block(head, ways) => (head.len() + BLOCK.len()).max(WAY.len() + widest(ways)),
            Parts::Stations(stations) => BESIDE.len() + widest(stations),
        };
        line.min(self.words.len())
    }

    /// The words of a definition, behind a space; in lines where one is not
    /// enough.
    pub(super) fn laid_out(&self) -> String {
        let fits = DEFINITION + self.words.len() <= LONGEST_LINE;
        let or_else = format!("\n{OR_ELSE}\n{WAY}");
        match &self.parts {
            Parts::Ways(ways) if !fits => format!("\n{WAY}{}", ways.join(&or_else)),
            Parts::Block(head, ways) if self.words.len() > ONE_LINE => {
                format!(" {head}{BLOCK}\n{WAY}{}\n)", ways.join(&or_else))
            }
            Parts::Stations(stations) if !fits => format!(" {}", filled(stations)),
            _ => format!(" {}", self.words),
        }
    }
}

/// Stations side by side, as many in a line as it has room for.
fn filled(stations: &[String]) -> String {
    let mut text = String::new();
    let mut line = DEFINITION;
    for (index, station) in stations.iter().enumerate() {
        let joint = if index == 0 { "" } else { " beside " };
        if index > 0 && line + joint.len() + station.len() > LONGEST_LINE {
            text.push('\n');
            text.push_str(BESIDE);
            line = BESIDE.len();
        } else {
            text.push_str(joint);
            line += joint.len();
        }
        text.push_str(station);
        line += station.len();
    }
    text
}
