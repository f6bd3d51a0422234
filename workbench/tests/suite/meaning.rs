//! Texts mean what they say: random texts are written beside a table of the
//! same meaning, which a writer of tables makes without sharing anything.
//! This looks at the step from words to tree, which no check of the program
//! itself covers.

use std::fmt::Write as _;

use reference::build::Builder;
use reference::generator::Random;
use reference::table::read_table;
use workbench::text::source::Source;
use workbench::text::understand;

use crate::planted::same_meaning;

const TRAYS: [&str; 3] = ["batch", "screen", "done"];

/// A text under way, and the table beside it.
struct Writer {
    random: Random,
    table: Builder,
    text: String,
    rules: Vec<(String, u8)>,
    plans: Vec<(String, u8)>,
}

/// How a piece may be joined: as in the grammar.
#[derive(Clone, Copy, PartialEq, Eq)]
enum Form {
    Closed,
    Open,
    Joined,
}

struct Piece {
    words: String,
    form: Form,
    term: u8,
}

fn piece(words: impl Into<String>, form: Form, term: u8) -> Piece {
    Piece {
        words: words.into(),
        form,
        term,
    }
}

impl Writer {
    fn tray(&mut self) -> (u8, &'static str) {
        let tray = self.random.byte_below(TRAYS.len());
        (tray, TRAYS[usize::from(tray)])
    }

    /// In brackets where it must be, and now and then where it need not.
    fn bracketed(&mut self, piece: &Piece, must: bool) -> String {
        if must || self.random.percent(15) {
            format!("({})", piece.words)
        } else {
            piece.words.clone()
        }
    }

    fn process(&mut self, depth: usize) -> Piece {
        let (tray, name) = self.tray();
        match self.random.below(if depth == 0 { 3 } else { 10 }) {
            0 => piece("nothing", Form::Closed, self.table.nil()),
            1 => piece(format!("put {name}"), Form::Closed, self.table.put(tray)),
            2 => match self
                .random
                .pick(&[0, 1, 2])
                .and_then(|at| self.rules.get(at))
            {
                Some((name, term)) => piece(name.as_str(), Form::Closed, *term),
                None => piece(format!("put {name}"), Form::Closed, self.table.put(tray)),
            },
            3 | 4 => {
                let then = self.process(depth - 1);
                let words = self.bracketed(&then, then.form == Form::Joined);
                let words = format!("take {name} then {words}");
                piece(words, Form::Open, self.table.take(tray, then.term))
            }
            5 => {
                let then = self.process(depth - 1);
                let words = self.bracketed(&then, then.form == Form::Joined);
                let words = format!("repeatedly take {name} then {words}");
                piece(words, Form::Open, self.table.repeated_take(tray, then.term))
            }
            6 => self.copies(depth),
            7 => {
                let body = self.ways(depth);
                let words = format!("block ({})", body.words);
                piece(words, Form::Closed, self.table.atom(body.term))
            }
            _ => self.beside(depth),
        }
    }

    fn copies(&mut self, depth: usize) -> Piece {
        let one = self.process(depth - 1);
        let count = self.random.between(2, 4);
        let words = self.bracketed(&one, one.form == Form::Joined);
        // Halves: 3 is two and one, 4 is two and two.
        let two = self.table.side_by_side(one.term, one.term);
        let term = match count {
            2 => two,
            3 => self.table.side_by_side(two, one.term),
            _ => self.table.side_by_side(two, two),
        };
        let form = if words.starts_with('(') {
            Form::Closed
        } else {
            one.form
        };
        piece(format!("{count} of {words}"), form, term)
    }

    /// Two or three parts; without brackets they group to the right.
    fn beside(&mut self, depth: usize) -> Piece {
        let first = self.process(depth - 1);
        let second = self.process(depth - 1);
        let last_must = second.form != Form::Closed;
        let left = self.bracketed(&first, first.form != Form::Closed);
        if self.random.percent(50) {
            let right = self.bracketed(&second, false);
            let words = format!("{left} beside {right}");
            return piece(
                words,
                Form::Joined,
                self.table.side_by_side(first.term, second.term),
            );
        }
        let third = self.process(depth - 1);
        let middle = self.bracketed(&second, last_must);
        let right = self.bracketed(&third, false);
        let inner = self.table.side_by_side(second.term, third.term);
        let words = format!("{left} beside {middle} beside {right}");
        piece(
            words,
            Form::Joined,
            self.table.side_by_side(first.term, inner),
        )
    }

    fn ways(&mut self, depth: usize) -> Piece {
        let (tray, name) = self.tray();
        match self.random.below(if depth == 0 { 3 } else { 8 }) {
            0 | 3 => piece("end", Form::Closed, self.table.end()),
            1 => piece("retry", Form::Closed, self.table.retry()),
            2 => match self
                .random
                .pick(&[0, 1, 2])
                .and_then(|at| self.plans.get(at))
            {
                Some((name, term)) => piece(name.as_str(), Form::Closed, *term),
                None => piece("end", Form::Closed, self.table.end()),
            },
            4 | 5 => {
                let rest = self.ways(depth - 1);
                let words = self.bracketed(&rest, rest.form == Form::Joined);
                let takes = self.random.percent(50);
                let (verb, term) = if takes {
                    ("take", self.table.rd(tray, rest.term))
                } else {
                    ("put", self.table.wt(tray, rest.term))
                };
                piece(format!("{verb} {name}, {words}"), Form::Closed, term)
            }
            _ => {
                let first = self.ways(depth - 1);
                let second = self.ways(depth - 1);
                let left = self.bracketed(&first, first.form == Form::Joined);
                let right = self.bracketed(&second, false);
                let term = self.table.or_else(first.term, second.term);
                piece(format!("{left} or else {right}"), Form::Joined, term)
            }
        }
    }

    /// A text, and the bytes of a table that means the same.
    fn whole(mut self) -> (String, Vec<u8>) {
        for number in 0..3 {
            let depth = self.random.below(3);
            if self.random.percent(50) {
                let body = self.ways(depth);
                let _ = writeln!(self.text, "plan way{number} is {}", body.words);
                self.plans.push((format!("way{number}"), body.term));
            } else {
                let body = self.process(depth);
                let _ = writeln!(self.text, "rule desk{number} is {}", body.words);
                self.rules.push((format!("desk{number}"), body.term));
            }
        }
        let start = self.process(3);
        let _ = writeln!(self.text, "start {}", start.words);
        let count = self.random.byte_between(1, 255);
        self.table.tokens(1, count);
        let trays = format!("tray batch\ntray screen has {count}\ntray done\n");
        (trays + &self.text, self.table.start(start.term))
    }
}

#[test]
fn random_texts_mean_what_they_say() {
    let mut accepted = 0;
    for seed in 0..6_000 {
        let writer = Writer {
            random: Random::new(40_000 + seed),
            table: Builder::new(),
            text: String::new(),
            rules: Vec::new(),
            plans: Vec::new(),
        };
        let (text, bytes) = writer.whole();
        // Without sharing some of them are too large for a table.
        let Ok(meant) = read_table(&bytes) else {
            continue;
        };
        let source = Source::new("a text", text.as_str());
        let understood = understand(&source)
            .unwrap_or_else(|wrong| panic!("seed {}\n{text}\n{wrong:?}", 40_000 + seed));
        let built = read_table(understood.table.bytes()).expect("an accepted table");
        assert!(
            same_meaning(&meant, &built),
            "seed {}\n{text}",
            40_000 + seed
        );
        accepted += 1;
    }
    assert!(accepted > 4_000, "{accepted}");
}
