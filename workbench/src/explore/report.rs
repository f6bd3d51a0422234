//! An exploration told in a trainer's words.

use std::fmt::Write as _;

use crate::steps::Entry;
use crate::style::{wrapped, Style};
use crate::table::Table;
use crate::text::tree::Program;

use super::facts::{Again, Answer, Asked, End, Facts, ForEver, LastRound, Verdict};
use super::investigate::{Doubt, Exact, Explored};
use super::replay::Witness;
use super::search::Cut;
use super::waiting;
use super::ways_told::Ways;

/// What the words are about.
#[derive(Clone, Copy, Debug)]
pub struct Report<'a> {
    /// The file's name.
    pub name: &'a str,
    /// Its table.
    pub table: &'a Table,
    /// Its text.
    pub program: &'a Program,
    /// What was found.
    pub explored: &'a Explored,
    /// What is to be said of it.
    pub facts: &'a Facts,
    /// How long it took.
    pub seconds: f64,
    /// Colour.
    pub style: Style,
    /// Whether ways are told choice by choice, and not by steps.
    pub moves: bool,
}

impl Report<'_> {
    /// All of it.
    #[must_use]
    pub fn text(&self) -> String {
        let mut lines = self.head();
        lines.push(String::new());
        lines.extend(self.ends());
        lines.push(String::new());
        lines.extend(self.summary());
        lines.extend(self.for_ever());
        lines.extend(self.limits());
        for answer in &self.facts.answers {
            lines.push(String::new());
            lines.extend(self.answer(answer));
        }
        let mut text = lines.join("\n");
        text.push('\n');
        text
    }

    /// The answers alone, a line each.
    #[must_use]
    pub fn answers(&self) -> String {
        let mut text = String::new();
        for answer in &self.facts.answers {
            let _ = writeln!(text, "{}: {}", answer.told(), verdict(answer, self.style));
        }
        text
    }

    fn complete(&self) -> bool {
        self.explored.complete()
    }

    fn ways(&self) -> Ways<'_> {
        Ways {
            program: self.program,
            style: self.style,
            moves: self.moves,
        }
    }

    /// A way, below what it leads to.
    fn way(&self, witness: &Witness) -> Vec<String> {
        self.ways().lines(self.table, witness, BELOW)
    }

    fn head(&self) -> Vec<String> {
        let found = &self.explored.found;
        let seen = if self.complete() {
            "all of them seen"
        } else {
            "and there may be more"
        };
        let mut head = wrapped(
            "",
            &format!(
                "{}: {}, {} between them, {seen}{}.",
                self.style.bold(self.name),
                counted(found.situations, "situation"),
                counted(found.marks.steps, "step"),
                self.cost(),
            ),
        );
        let exact = self.explored.exact;
        let word = if exact.yes() {
            self.style.good("yes")
        } else {
            self.style.bad("no")
        };
        head.extend(wrapped(
            "",
            &format!("exact: {word} ({})", exact_words(exact)),
        ));
        head
    }

    /// What it took, where somebody had to wait for it.
    fn cost(&self) -> String {
        if self.seconds < 1.0 {
            return String::new();
        }
        let memory = megabytes(self.explored.found.memory());
        format!(" ({:.1} s, {memory})", self.seconds)
    }

    fn ends(&self) -> Vec<String> {
        let found = &self.explored.found;
        let ends = u64::try_from(found.ends.len()).unwrap_or(u64::MAX);
        let seen = if self.complete() { "" } else { " seen" };
        let mut lines = match (ends, self.complete()) {
            (0, true) => {
                vec!["No end: whatever happens, something can always follow.".to_owned()]
            }
            (0, false) => vec!["No end was seen.".to_owned()],
            _ => vec![format!(
                "{}{seen}, of {} by what the trays have:",
                counted(ends, "end"),
                counted(u64::try_from(self.facts.sorts).unwrap_or(0), "sort"),
            )],
        };
        for (number, end) in (1..).zip(&self.facts.ends) {
            lines.extend(self.end(number, end));
        }
        let Facts { ends, ends_cut, .. } = self.facts;
        lines.extend(not_told(self.facts.sorts, ends.len(), *ends_cut));
        lines.extend(self.rounds());
        lines
    }

    /// The rounds that are never left.
    fn rounds(&self) -> Vec<String> {
        let (rounds, told) = match (&self.explored.rounds, &self.facts.rounds) {
            (Some(rounds), Some(told)) => (rounds, told),
            _ if self.complete() => {
                return vec!["Whether there are rounds that are never left is not known.".to_owned()]
            }
            _ => return Vec::new(),
        };
        let number = |count: usize| u64::try_from(count).unwrap_or(u64::MAX);
        let head = match rounds.number {
            0 => return Vec::new(),
            1 => "1 round that is never left:".to_owned(),
            many => format!(
                "{} rounds that are never left, of {} by what the trays have:",
                grouped(number(many)),
                counted(number(rounds.sorts.len()), "sort")
            ),
        };
        let mut lines = vec![String::new(), head];
        for (number, round) in (1..).zip(told) {
            lines.extend(self.round(number, round));
        }
        let cut = self.facts.rounds_cut;
        lines.extend(not_told(rounds.sorts.len(), told.len(), cut));
        lines
    }

    fn round(&self, number: usize, round: &LastRound) -> Vec<String> {
        let many = match round.rounds {
            1 => String::new(),
            many => format!("; {many} rounds, the nearest"),
        };
        let mut lines = wrapped(
            &format!("{number:>3}  "),
            &format!(
                "{}{many} {}, {}",
                self.style.bold(&self.extremes(&round.extremes)),
                when(&round.witness),
                counted(round.situations, "situation")
            ),
        );
        lines.extend(wrapped("     ", &round.who.told()));
        lines.extend(self.way(&round.witness));
        lines
    }

    /// The trays that ever have something in a round.
    fn extremes(&self, extremes: &[(u8, u8)]) -> String {
        let trays = self.explored.model.trays().iter().zip(extremes);
        let words: Vec<String> = trays
            .filter(|(tray, (_, most))| *most > 0 && !self.program.tray_may_stay(**tray))
            .map(|(tray, (least, most))| {
                let name = self.program.tray_name(*tray);
                if least == most {
                    format!("{name} {least}")
                } else {
                    format!("{name} {least} to {most}")
                }
            })
            .collect();
        self.words_or_empty(&words)
    }

    /// What is told of trays, of which those that may stay are left out.
    fn words_or_empty(&self, words: &[String]) -> String {
        let some_stay = self.program.trays.iter().any(|tray| tray.may_stay);
        match (words.is_empty(), some_stay) {
            (false, _) => words.join(", "),
            (true, false) => "all trays empty".to_owned(),
            (true, true) => "nothing but what may stay".to_owned(),
        }
    }

    fn end(&self, number: usize, end: &End) -> Vec<String> {
        let first = format!("{number:>3}  ");
        let many = match end.situations {
            1 => String::new(),
            many => format!("; {many} situations, the nearest"),
        };
        let mut lines = wrapped(
            &first,
            &format!(
                "{}{many} {}",
                self.style.bold(&self.counts(&end.counts)),
                when(&end.witness)
            ),
        );
        let left = waiting::told(&end.left);
        if left.is_empty() {
            let some = !end.left.is_empty();
            let but = if some { waiting::BUT_STAYING } else { "" };
            lines.push(format!("     nobody is left{but}"));
        }
        for line in left {
            lines.extend(wrapped("     ", &line));
        }
        lines.extend(self.way(&end.witness));
        lines
    }

    /// The trays that have something.
    fn counts(&self, counts: &[u8]) -> String {
        let trays = self.explored.model.trays().iter().zip(counts);
        let words: Vec<String> = trays
            .filter(|(tray, count)| **count > 0 && !self.program.tray_may_stay(**tray))
            .map(|(tray, count)| format!("{} {count}", self.program.tray_name(*tray)))
            .collect();
        self.words_or_empty(&words)
    }

    fn summary(&self) -> Vec<String> {
        let facts = self.facts;
        let trays: Vec<String> = facts
            .trays
            .iter()
            .map(|(name, least, most)| {
                if least == most {
                    format!("{name} always {least}")
                } else {
                    format!("{name} {least} to {most}")
                }
            })
            .collect();
        let taken: Vec<String> = facts
            .never_taken
            .iter()
            .map(|(block, way, words)| match words.as_str() {
                "" => format!("way {way} of {block} (no steps)"),
                words => format!("way {way} of {block} ({words})"),
            })
            .collect();
        let so_far = if self.complete() {
            ""
        } else {
            ", as far as seen"
        };
        let mut lines = wrapped(&format!("trays{so_far}: "), &list(&trays, ", "));
        lines.extend(wrapped(
            &format!("stations that never act{so_far}: "),
            &list(&facts.never_act, ", "),
        ));
        if !facts.never_open.is_empty() {
            lines.extend(wrapped(
                &format!("stations that never stand in the hall{so_far}: "),
                &list(&facts.never_open, ", "),
            ));
        }
        lines.extend(wrapped(
            &format!("ways never taken{so_far}: "),
            &list(&taken, "; "),
        ));
        lines
    }

    fn for_ever(&self) -> Vec<String> {
        let facts = self.facts;
        let (witness, before, commits) = match (&facts.for_ever_no_commit, &facts.for_ever) {
            (ForEver::Yes(witness, before), _) => (witness, *before, "even without a commit"),
            (without, ForEver::Yes(witness, before)) => {
                let commits = match without {
                    ForEver::No => "but not without a commit",
                    _ => "whether without a commit is not known",
                };
                (witness, *before, commits)
            }
            (_, ForEver::No) => {
                return vec!["runs that go on for ever: none".to_owned()];
            }
            _ => return vec!["runs that go on for ever: not known".to_owned()],
        };
        let again = self.again(witness, before);
        let mut lines = wrapped(
            "",
            &format!(
                "runs that go on for ever: yes, {commits}; the last {again} can be made again and again:"
            ),
        );
        lines.extend(self.way(witness));
        lines
    }

    /// How much of a way comes behind so many choices of it.
    fn again(&self, witness: &Witness, before: usize) -> String {
        let number = |count: usize| u64::try_from(count).unwrap_or(u64::MAX);
        let entries = witness.told(self.table, self.program);
        let Some(entries) = entries.filter(|_| !self.moves) else {
            let choices = witness.lines.len().saturating_sub(before);
            return counted(number(choices), "choice");
        };
        let behind = |it: &&Entry| matches!(it, Entry::Step(step) if step.choice >= before);
        counted(number(entries.iter().filter(behind).count()), "step")
    }

    fn limits(&self) -> Vec<String> {
        let met = [
            (&self.facts.full_hall, "19, more than 64 stations"),
            (&self.facts.full_tray, "20, more than 255 tokens in a tray"),
        ];
        let mut lines = Vec::new();
        for (witness, words) in met {
            if let Some(witness) = witness {
                lines.push(format!(
                    "limit met: {}, first {}:",
                    self.style.bad(words),
                    when(witness)
                ));
                lines.extend(self.way(witness));
            }
        }
        if lines.is_empty() {
            let so_far = if self.complete() {
                ""
            } else {
                ", as far as seen"
            };
            lines.push(format!("limits of the engine met{so_far}: none"));
        }
        lines
    }

    /// The answer to a question, with the way that breaks it.
    fn answer(&self, answer: &Answer) -> Vec<String> {
        let verdict = match &answer.verdict {
            Verdict::Holds => holds(answer, self.style),
            Verdict::Open => "not known; nothing that was seen breaks it".to_owned(),
            Verdict::Broken(witness, _) => {
                let last = witness.last.counts;
                let trays = self.explored.model.trays().iter();
                let counts: Vec<u8> = trays
                    .map(|tray| crate::ways::count_of(&last, *tray))
                    .collect();
                format!(
                    "{}: {}",
                    broken(answer, witness, self.style),
                    self.counts(&counts)
                )
            }
        };
        let mut lines = wrapped("", &format!("{}: {verdict}", answer.told()));
        lines.extend(below(answer, &self.ways(), self.table, BELOW));
        lines
    }
}

/// Behind so many spaces stands what is told below something.
const BELOW: usize = 5;

/// A broken question that is told before the end, while a search of so much goes
/// on.
#[must_use]
pub fn told_early(answer: &Answer, among: &str, ways: &Ways<'_>, table: &Table) -> String {
    let Verdict::Broken(witness, _) = &answer.verdict else {
        return String::new();
    };
    let head = format!(
        "{}: {}, found among {among}; the search goes on",
        answer.told(),
        broken(answer, witness, ways.style),
    );
    let mut lines = wrapped("", &head);
    lines.extend(below(answer, ways, table, 2));
    lines.join("\n") + "\n\n"
}

/// What is told below an answer: how it is broken, who is there, and the way.
fn below(answer: &Answer, ways: &Ways<'_>, table: &Table, indent: usize) -> Vec<String> {
    let margin = " ".repeat(indent);
    let mut words = broken_so(answer);
    if let Some(who) = &answer.round {
        words.push(format!("in a round that is never left: {}", who.told()));
    }
    if let Verdict::Broken(_, left) = &answer.verdict {
        words.extend(waiting::told(left));
    }
    let mut lines: Vec<String> = words.iter().flat_map(|it| wrapped(&margin, it)).collect();
    if let Verdict::Broken(witness, _) = &answer.verdict {
        lines.extend(ways.lines(table, witness, indent));
    }
    lines
}

/// A verdict without the way that breaks it.
#[must_use]
pub fn verdict(answer: &Answer, style: Style) -> String {
    match &answer.verdict {
        Verdict::Holds => holds(answer, style),
        Verdict::Open => "not known".to_owned(),
        Verdict::Broken(witness, _) => broken(answer, witness, style),
    }
}

fn holds(answer: &Answer, style: Style) -> String {
    if answer.breaks {
        format!("{}, and not broken as the text says", style.bad("holds"))
    } else {
        style.good("holds")
    }
}

fn broken(answer: &Answer, witness: &Witness, style: Style) -> String {
    let broken = if answer.breaks {
        format!("{}, as the text says,", style.good("broken"))
    } else {
        style.bad("broken")
    };
    format!("{broken} {}", first_when(answer, witness))
}

/// How a question is broken, where its way alone does not say it, and what it
/// took to know.
fn broken_so(answer: &Answer) -> Vec<String> {
    let mut words = Vec::new();
    if let Verdict::Broken(witness, _) = &answer.verdict {
        if answer.asked == Asked::Possible {
            words.push("from there it can't be reached any more".to_owned());
        } else if answer.of_events {
            words.push("what is asked about can happen there next".to_owned());
        }
        if let Some(Again { before, .. }) = answer.again {
            let again = witness.lines.len().saturating_sub(before);
            let again = counted(u64::try_from(again).unwrap_or(0), "choice");
            words.push(format!("the last {again} can be made again and again"));
        }
    }
    if let Some((situations, steps, _)) = answer.cost {
        let number = |count: usize| u64::try_from(count).unwrap_or(u64::MAX);
        words.push(format!(
            "cost: {} and {} gone through once more",
            counted(number(situations), "situation"),
            counted(number(steps), "step")
        ));
    }
    words
}

/// How many sorts are not told, and why.
fn not_told(sorts: usize, told: usize, cut: Option<Cut>) -> Option<String> {
    let more = grouped(u64::try_from(sorts.saturating_sub(told)).unwrap_or(0));
    match cut {
        Some(cut) => Some(format!(
            "  and {more} more at least: the telling was cut short by {}",
            cut_words(cut)
        )),
        None if sorts > told => Some(format!("  and {more} more (--all tells them)")),
        None => None,
    }
}

/// What exactness rests on.
#[must_use]
pub fn exact_words(exact: Exact) -> String {
    match exact {
        Exact::NeverFull => "the limit of 64 stations was never met".to_owned(),
        Exact::NoAlternatives => {
            "the limit of 64 stations was met, and no block has two ways".to_owned()
        }
        Exact::WithNotes => {
            "the limit of 64 stations was met, so this was explored with notes of what each \
             attempt found when it opened"
                .to_owned()
        }
        Exact::No(Doubt::Cut(cut)) => format!("cut short by {}", cut_words(cut)),
        Exact::No(Doubt::NotesCut(cut)) => format!(
            "the limit of 64 stations was met, and exploring with notes was cut short by {}",
            cut_words(cut)
        ),
        Exact::No(Doubt::TooManyNotes) => {
            "the limit of 64 stations was met, and there are too many blocks with several ways to \
             explore with notes"
                .to_owned()
        }
    }
}

/// The option that cut something short, or what else did.
#[must_use]
pub fn cut_words(cut: Cut) -> &'static str {
    match cut {
        Cut::Time => "--seconds",
        Cut::Memory => "--memory",
        Cut::Fault => "--first",
        Cut::Signal => "a signal",
    }
}

/// Choices side by side, as many as a line of this width has room for.
#[must_use]
pub fn choice_lines(words: &[&str], indent: usize, width: usize) -> Vec<String> {
    let margin = " ".repeat(indent);
    let mut lines: Vec<String> = Vec::new();
    for word in words {
        match lines.last_mut() {
            Some(line) if line.len() + 2 + word.len() <= width => {
                let _ = write!(line, "  {word}");
            }
            _ => lines.push(format!("{margin}{word}")),
        }
    }
    lines
}

/// After how many steps a question is broken; a round behind them is not counted.
fn first_when(answer: &Answer, witness: &Witness) -> String {
    let round = answer.again.map_or(0, |again| again.steps);
    after(witness.steps.saturating_sub(round))
}

/// After how many steps.
#[must_use]
pub fn when(witness: &Witness) -> String {
    after(witness.steps)
}

fn after(steps: usize) -> String {
    match u64::try_from(steps).unwrap_or(u64::MAX) {
        0 => "at the opening".to_owned(),
        steps => format!("after {}", counted(steps, "step")),
    }
}

fn list(items: &[String], between: &str) -> String {
    if items.is_empty() {
        "none".to_owned()
    } else {
        items.join(between)
    }
}

/// A number of things.
#[must_use]
pub fn counted(count: u64, what: &str) -> String {
    let plural = if count == 1 { "" } else { "s" };
    format!("{} {what}{plural}", grouped(count))
}

/// A number with a comma before every three digits.
#[must_use]
pub fn grouped(number: u64) -> String {
    let digits = number.to_string();
    let mut written = String::new();
    for (at, digit) in digits.chars().enumerate() {
        if at > 0 && (digits.len() - at) % 3 == 0 {
            written.push(',');
        }
        written.push(digit);
    }
    written
}

fn megabytes(bytes: usize) -> String {
    let tenths = bytes / 100_000;
    format!("{}.{} MB", tenths / 10, tenths % 10)
}
