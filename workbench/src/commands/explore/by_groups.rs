//! `hall explore --groups`

use std::cell::RefCell;

use super::faults::MANY;
use super::progress::Progress;
use super::{exit, tell_early, wrong, Job};
use crate::commands::{Args, Failure, Outcome, Streams};
use crate::explore::facts::{Answer, Asked, Verdict};
use crate::explore::groups::{groups, Group, Groups, LeftOut, MOST_GROUPS};
use crate::explore::objects;
use crate::explore::report::{choice_lines, counted, grouped, when};
use crate::explore::ways_told::Ways;
use crate::json::{list, Object};
use crate::show;
use crate::style::{width, wrapped, Style};
use crate::table::Table;
use crate::text::source::Source;
use crate::text::tree::Program;
use crate::text::{understand, Understood};

/// More groups than this are told by the smallest faulty ones alone.
const MOST_TOLD: usize = 100;

pub(super) fn by_groups(job: &Job<'_>, args: &Args, streams: &mut Streams<'_>) -> Outcome {
    if job.questions.is_empty() {
        return Err(wrong(
            "--groups looks for a fault: say what it is, with --ask or in the text",
        ));
    }
    if args
        .values("--dot")
        .chain(args.values("--save"))
        .chain(args.values("--svg"))
        .next()
        .is_some()
    {
        return Err(wrong("--dot, --svg and --save are not for --groups"));
    }
    let shown = shown_text(job)?;
    let (table, program) = match &shown {
        Some((table, program)) => (table, program),
        None => (&job.loaded.table, &job.loaded.program),
    };
    let progress = RefCell::new(Progress::new());
    let mut early = Early::default();
    let ways = Ways {
        program,
        style: streams.style,
        moves: job.moves,
    };
    let groups = groups(
        table,
        program,
        &job.questions,
        job.limits,
        &mut |so_far, done| {
            let mut progress = progress.borrow_mut();
            progress.tell(so_far.found.store.len(), done);
        },
        &mut |group| {
            if let Some(words) = early.words(group, &ways) {
                progress.borrow_mut().wipe();
                tell_early(&words, job.json, streams);
            }
        },
    );
    drop(progress);
    let told = Told {
        groups: groups?,
        shown: shown.is_some(),
        style: streams.style,
        program,
        moves: job.moves,
    };
    if job.json {
        writeln!(streams.out, "{}", told.object())?;
    } else {
        let text = told.text(job.name);
        streams.out.write_all(text.as_bytes())?;
    }
    Ok(exit(told.all_hold()))
}

/// The first group that was found to break something: told when it is known that
/// the search is a long one, while it goes on.
#[derive(Default)]
struct Early {
    situations: u64,
    first: Option<String>,
    told: bool,
}

impl Early {
    /// The words for it, once, behind some group.
    fn words(&mut self, group: &Group, ways: &Ways<'_>) -> Option<String> {
        self.situations = self.situations.saturating_add(group.situations);
        if self.first.is_none() && group.answers.iter().any(broken) {
            self.first = Some(early_words(group, ways));
        }
        if self.told || self.situations < MANY {
            return None;
        }
        self.told = self.first.is_some();
        self.first.clone()
    }
}

fn early_words(group: &Group, ways: &Ways<'_>) -> String {
    let mut lines = vec![format!(
        "{} shows the fault; the search goes on",
        ways.style.bold(&group.start)
    )];
    lines.extend(broken_lines(group, ways));
    lines.join("\n") + "\n\n"
}

/// The questions that a group breaks, with the ways.
fn broken_lines(group: &Group, ways: &Ways<'_>) -> Vec<String> {
    let mut lines = Vec::new();
    for (answer, told) in group.answers.iter().zip(&group.told) {
        if let Verdict::Broken(witness, _) = &answer.verdict {
            let words: Vec<&str> = witness.words().collect();
            let colon = if words.is_empty() { "" } else { ":" };
            lines.push(format!(
                "{} is broken {}{colon}",
                answer.told(),
                when(witness)
            ));
            match told {
                Some(entries) if !ways.moves => lines.extend(ways.steps(entries, 2)),
                _ if words.is_empty() => {}
                _ => {
                    lines.push("  choices".to_owned());
                    lines.extend(choice_lines(&words, 4, width()));
                }
            }
        }
    }
    lines
}

/// A table has no text that a start line could be put into, and an exact text
/// has no names: there it is the text that `hall show` prints.
fn shown_text(job: &Job<'_>) -> Result<Option<(Table, Program)>, Failure> {
    let loaded = job.loaded;
    if loaded.source.is_some() && !loaded.exact {
        return Ok(None);
    }
    let labels = show::Labels::of_text(&loaded.program, &loaded.terms);
    let text = show::readable(&loaded.table, &labels);
    match understand(&Source::new("", text)) {
        Ok(Understood { table, program, .. }) => Ok(Some((table, program))),
        Err(_) => Err(Failure::Contradiction(
            "the text does not build its table again".to_owned(),
        )),
    }
}

/// What was found of the groups, and how it is told.
struct Told<'a> {
    groups: Groups,
    /// Whether the text is the one that `hall show` prints.
    shown: bool,
    style: Style,
    program: &'a Program,
    /// Whether ways are told choice by choice.
    moves: bool,
}

impl Told<'_> {
    fn answers(&self) -> impl Iterator<Item = &Answer> {
        self.groups.tried.iter().flat_map(|group| &group.answers)
    }

    /// Whether nothing is broken and nothing is left open.
    fn all_hold(&self) -> bool {
        self.groups.left_out.is_none() && self.answers().all(holds)
    }

    /// The first group that breaks something: groups come small ones first.
    fn smallest(&self) -> Option<&Group> {
        let mut tried = self.groups.tried.iter();
        tried.find(|group| group.answers.iter().any(broken))
    }

    /// Whether all smaller groups than this one are known not to show it.
    fn surely_smallest(&self, group: &Group) -> bool {
        let mut tried = self.groups.tried.iter();
        tried.all(|other| other.size >= group.size || other.answers.iter().all(holds))
    }

    fn object(&self) -> String {
        let smallest = self.smallest().map_or("null".to_owned(), group_object);
        Object::new()
            .count("stations", self.groups.stations)
            .number("all_groups", self.groups.all)
            .truth("all_tried", self.groups.left_out.is_none())
            .count("tried_up_to", self.groups.up_to)
            .raw("groups", list(self.groups.tried.iter().map(group_object)))
            .raw("smallest", smallest)
            .written()
    }

    fn text(&self, name: &str) -> String {
        let mut lines = self.head(name);
        if self.groups.tried.len() <= MOST_TOLD {
            for group in &self.groups.tried {
                lines.extend(group_lines(group, self.style));
            }
        }
        if self.answers().any(|answer| answer.asked == Asked::Ends) {
            lines.push(String::new());
            lines.extend(wrapped(
                "",
                "Mind that a hall from which somebody is missing often ends too early: what is \
                 broken at an end of a small group may be no fault of the whole.",
            ));
        }
        lines.push(String::new());
        match self.smallest() {
            Some(group) => lines.extend(self.smallest_lines(group)),
            None => lines.extend(wrapped("", &self.none_found())),
        }
        let mut text = lines.join("\n");
        text.push('\n');
        text
    }

    fn head(&self, name: &str) -> Vec<String> {
        let Groups {
            stations,
            all,
            tried,
            up_to,
            left_out,
        } = &self.groups;
        let mut lines = vec![format!(
            "{}: {} of the {} at its opening",
            self.style.bold(name),
            counted(*all, "group"),
            counted_size(*stations)
        )];
        let tried = grouped(u64::try_from(tried.len()).unwrap_or(u64::MAX));
        let sizes = format!("all groups of up to {}", counted_size(*up_to));
        let ended = |why: &str| match up_to {
            0 => format!("Tried: {tried}, then {why}."),
            _ => format!("Tried: {tried}, {sizes} among them, then {why}."),
        };
        let words = match left_out {
            None => return lines,
            Some(LeftOut::TooMany) => format!(
                "Tried: {sizes}, {tried} of them. With the next size they would be more than \
                 {}.",
                grouped(u64::try_from(MOST_GROUPS).unwrap_or(0))
            ),
            Some(LeftOut::Time) => ended("the time was over"),
            Some(LeftOut::Signal) => ended("a signal asked for an end"),
        };
        lines.extend(wrapped("", &words));
        lines
    }

    fn none_found(&self) -> String {
        if self.all_hold() {
            "No group shows the fault.".to_owned()
        } else if self.groups.tried.is_empty() {
            "Nothing is known: no group was tried.".to_owned()
        } else if self.answers().all(holds) {
            "No group that was tried shows the fault; of the others nothing is known. Without \
             --groups the whole hall is explored."
                .to_owned()
        } else {
            "No group was seen to show the fault, and not all is known.".to_owned()
        }
    }

    fn smallest_lines(&self, group: &Group) -> Vec<String> {
        let smallest = if self.surely_smallest(group) {
            "The smallest that shows the fault has"
        } else {
            "Smaller groups were cut short; the smallest that was seen to show the fault has"
        };
        let place = if self.shown {
            "the start of the text that 'hall show' prints"
        } else {
            "the text's start"
        };
        let mut lines = wrapped(
            "",
            &format!(
                "{smallest} {}. With this line in the place of {place}:",
                counted_size(group.size)
            ),
        );
        lines.push(format!("  {}", self.style.bold(&group.start)));
        let ways = Ways {
            program: self.program,
            style: self.style,
            moves: self.moves,
        };
        lines.extend(broken_lines(group, &ways));
        lines
    }
}

fn broken(answer: &Answer) -> bool {
    matches!(answer.verdict, Verdict::Broken(..))
}

fn holds(answer: &Answer) -> bool {
    matches!(answer.verdict, Verdict::Holds)
}

fn counted_size(stations: usize) -> String {
    counted(u64::try_from(stations).unwrap_or(u64::MAX), "station")
}

fn group_object(group: &Group) -> String {
    Object::new()
        .string("start", &group.start)
        .count("stations", group.size)
        .number("situations", group.situations)
        .raw("answers", list(group.answers.iter().map(objects::answer)))
        .written()
}

fn group_lines(group: &Group, style: Style) -> Vec<String> {
    let verdicts: Vec<String> = group
        .answers
        .iter()
        .map(|answer| {
            let verdict = match answer.verdict {
                Verdict::Holds => style.good("holds"),
                Verdict::Broken(..) => style.bad("broken"),
                Verdict::Open => "not known".to_owned(),
            };
            format!("{}: {verdict}", answer.told())
        })
        .collect();
    wrapped(
        "  ",
        &format!(
            "{}: {}; {}",
            group.start,
            counted(group.situations, "situation"),
            verdicts.join("; ")
        ),
    )
}

#[cfg(test)]
mod tests {
    use super::Told;
    use crate::explore::groups::{Group, Groups, LeftOut};
    use crate::style::Style;
    use crate::text::tree::Program;

    /// The time may be over anywhere; what was tried by then is said.
    #[test]
    fn the_time_is_over_among_larger_groups() {
        let group = |size| Group {
            start: String::new(),
            size,
            situations: 1,
            answers: Vec::new(),
            told: Vec::new(),
        };
        let program = Program::default();
        let told = Told {
            groups: Groups {
                stations: 3,
                all: 7,
                tried: vec![group(1), group(1), group(1), group(2)],
                up_to: 1,
                left_out: Some(LeftOut::Time),
            },
            shown: false,
            style: Style::PLAIN,
            program: &program,
            moves: false,
        };
        assert_eq!(
            told.head("count.hall"),
            [
                "count.hall: 7 groups of the 3 stations at its opening",
                "Tried: 4, all groups of up to 1 station among them, then the time was over."
            ]
        );
        assert!(!told.all_hold());
    }
}
