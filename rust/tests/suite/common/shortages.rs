//! What was short, worked out from the hall before a step, and what many steps told.

use std::fmt;

use reference::hall::{decode, Action, Node, Rest, Station};
use reference::moves::{ARDF, ATFAIL};
use reference::table::{read_table, Counts, Term};

use super::calls::add_each;
use super::wrong_shortages::WRONG;

/// The two rules that tell something, in the order in which they are counted here.
const TELLING: [u8; 2] = [ATFAIL, ARDF];

/// A tray, and by how many it is short; none where nothing is.
pub(crate) type Told = Option<(u8, u8)>;

/// The two bytes that tell it.
pub(crate) fn told_bytes(told: Told) -> [u8; 2] {
    told.map_or([0, 0], |(tray, by)| [tray, by])
}

/// A step that closes an attempt or reads inside one, and what it had before it.
#[derive(Clone, Debug)]
pub(crate) struct Seen {
    /// The rule by which it moved.
    pub(crate) rule: u8,
    /// The log as it was.
    log: Vec<Action>,
    /// The tray that this step reads.
    pub(crate) read: Option<u8>,
    pub(crate) now: Counts,
    pub(crate) snapshot: Counts,
}

impl Seen {
    /// Such a step of these three bytes, on a hall before it; none where it is
    /// another one.
    pub(crate) fn before(table: &[u8], hall: &[u8], choice: [u8; 3]) -> Option<Seen> {
        let table = read_table(table).ok()?;
        let hall = decode(&table, hall)?;
        let [kind, position, node] = choice.map(usize::from);
        let Station::Attempt { snapshot, tree, .. } = hall.stations.get(position)? else {
            return None;
        };
        let Node::Leaf(leaf) = (if kind == 1 { tree } else { tree.at(node)? }) else {
            return None;
        };
        let read = match leaf.rest {
            Rest::Term(term) => match table.terms[term] {
                Term::Rd { tray, .. } => Some(tray),
                _ => None,
            },
            Rest::BareRetry => None,
        };
        (read.is_some() == (kind == 2)).then(|| Seen {
            rule: 0,
            log: leaf.log.entries.clone(),
            read,
            now: hall.counts,
            snapshot: *snapshot,
        })
    }

    /// The same, once the rule is known.
    pub(crate) fn moved_by(self, rule: u8) -> Seen {
        Seen { rule, ..self }
    }

    /// The trays that the log reads, one for each read.
    fn trays_logged(&self) -> impl Iterator<Item = u8> + '_ {
        self.log.iter().filter_map(|action| match action {
            Action::Read(tray) => Some(*tray),
            Action::Write(_) => None,
        })
    }

    /// The reads of the log.
    pub(crate) fn logged(&self) -> Counts {
        counted(self.trays_logged())
    }

    /// The trays that are read, one for each read: by the log in its order, then by
    /// this step.
    pub(crate) fn trays_read(&self) -> impl Iterator<Item = u8> + '_ {
        self.trays_logged().chain(self.read)
    }

    /// The reads of the log, and the one that this step makes.
    pub(crate) fn reads(&self) -> Counts {
        counted(self.trays_read())
    }

    /// The writes of the log.
    pub(crate) fn writes(&self) -> Counts {
        counted(self.log.iter().filter_map(|action| match action {
            Action::Write(tray) => Some(*tray),
            Action::Read(_) => None,
        }))
    }

    /// What the reads are held against: inside an attempt the snapshot, at its end
    /// the counts of now.
    pub(crate) fn held_against(&self) -> &Counts {
        match self.read {
            Some(_) => &self.snapshot,
            None => &self.now,
        }
    }

    /// Every tray that is short, the lowest first.
    pub(crate) fn all_short(&self) -> Vec<(u8, u8)> {
        short(&self.reads(), self.held_against())
    }

    /// The right answer: rules 6 and 9 tell the lowest.
    pub(crate) fn told(&self) -> Told {
        let tells = TELLING.contains(&self.rule);
        self.all_short().first().copied().filter(|_| tells)
    }
}

fn counted(trays: impl Iterator<Item = u8>) -> Counts {
    let mut counts = Counts::default();
    for tray in trays {
        counts[usize::from(tray)] += 1;
    }
    counts
}

/// The trays of which more is read than there is, and how many are missing.
fn short(reads: &Counts, counts: &Counts) -> Vec<(u8, u8)> {
    (0..16)
        .zip(reads.iter().zip(counts))
        .filter(|(_, (reads, count))| reads > count)
        .map(|(tray, (reads, count))| (tray, reads - count))
        .collect()
}

/// The lowest of them.
pub(crate) fn lowest(reads: &Counts, counts: &Counts) -> Told {
    short(reads, counts).first().copied()
}

/// What was met of shortages, by rule 6 and by rule 9.
#[derive(Clone, Debug, Default, PartialEq, Eq)]
pub(crate) struct ShortMet {
    /// How often each tray was told.
    trays: [[usize; 16]; 2],
    /// How often each number was told, 1 to 16.
    by: [[usize; 17]; 2],
    /// How often more than one tray was short.
    of_several: [usize; 2],
    /// How often rule 9 told another tray than the one it read.
    another: usize,
    /// How often each wrong way would have told something else.
    wrong: [usize; WRONG.len()],
}

impl ShortMet {
    /// One step, which told this; it must be right.
    #[track_caller]
    pub(crate) fn note(&mut self, seen: &Seen, told: Told) {
        assert_eq!(told, seen.told(), "{seen:?}");
        for (times, wrong) in self.wrong.iter_mut().zip(WRONG) {
            *times += usize::from((wrong.tells)(seen) != told);
        }
        let at = TELLING.iter().position(|rule| *rule == seen.rule);
        let (Some(at), Some((tray, by))) = (at, told) else {
            return;
        };
        self.trays[at][usize::from(tray)] += 1;
        self.by[at][usize::from(by)] += 1;
        self.of_several[at] += usize::from(seen.all_short().len() > 1);
        self.another += usize::from(seen.read.is_some_and(|read| read != tray));
    }

    /// What was met here or there.
    pub(crate) fn add(&mut self, other: &ShortMet) {
        for rule in 0..TELLING.len() {
            add_each(&mut self.trays[rule], &other.trays[rule]);
            add_each(&mut self.by[rule], &other.by[rule]);
        }
        add_each(&mut self.of_several, &other.of_several);
        self.another += other.another;
        add_each(&mut self.wrong, &other.wrong);
    }

    /// Each of both rules told each tray so often.
    #[track_caller]
    pub(crate) fn trays_at_least(&self, least: usize) {
        let all = self.trays.iter().flatten();
        assert!(all.min() >= Some(&least), "a tray too seldom: {self}");
    }

    /// Each of both rules told each of these numbers so often.
    #[track_caller]
    pub(crate) fn numbers_at_least(&self, numbers: impl Iterator<Item = usize>, least: usize) {
        for by in numbers {
            let times = self.by.map(|rule| rule[by]);
            assert!(times.iter().all(|it| *it >= least), "by {by}: {self}");
        }
    }

    /// By each rule several trays were short so often; and so often rule 9 told
    /// another tray than the one it read.
    #[track_caller]
    pub(crate) fn several_at_least(&self, least: usize) {
        let all = self.of_several.iter().chain([&self.another]);
        assert!(all.min() >= Some(&least), "too seldom: {self}");
    }

    /// Each wrong way to tell would have been noticed so often.
    #[track_caller]
    pub(crate) fn wrong_at_least(&self, least: usize) {
        for (times, wrong) in self.wrong.iter().zip(WRONG) {
            assert!(*times >= least, "{}: too seldom: {self}", wrong.name);
        }
    }
}

impl fmt::Display for ShortMet {
    fn fmt(&self, out: &mut fmt::Formatter<'_>) -> fmt::Result {
        for (at, rule) in TELLING.iter().enumerate() {
            write!(
                out,
                "short by rule {rule}: trays {:?}, numbers 1 to 16 {:?}, {} of several; ",
                self.trays[at],
                &self.by[at][1..],
                self.of_several[at]
            )?;
        }
        write!(
            out,
            "{} other trays than the one read; wrong ways to tell that would be noticed {:?}",
            self.another, self.wrong
        )
    }
}
