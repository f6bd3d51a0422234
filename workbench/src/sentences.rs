//! What an accepted choice did, in a sentence with names and changed counts.

use ruonfidd::{Choice, Moved, Shortage};

use crate::board::doing;
use crate::measures::measures;
use crate::rehearsal::Happened;
use crate::stations::{puts, takes, Action, Attempt, Leaf, Node, Station};
use crate::table::{Counts, Table, Term};
use crate::text::tree::Program;
use crate::ways::{count_of, notes, shortages, tray_counts, trays_counted, trays_taken};

/// Tells choices one after the other: what needs explaining is explained the
/// first time.
#[derive(Clone, Debug)]
pub struct Teller<'a> {
    table: &'a Table,
    program: &'a Program,
    /// The put just before, into a tray that was empty: the tray, and who put.
    put_before: Option<(u8, String)>,
    explained_handover: bool,
    explained_repeating: bool,
}

impl<'a> Teller<'a> {
    /// For a hall of this table.
    #[must_use]
    pub fn new(table: &'a Table, program: &'a Program) -> Teller<'a> {
        Teller {
            table,
            program,
            put_before: None,
            explained_handover: false,
            explained_repeating: false,
        }
    }

    /// What happened.
    pub fn tell(&mut self, happened: &Happened) -> String {
        let who = happened.before.names.name_and_origin(happened.position());
        let what = match happened.before.stations.get(happened.position()) {
            Some(Station::Attempt(attempt)) => self.of_attempt(happened, attempt, &who),
            Some(station) => self.of_station(happened, station, &who),
            None => String::new(),
        };
        let handover = self.handover(happened);
        self.put_before = put_into_empty(happened);
        format!("{what}{handover}")
    }

    fn tray(&self, tray: u8) -> String {
        self.program.tray_name(tray)
    }

    /// `batch 1 -> 0`
    fn change(&self, happened: &Happened, tray: u8) -> String {
        let before = count_of(&happened.before.counts, tray);
        let after = count_of(&happened.after.counts, tray);
        format!("{} {before} -> {after}", self.tray(tray))
    }

    fn of_station(&mut self, happened: &Happened, station: &Station, who: &str) -> String {
        let term = match station {
            Station::Putting(tray) => {
                return format!("{who} puts one down: {}.", self.change(happened, *tray));
            }
            Station::Waiting(term) => *term,
            Station::Attempt(_) => return String::new(),
        };
        match self.table.term(term) {
            Term::Take { tray, .. } => format!(
                "{who} takes one: {}. {}",
                self.change(happened, tray),
                self.after_take(happened)
            ),
            Term::Repeatedly { tray, .. } => format!(
                "{who} takes one and stays for the next: {}. {}{}",
                self.change(happened, tray),
                opened(happened, "Before it now stands", "Nothing comes of it."),
                self.explain_repeating(happened)
            ),
            _ => self.opening(happened, term, who),
        }
    }

    /// What a take led to.
    fn after_take(&self, happened: &Happened) -> String {
        let position = happened.position();
        let names = (&happened.before.names, &happened.after.names);
        let one_for_one = names.0.len() == names.1.len();
        match happened.after.stations.get(position) {
            Some(station) if one_for_one && names.0.name(position) == names.1.name(position) => {
                format!("Next: {}.", doing(self.table, self.program, station))
            }
            _ => opened(happened, "In its place now stands", "Its work is done."),
        }
    }

    fn opening(&self, happened: &Happened, block: u8, who: &str) -> String {
        let trays = trays_taken(self.table, block);
        if trays.is_empty() {
            return format!(
                "{who} opens an attempt. It takes nothing, so it need not remember any tray."
            );
        }
        let remembered = tray_counts(self.program, &trays, &happened.before.counts);
        format!("{who} opens an attempt and remembers the trays: {remembered}.")
    }

    fn explain_repeating(&mut self, happened: &Happened) -> &'static str {
        let came = happened.after.names.len() > happened.before.names.len();
        if !came || std::mem::replace(&mut self.explained_repeating, true) {
            ""
        } else {
            " It can take the next one before that is done."
        }
    }

    fn of_attempt(&self, happened: &Happened, attempt: &Attempt, who: &str) -> String {
        let Choice::Inside { node, .. } = happened.choice else {
            return self.closing(happened, attempt, who);
        };
        let node = usize::from(node);
        let who = if attempt.nodes.len() > 1 {
            format!("{who} (node {node})")
        } else {
            who.to_owned()
        };
        match attempt.nodes.get(node) {
            Some(Node::Leaf(leaf)) => self.at_leaf(happened, attempt, leaf, &who, node),
            Some(Node::Fork { right }) => {
                self.at_fork(happened.rule.number, attempt, node + 1, *right, &who)
            }
            None => String::new(),
        }
    }

    /// A move at a way under way.
    fn at_leaf(
        &self,
        happened: &Happened,
        attempt: &Attempt,
        leaf: &Leaf,
        who: &str,
        node: usize,
    ) -> String {
        match leaf.rest.map(|rest| self.table.term(rest)) {
            Some(Term::NoteTake { tray, .. }) => {
                let needs = takes(&[&leaf.log[..], &[Action::Take(tray)]].concat());
                if let Some(short) = happened.shortage {
                    return self.lacking(short, &needs, &attempt.remembers, who);
                }
                let in_all = count_of(&needs, tray);
                let remembered = count_of(&attempt.remembers, tray);
                let tray = self.tray(tray);
                let more = if in_all > 1 {
                    format!("one more {tray}, {in_all} in all")
                } else {
                    format!("one {tray}")
                };
                format!("{who} notes that it will take {more} (it remembers {remembered} there).")
            }
            Some(Term::NotePut { tray, .. }) => format!(
                "{who} notes that it will put one into {}. Nothing is laid down yet.",
                self.tray(tray)
            ),
            Some(Term::OrElse { left, right }) => self.split(leaf, left, right, who, node),
            _ => String::new(),
        }
    }

    /// A take for which too little is remembered: the tray is the engine's answer.
    fn lacking(&self, short: Shortage, needs: &Counts, remembers: &Counts, who: &str) -> String {
        let Shortage { tray, by } = short;
        format!(
            "{who} lacks {by} of {}: it would take {} and remembers {}. This way gives up.",
            self.tray(tray),
            count_of(needs, tray),
            count_of(remembers, tray)
        )
    }

    /// A way that becomes several.
    fn split(&self, leaf: &Leaf, left: u8, right: u8, who: &str, node: usize) -> String {
        let measures = measures(self.table.terms());
        let ways = |term: u8| measures.get(usize::from(term)).map_or(1, |it| it.branches);
        let (first, others) = (ways(left), ways(right));
        let side = |ways: u64, one: &str, node: usize| match ways {
            1 => format!("{one} at node {node}"),
            _ => format!("{one} {ways} from node {node} on"),
        };
        format!(
            "{who} splits into {} ways: {}, {}. Each keeps the notes so far ({}).",
            first + others,
            side(first, "the first", node + 1),
            side(others, "the other", node + 2),
            notes(self.program, &leaf.log)
        )
    }

    /// A fork that is resolved.
    fn at_fork(&self, rule: u8, attempt: &Attempt, left: usize, right: usize, who: &str) -> String {
        let leaf = |node: usize| match attempt.nodes.get(node) {
            Some(Node::Leaf(leaf)) => Some(leaf),
            _ => None,
        };
        let log = |leaf: &Leaf| notes(self.program, &leaf.log);
        let first = leaf(left).map(log).unwrap_or_default();
        let others = leaf(right).map(|leaf| (self.ways_left(leaf), log(leaf)));
        if rule == Moved::AOE {
            let others = match others {
                None => "The other ways are dropped with all their notes.".to_owned(),
                Some((1, notes)) => format!("The other way is dropped with its notes ({notes})."),
                Some((ways, notes)) => {
                    format!("The other {ways} ways are dropped with their notes ({notes}).")
                }
            };
            return format!(
                "{who} settles on its first way, which is finished ({first}). {others}"
            );
        }
        let others = match others {
            None => "The other ways go on with their own notes.".to_owned(),
            Some((1, notes)) => format!("The other way goes on with its own notes ({notes})."),
            Some((ways, notes)) => {
                format!("The other {ways} ways go on with their own notes ({notes}).")
            }
        };
        format!("{who} drops its first way, which gave up, with its notes ({first}). {others}")
    }

    /// How many ways a leaf still has before it.
    fn ways_left(&self, leaf: &Leaf) -> u64 {
        let rest = leaf.rest.map(usize::from);
        let measures = measures(self.table.terms());
        rest.and_then(|rest| measures.get(rest).map(|it| it.branches))
            .unwrap_or(1)
    }

    /// The end of an attempt.
    fn closing(&self, happened: &Happened, attempt: &Attempt, who: &str) -> String {
        let log = attempt.single_leaf().map_or(&[][..], |leaf| &leaf.log);
        let needs = takes(log);
        match happened.rule.number {
            Moved::ATRE => format!("{who} gives up: no way was left. Nothing was taken or laid down, and its block waits again."),
            Moved::ATFAIL => format!(
                "{who} fails to commit: {}. Its notes are thrown away, and its block waits again.",
                self.short(happened, &needs)
            ),
            _ => self.commit(happened, &needs, &puts(log), who),
        }
    }

    /// `sheet is short by 1 (2 noted, 1 there now)`: the tray that the engine tells,
    /// which is the first one, and behind it any others.
    fn short(&self, happened: &Happened, needs: &Counts) -> String {
        let counts = &happened.before.counts;
        let told = happened.shortage.map(|it| (it.tray, it.by.get()));
        let others = shortages(needs, counts)
            .into_iter()
            .filter(|(tray, _)| told.map_or(true, |(told, _)| told != *tray));
        let words: Vec<String> = told
            .into_iter()
            .chain(others)
            .map(|(tray, by)| {
                format!(
                    "{} is short by {by} ({} noted, {} there now)",
                    self.tray(tray),
                    count_of(needs, tray),
                    count_of(counts, tray)
                )
            })
            .collect();
        words.join(", ")
    }

    fn commit(&self, happened: &Happened, needs: &Counts, puts: &[u8], who: &str) -> String {
        let taken: Vec<String> = trays_counted(needs)
            .into_iter()
            .map(|tray| self.change(happened, tray))
            .collect();
        let taking = if taken.is_empty() {
            "it takes nothing".to_owned()
        } else {
            format!("takes {}", taken.join(", "))
        };
        let laid: Vec<String> = puts.iter().map(|tray| self.tray(*tray)).collect();
        let putting = if laid.is_empty() {
            "nothing is to be put".to_owned()
        } else {
            format!("about to be put: {}", laid.join(", "))
        };
        format!("{who} commits: {taking}; {putting}.")
    }

    /// A put into an empty tray and at once the take of that token is the
    /// calculus's rule COM.
    fn handover(&mut self, happened: &Happened) -> String {
        let Some((tray, giver)) = self.put_before.take() else {
            return String::new();
        };
        if self.single_take(happened) != Some(tray) {
            return String::new();
        }
        if std::mem::replace(&mut self.explained_handover, true) {
            return format!(" A direct handover from {giver} (COM).");
        }
        format!(" A direct handover from {giver} (COM): the tray was empty, so the token just put is the one taken.")
    }

    /// The tray from which this choice took exactly one token and nothing else.
    fn single_take(&self, happened: &Happened) -> Option<u8> {
        let station = happened.before.stations.get(happened.position())?;
        match (happened.rule.number, station) {
            (Moved::IN | Moved::REP, Station::Waiting(term)) => self.table.term(*term).tray(),
            (Moved::ATOK, Station::Attempt(attempt)) => {
                let needs = takes(&attempt.single_leaf()?.log);
                match trays_counted(&needs).as_slice() {
                    [tray] if count_of(&needs, *tray) == 1 => Some(*tray),
                    _ => None,
                }
            }
            _ => None,
        }
    }
}

/// The put of a choice into a tray that was empty: the tray, and who put.
fn put_into_empty(happened: &Happened) -> Option<(u8, String)> {
    let position = happened.position();
    let Some(Station::Putting(tray)) = happened.before.stations.get(position) else {
        return None;
    };
    (count_of(&happened.before.counts, *tray) == 0)
        .then(|| (*tray, happened.before.names.name_and_origin(position)))
}

/// The stations that came at the position.
fn opened(happened: &Happened, some: &str, none: &str) -> String {
    let stays = usize::from(happened.rule.number == Moved::REP);
    let came = (happened.after.names.len() + 1)
        .saturating_sub(happened.before.names.len())
        .saturating_sub(stays);
    if came == 0 {
        return none.to_owned();
    }
    let first = happened.position();
    let names: Vec<String> = (first..first + came)
        .map(|position| happened.after.names.name(position))
        .collect();
    let some = if came > 1 {
        some.replace("stands", "stand")
    } else {
        some.to_owned()
    };
    format!("{some}: {}.", names.join(", "))
}

#[cfg(test)]
#[allow(clippy::unwrap_used)]
mod tests {
    use super::Teller;
    use crate::lesson::{Answer, Lesson};
    use crate::text::grammar::read_choices;
    use crate::text::source::Source;
    use crate::text::understand;

    /// The sentences of these choices.
    fn told(text: &str, choices: &str) -> Vec<String> {
        let understood = understand(&Source::new("", text)).unwrap();
        let (table, program) = (&understood.table, &understood.program);
        let lines = read_choices(&Source::new("", choices), program).unwrap();
        let mut lesson = Lesson::open(table, program).unwrap();
        let mut teller = Teller::new(table, program);
        let mut sentences = Vec::new();
        for line in &lines {
            let choice = lesson.choice(&line.ask).unwrap().unwrap();
            if let Answer::Moved(happened) = lesson.make(choice).unwrap() {
                sentences.push(teller.tell(&happened));
            }
        }
        sentences
    }

    fn handovers(text: &str, choices: &str) -> Vec<bool> {
        let sentences = told(text, choices);
        let with_com = |sentence: &String| sentence.contains("A direct handover from");
        sentences.iter().map(with_com).collect()
    }

    const RULES: &str = "tray b\nrule scanner is put a\nrule porter is take a then nothing\n\
                         rule desk is block (take a, end)\nrule both is block (take a, take a, end)\n";

    #[test]
    fn a_handover_is_a_put_into_an_empty_tray_and_at_once_its_take() {
        let empty = format!(
            "tray a\n{RULES}start 2 of scanner beside 2 of porter beside desk beside put b"
        );
        let take = "act scanner 1 act porter 1";
        assert_eq!(handovers(&empty, take), [false, true]);
        let commit = "act scanner 1 act desk step desk act scanner 2 act porter 1 act desk";
        assert_eq!(handovers(&empty, commit), [false; 6]);
        let commit = "act scanner 1 act desk step desk act porter 1 act scanner 2 act desk";
        assert_eq!(
            handovers(&empty, commit),
            [false, false, false, false, false, true]
        );
        let between = "act scanner 1 act put b act porter 1";
        assert_eq!(handovers(&empty, between), [false; 3]);
        // The token that lay there before may be the one taken.
        let filled = format!("tray a has 1\n{RULES}start scanner beside porter");
        assert_eq!(handovers(&filled, "act scanner act porter"), [false; 2]);
        let two = format!("tray a has 2\n{RULES}start both beside 2 of porter beside 2 of scanner");
        let commit = "act both step both step both act porter 1 act porter 2 \
                      act scanner 1 act scanner 2 act both";
        assert_eq!(handovers(&two, commit), [false; 8]);
        // A commit that takes another token too is more than a handover.
        let mixed = "tray a has 1\ntray c has 1\nrule scanner is put a\nrule porter is take a then nothing\n\
                     rule mixed is block (take a, take c, end)\nstart mixed beside porter beside scanner";
        let commit = "act mixed step mixed step mixed act porter act scanner act mixed";
        assert_eq!(handovers(mixed, commit), [false; 6]);
    }

    #[test]
    fn what_is_new_is_explained_once() {
        let text = format!("tray a\n{RULES}start 2 of scanner beside 2 of porter");
        let all = "act scanner 1 act porter 1 act scanner 2 act porter 2";
        let sentences = told(&text, all);
        let explained = |sentence: &&String| sentence.contains("the tray was empty");
        assert_eq!(sentences.iter().filter(explained).count(), 1);
        let text = "tray a has 3\ntray b\nrule desk is repeatedly take a then put b\nstart desk";
        let sentences = told(text, "act desk act desk act desk");
        let explained = |sentence: &&String| sentence.contains("before that is done");
        assert_eq!(sentences.iter().filter(explained).count(), 1);
        // Where nothing comes of the take, there is nothing to wait for.
        let text = "tray a has 3\nrule desk is repeatedly take a then nothing\nstart desk";
        let sentences = told(text, "act desk");
        assert_eq!(
            sentences,
            ["desk takes one and stays for the next: a 3 -> 2. Nothing comes of it."]
        );
    }
}
