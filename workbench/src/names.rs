//! Names of stations that stay while positions shift.
//!
//! A station is called after the innermost rule that it was opened from. One
//! without a rule is called by what it does: `put batch`, `take batch`,
//! `repeatedly take batch`, `block`. What a rule's station lays down without a
//! rule of its own keeps that station's name before it: `desk's put batch`. A
//! station that takes and goes on as one nameless station keeps its name,
//! whatever it is: a porter who has taken is still the porter.
//!
//! Stations of one name are numbered 1, 2, .. as they appear, those that a
//! station lays down for that station alone. The number is shown once there has
//! been more than one, and a bare name is good while exactly one such station
//! stands.
//!
//! Names follow the text and not the terms: two rules with equal bodies share a
//! term and keep their names. They only follow: what moves is what the engine
//! said, and [`Names::agree`] compares them with the hall.

use std::collections::BTreeMap;

use ruonfidd::Moved;

use crate::stations::{self, Attempt, Station};
use crate::table::{Table, Term};
use crate::text::choices::{Called, Owner};
use crate::text::tree::{PartId, PartKind, Program};

/// What a named station does next.
#[derive(Clone, Copy, Debug, PartialEq, Eq)]
enum Role {
    /// About to put into this tray.
    Puts(u8),
    /// Waits as this part says: a take, a repeated take or a block.
    Waits(PartId),
}

/// Who laid a nameless station down.
#[derive(Clone, Debug, PartialEq, Eq, PartialOrd, Ord)]
struct Layer {
    label: String,
    number: usize,
    /// Whether the label is a rule's name.
    by_rule: bool,
}

/// One station with its name.
#[derive(Clone, Debug, PartialEq, Eq)]
struct Named {
    label: String,
    /// Whether the label is a rule's name.
    by_rule: bool,
    /// Which one of its label it is, whoever laid it down.
    number: usize,
    /// Who laid it down, where it has no rule's name.
    from: Option<Layer>,
    /// Which one of its label it is of those that the same one laid down.
    number_from: usize,
    role: Role,
}

impl Named {
    /// Whether the name of who laid it down stands before its own.
    fn owner(&self) -> Option<&Layer> {
        self.from.as_ref().filter(|layer| layer.by_rule)
    }
}

/// The names of all stations of a hall, in its order.
#[derive(Clone, Debug, Default, PartialEq, Eq)]
pub struct Names {
    standing: Vec<Named>,
    /// How many stations of each label there have been.
    seen: BTreeMap<String, usize>,
    /// The same without those that a rule's station laid down.
    seen_alone: BTreeMap<String, usize>,
    /// How many stations of each label each station has laid down.
    seen_from: BTreeMap<(Layer, String), usize>,
}

/// What tells a station from every other one that ever stood in the hall: what
/// it was called first, and which one of those it is.
pub type Identity = (String, usize);

/// Why the words of a choice lead to no station.
#[derive(Clone, Debug, PartialEq, Eq)]
pub enum Lost {
    /// There never was a station of this name.
    Unknown,
    /// There was one, and none stands now.
    Gone,
    /// So many of this name stand, and nothing says which; the whole name of the
    /// first.
    Several(usize, String),
    /// Stations of this name stand, none of them with this number.
    OtherNumber,
}

/// A station that opens: what it does, and the rule it is opened from.
#[derive(Clone, Copy)]
struct Opened {
    role: Role,
    rule: Option<usize>,
}

impl Names {
    /// The names of the stations that a text's start opens.
    #[must_use]
    pub fn open(program: &Program) -> Names {
        let mut names = Names::default();
        let opened = opened(program, program.start);
        let standing: Vec<Named> = opened
            .into_iter()
            .map(|station| names.christened(program, station, None))
            .collect();
        names.standing = standing;
        names
    }

    /// How many stations stand.
    #[must_use]
    pub fn len(&self) -> usize {
        self.standing.len()
    }

    /// Whether none stands.
    #[must_use]
    pub fn is_empty(&self) -> bool {
        self.standing.is_empty()
    }

    /// The rule that the station at a position is called after.
    #[must_use]
    pub fn rule(&self, position: usize) -> Option<&str> {
        let named = self.standing.get(position)?;
        named.by_rule.then_some(named.label.as_str())
    }

    /// The rule that it is called after, or whoever laid it down is.
    #[must_use]
    pub fn rule_behind(&self, position: usize) -> Option<&str> {
        let named = self.standing.get(position)?;
        let from = named.from.as_ref().filter(|from| from.by_rule);
        self.rule(position)
            .or_else(|| from.map(|from| from.label.as_str()))
    }

    /// The name of the station at a position, with its number where there has
    /// been more than one: the words with which a choice calls it.
    #[must_use]
    pub fn name(&self, position: usize) -> String {
        self.standing
            .get(position)
            .map_or_else(|| format!("station {position}"), |named| self.called(named))
    }

    /// The name, and behind it from whom the station comes, where neither of the
    /// two has a rule's name.
    #[must_use]
    pub fn name_and_origin(&self, position: usize) -> String {
        let name = self.name(position);
        match self.origin(position) {
            Some(from) => format!("{name} (from {from})"),
            None => name,
        }
    }

    /// From whom a nameless station comes, where its name does not say so.
    #[must_use]
    pub fn origin(&self, position: usize) -> Option<String> {
        let from = self.standing.get(position)?.from.as_ref()?;
        (!from.by_rule).then(|| self.layer(from))
    }

    /// Who laid the station down, or itself where it stands there by itself.
    #[must_use]
    pub fn person(&self, position: usize) -> String {
        let from = self.standing.get(position).and_then(|it| it.from.as_ref());
        from.map_or_else(|| self.name(position), |from| self.layer(from))
    }

    /// The name without the numbers of what is laid down: what repeats has it
    /// each time.
    #[must_use]
    pub fn name_each_time(&self, position: usize) -> String {
        match self.standing.get(position) {
            Some(named) if named.from.is_some() => match named.owner() {
                Some(owner) => format!("{}'s {}", self.layer(owner), named.label),
                None => named.label.clone(),
            },
            _ => self.name(position),
        }
    }

    /// The name as it is spoken of in the middle of a sentence: `the guest`, where
    /// it is a rule's for one station alone.
    #[must_use]
    pub fn spoken(&self, position: usize) -> String {
        let name = self.name(position);
        let alone = |named: &Named| named.by_rule && named.label == name;
        let ends_in_letter = name.ends_with(|letter: char| letter.is_ascii_alphabetic());
        if ends_in_letter && self.standing.get(position).is_some_and(alone) {
            format!("the {name}")
        } else {
            name
        }
    }

    /// The last part of the name: a rule's name, or what it did when it came.
    #[must_use]
    pub fn label(&self, position: usize) -> String {
        let named = self.standing.get(position);
        named.map_or_else(|| self.name(position), |named| named.label.clone())
    }

    /// Whether two stations have one name but for the numbers.
    #[must_use]
    pub fn alike(&self, one: usize, other: usize) -> bool {
        let kind = |at: usize| {
            let named = self.standing.get(at)?;
            let from = named.from.as_ref().map(|layer| &layer.label);
            Some((&named.label, named.by_rule, from))
        };
        kind(one).is_some() && kind(one) == kind(other)
    }

    /// Who the station is.
    #[must_use]
    pub fn identity(&self, position: usize) -> Option<Identity> {
        let named = self.standing.get(position)?;
        Some((named.label.clone(), named.number))
    }

    /// Where a station stands now.
    #[must_use]
    pub fn position_of(&self, identity: &Identity) -> Option<usize> {
        self.standing
            .iter()
            .position(|named| named.label == identity.0 && named.number == identity.1)
    }

    /// The station that a choice's words call. A position is taken as it is: it
    /// is for the engine to say whether a station stands there.
    ///
    /// # Errors
    ///
    /// Where the words call none, or more than one.
    pub fn find(&self, program: &Program, called: &Called) -> Result<usize, Lost> {
        let (of, label, number) = match called {
            Called::Position(position) => return Ok(*position),
            Called::Name { of, label, number } => (of.as_ref(), label, *number),
        };
        let alike = match of {
            Some(of) => self.laid_down_by(of, label),
            None => self.called_so(program, label, number),
        };
        match (alike.as_slice(), number) {
            ([], _) if self.was_seen(of, label) => Err(Lost::Gone),
            ([], _) => Err(Lost::Unknown),
            ([position], None) => Ok(*position),
            ([first, ..], None) => Err(Lost::Several(alike.len(), self.name(*first))),
            (_, Some(number)) => {
                let which = |named: &Named| match of {
                    Some(_) => named.number_from == number,
                    None => named.number == number,
                };
                let mut these = alike
                    .iter()
                    .copied()
                    .filter(|at| self.standing.get(*at).is_some_and(which));
                match (these.next(), these.next()) {
                    (Some(position), None) => Ok(position),
                    (Some(position), Some(_)) => {
                        Err(Lost::Several(2 + these.count(), self.name(position)))
                    }
                    (None, _) => Err(Lost::OtherNumber),
                }
            }
        }
    }

    /// The stations of this label that one of this name laid down.
    fn laid_down_by(&self, of: &Owner, label: &str) -> Vec<usize> {
        self.those(|named| {
            named.label == label
                && named.owner().is_some_and(|owner| {
                    owner.label == of.label
                        && of.number.map_or(true, |number| number == owner.number)
                })
        })
    }

    /// The stations that are called so without saying who laid them down. Those
    /// who have just this name come first, then those with it behind another's,
    /// then those who do what it says now.
    fn called_so(&self, program: &Program, label: &str, number: Option<usize>) -> Vec<usize> {
        let all = self.those(|named| named.label == label);
        if number.is_some() {
            return all;
        }
        let alone = self.those(|named| named.label == label && named.owner().is_none());
        match (alone.is_empty(), all.is_empty()) {
            (false, _) => alone,
            (true, false) => all,
            (true, true) => self.those(|named| doing(program, named.role) == label),
        }
    }

    fn those(&self, wanted: impl Fn(&Named) -> bool) -> Vec<usize> {
        let standing = self.standing.iter().enumerate();
        let standing = standing.filter(|(_, named)| wanted(named));
        standing.map(|(position, _)| position).collect()
    }

    fn was_seen(&self, of: Option<&Owner>, label: &str) -> bool {
        match of {
            None => self.seen.contains_key(label),
            Some(of) => self
                .seen_from
                .keys()
                .any(|(layer, laid)| layer.label == of.label && laid == label),
        }
    }

    /// Follows an accepted choice: `rule` is the engine's answer, `acted` the
    /// station at the position as it was before.
    pub fn follow(&mut self, program: &Program, position: usize, rule: u8, acted: &Station) {
        let Some(actor) = self.standing.get(position).cloned() else {
            return;
        };
        let instead = match rule {
            Moved::OUT => vec![],
            Moved::IN => self.after_take(program, &actor),
            Moved::REP => {
                let mut opened = self.after_repeated_take(program, &actor);
                opened.push(actor);
                opened
            }
            Moved::ATOK => self.after_commit(program, &actor, acted),
            _ => return,
        };
        self.standing.splice(position..=position, instead);
    }

    /// Whether these names fit the stations of the hall: as many, and each with
    /// the same thing to do at the same tray.
    #[must_use]
    pub fn agree(&self, program: &Program, table: &Table, stations: &[Station]) -> bool {
        self.standing.len() == stations.len()
            && self
                .standing
                .iter()
                .zip(stations)
                .all(|(named, station)| fits(program, table, named.role, station))
    }

    fn called(&self, named: &Named) -> String {
        let label = &named.label;
        match named.owner() {
            Some(owner) => {
                let seen = self.seen_from.get(&(owner.clone(), label.clone()));
                let label = numbered(label, named.number_from, seen);
                format!("{}'s {label}", self.layer(owner))
            }
            None if named.by_rule => numbered(label, named.number, self.seen.get(label)),
            None => numbered(label, named.number, self.seen_alone.get(label)),
        }
    }

    fn layer(&self, layer: &Layer) -> String {
        let seen = if layer.by_rule {
            &self.seen
        } else {
            &self.seen_alone
        };
        numbered(&layer.label, layer.number, seen.get(&layer.label))
    }

    fn after_take(&mut self, program: &Program, actor: &Named) -> Vec<Named> {
        let opened = continuation(program, actor.role);
        if let [only] = opened.as_slice() {
            if only.rule.is_none() {
                let role = only.role;
                let mut same = actor.clone();
                same.role = role;
                return vec![same];
            }
        }
        self.christened_all(program, opened, actor)
    }

    fn after_repeated_take(&mut self, program: &Program, actor: &Named) -> Vec<Named> {
        let opened = continuation(program, actor.role);
        self.christened_all(program, opened, actor)
    }

    fn after_commit(&mut self, program: &Program, actor: &Named, acted: &Station) -> Vec<Named> {
        let log = match acted {
            Station::Attempt(attempt) => attempt.single_leaf().map(|leaf| leaf.log.as_slice()),
            _ => None,
        };
        let opened = stations::puts(log.unwrap_or(&[]))
            .into_iter()
            .map(|tray| Opened {
                role: Role::Puts(tray),
                rule: None,
            })
            .collect();
        self.christened_all(program, opened, actor)
    }

    fn christened_all(
        &mut self,
        program: &Program,
        opened: Vec<Opened>,
        actor: &Named,
    ) -> Vec<Named> {
        // What a laid down station lays down comes from the same one.
        let layer = actor.from.clone().unwrap_or_else(|| Layer {
            label: actor.label.clone(),
            number: actor.number,
            by_rule: actor.by_rule,
        });
        opened
            .into_iter()
            .map(|station| self.christened(program, station, Some(&layer)))
            .collect()
    }

    fn christened(&mut self, program: &Program, station: Opened, layer: Option<&Layer>) -> Named {
        let rule = station.rule.and_then(|rule| program.definitions.get(rule));
        let label = rule.map_or_else(
            || doing(program, station.role),
            |definition| definition.name.clone(),
        );
        let from = layer.filter(|_| rule.is_none()).cloned();
        let number_from = from.as_ref().map_or(0, |layer| {
            one_more(&mut self.seen_from, (layer.clone(), label.clone()))
        });
        let named = Named {
            number: one_more(&mut self.seen, label.clone()),
            label,
            by_rule: rule.is_some(),
            from,
            number_from,
            role: station.role,
        };
        if named.owner().is_none() {
            one_more(&mut self.seen_alone, named.label.clone());
        }
        named
    }
}

/// Counts one more under a key; how many there are then.
fn one_more<K: Ord>(counts: &mut BTreeMap<K, usize>, key: K) -> usize {
    let count = counts.entry(key).or_insert(0);
    *count += 1;
    *count
}

/// A name, with its number where more than one was seen.
fn numbered(label: &str, number: usize, seen: Option<&usize>) -> String {
    if seen.is_some_and(|seen| *seen > 1) {
        format!("{label} {number}")
    } else {
        label.to_owned()
    }
}

/// What a station does, in the words of the text.
fn doing(program: &Program, role: Role) -> String {
    let part = match role {
        Role::Puts(tray) => return format!("put {}", program.tray_name(tray)),
        Role::Waits(part) => part,
    };
    match program.part(part).kind {
        PartKind::Take(tray, _) => format!("take {}", program.tray_name(tray)),
        PartKind::Repeatedly(tray, _) => {
            format!("repeatedly take {}", program.tray_name(tray))
        }
        _ => "block".to_owned(),
    }
}

/// What opens after a take.
fn continuation(program: &Program, role: Role) -> Vec<Opened> {
    let Role::Waits(part) = role else {
        return vec![];
    };
    match program.part(part).kind {
        PartKind::Take(_, then) | PartKind::Repeatedly(_, then) => opened(program, then),
        _ => vec![],
    }
}

/// The stations that a process opens, left to right. Only those of an accepted
/// table are asked for: there are at most 64.
fn opened(program: &Program, part: PartId) -> Vec<Opened> {
    let mut stations = Vec::new();
    let mut to_open = vec![(part, None)];
    while let Some((part, rule)) = to_open.pop() {
        match program.part(part).kind {
            PartKind::Named(index) => {
                if let Some(definition) = program.definitions.get(index) {
                    to_open.push((definition.body, Some(index)));
                }
            }
            PartKind::Beside(left, right) => {
                to_open.push((right, rule));
                to_open.push((left, rule));
            }
            PartKind::Copies(how_many, of) => {
                to_open.extend((0..how_many).map(|_| (of, rule)));
            }
            PartKind::Put(tray) => stations.push(Opened {
                role: Role::Puts(tray),
                rule,
            }),
            PartKind::Take(..) | PartKind::Repeatedly(..) | PartKind::Block(_) => {
                stations.push(Opened {
                    role: Role::Waits(part),
                    rule,
                });
            }
            _ => {}
        }
    }
    stations
}

fn fits(program: &Program, table: &Table, role: Role, station: &Station) -> bool {
    let kind = match role {
        Role::Puts(tray) => return *station == Station::Putting(tray),
        Role::Waits(part) => program.part(part).kind,
    };
    let term = match station {
        Station::Putting(_) => return false,
        Station::Waiting(term) => *term,
        Station::Attempt(Attempt { block, .. }) => *block,
    };
    match (kind, table.term(term)) {
        (PartKind::Take(named, _), Term::Take { tray, .. })
        | (PartKind::Repeatedly(named, _), Term::Repeatedly { tray, .. }) => named == tray,
        (PartKind::Block(_), Term::Block { .. }) => true,
        _ => false,
    }
}

#[cfg(test)]
#[allow(clippy::unwrap_used, clippy::indexing_slicing)]
mod tests {
    use super::{Lost, Names};
    use crate::lesson::Lesson;
    use crate::stations::Station;
    use crate::text::choices::{Called, Owner};
    use crate::text::source::Source;
    use crate::text::{understand, Understood};
    use ruonfidd::Choice;

    fn of_text(text: &str) -> Understood {
        understand(&Source::new("", text)).unwrap()
    }

    fn names_of(names: &Names) -> Vec<String> {
        (0..names.len())
            .map(|position| names.name_and_origin(position))
            .collect()
    }

    /// The names after these choices of kind 1.
    fn after(text: &str, acts: &[u8]) -> Vec<String> {
        let understood = of_text(text);
        let mut lesson = Lesson::open(&understood.table, &understood.program).unwrap();
        for position in acts {
            let position = *position;
            lesson.make(Choice::Act { position }).unwrap();
        }
        names_of(&lesson.now().names)
    }

    const TRAYS: &str = "tray a has 9 tray b tray c\n";

    #[test]
    fn the_innermost_rule_gives_the_name() {
        let text = format!(
            "{TRAYS} rule one is put a rule both is one beside take b then nothing\n\
             start both beside 2 of one beside take b then nothing beside block (end)"
        );
        let text = text.replace("take b then nothing", "(take b then nothing)");
        assert_eq!(
            after(&text, &[]),
            ["one 1", "both", "one 2", "one 3", "take b", "block"]
        );
    }

    #[test]
    fn who_takes_and_goes_on_keeps_the_name() {
        let text = format!("{TRAYS} rule desk is take a then put b start 2 of desk");
        assert_eq!(after(&text, &[0]), ["desk 1", "desk 2"]);
        assert_eq!(after(&text, &[0, 0]), ["desk 2"]);
    }

    /// One person has one name, with a rule or without.
    #[test]
    fn who_goes_on_keeps_the_name() {
        let text = format!("{TRAYS} start take a then take a then put b");
        assert_eq!(after(&text, &[0]), ["take a"]);
        assert_eq!(after(&text, &[0, 0]), ["take a"]);
        let text =
            format!("{TRAYS} rule pump is repeatedly take a then take a then put b start pump");
        assert_eq!(after(&text, &[0]), ["pump's take a", "pump"]);
        assert_eq!(after(&text, &[0, 0]), ["pump's take a", "pump"]);
    }

    /// Each counts what it lays down by itself.
    #[test]
    fn what_is_laid_down_has_its_owner_s_name() {
        let text = format!(
            "{TRAYS} rule left is repeatedly take a then put b\n\
             rule right is repeatedly take a then put b start left beside right beside put b"
        );
        // Left, right, right, left.
        assert_eq!(
            after(&text, &[0, 2, 3, 1]),
            [
                "left's put b 1",
                "left's put b 2",
                "left",
                "right's put b 1",
                "right's put b 2",
                "right",
                "put b"
            ]
        );
        let text = format!("{TRAYS} rule desk is repeatedly take a then put b start 2 of desk");
        assert_eq!(
            after(&text, &[0, 2]),
            ["desk 1's put b", "desk 1", "desk 2's put b", "desk 2"]
        );
    }

    #[test]
    fn what_comes_of_several_is_called_by_what_it_does() {
        let text = format!("{TRAYS} rule desk is take a then (put b beside put b) start desk");
        assert_eq!(after(&text, &[0]), ["desk's put b 1", "desk's put b 2"]);
        let text = format!("{TRAYS} start take a then (put b beside put c)");
        assert_eq!(
            after(&text, &[0]),
            ["put b (from take a)", "put c (from take a)"]
        );
        let text = format!("{TRAYS} rule other is put b rule desk is take a then other start desk");
        assert_eq!(after(&text, &[0]), ["other"]);
    }

    #[test]
    fn a_repeated_take_stays_behind_what_it_opened() {
        let text = format!("{TRAYS} rule desk is repeatedly take a then put b start desk");
        assert_eq!(
            after(&text, &[0, 1]),
            ["desk's put b 1", "desk's put b 2", "desk"]
        );
    }

    #[test]
    fn found_by_name() {
        let text = format!("{TRAYS} rule desk is put b start 3 of desk beside put c");
        let understood = of_text(&text);
        let mut lesson = Lesson::open(&understood.table, &understood.program).unwrap();
        lesson.make(Choice::Act { position: 0 }).unwrap();
        lesson.make(Choice::Act { position: 2 }).unwrap();
        let names = &lesson.now().names;
        let find = |label: &str, number| names.find(&understood.program, &called(label, number));
        let several = Err(Lost::Several(2, "desk 2".to_owned()));
        assert_eq!(find("desk", Some(3)), Ok(1));
        assert_eq!(find("desk", None), several);
        assert_eq!(find("desk", Some(1)), Err(Lost::OtherNumber));
        assert_eq!(find("put c", None), Err(Lost::Gone));
        assert_eq!(find("put a", None), Err(Lost::Unknown));
        let anywhere = names.find(&understood.program, &Called::Position(77));
        assert_eq!(anywhere, Ok(77));
    }

    fn called(label: &str, number: Option<usize>) -> Called {
        Called::Name {
            of: None,
            label: label.to_owned(),
            number,
        }
    }

    /// What is laid down is found by its owner's name, by its own where nobody
    /// else has it, and by its number among all.
    #[test]
    fn found_by_its_owner() {
        let text = format!(
            "{TRAYS} rule desk is repeatedly take a then put b rule pump is repeatedly take a then put b\n\
             start 2 of desk beside pump"
        );
        let understood = of_text(&text);
        let program = &understood.program;
        let mut lesson = Lesson::open(&understood.table, program).unwrap();
        let owned = |owner: &str, which, label: &str, number| Called::Name {
            of: Some(Owner {
                label: owner.to_owned(),
                number: which,
            }),
            label: label.to_owned(),
            number,
        };
        let bare = owned("desk", None, "put b", None);
        let find = |lesson: &Lesson<'_>, words: &Called| lesson.now().names.find(program, words);
        assert_eq!(find(&lesson, &bare), Err(Lost::Unknown));
        // Desk 1 lays down one, desk 2 another.
        lesson.make(Choice::Act { position: 0 }).unwrap();
        assert_eq!(find(&lesson, &bare), Ok(0));
        assert_eq!(find(&lesson, &called("put b", None)), Ok(0));
        lesson.make(Choice::Act { position: 2 }).unwrap();
        let several = |name: &str| Err(Lost::Several(2, name.to_owned()));
        assert_eq!(find(&lesson, &bare), several("desk 1's put b"));
        assert_eq!(
            find(&lesson, &called("put b", None)),
            several("desk 1's put b")
        );
        assert_eq!(find(&lesson, &called("put b", Some(2))), Ok(2));
        let second = |number| owned("desk", Some(2), "put b", number);
        assert_eq!(find(&lesson, &second(None)), Ok(2));
        // Desk 2 lays down one more, and puts the first.
        lesson.make(Choice::Act { position: 3 }).unwrap();
        assert_eq!(find(&lesson, &second(None)), several("desk 2's put b 1"));
        assert_eq!(find(&lesson, &second(Some(2))), Ok(3));
        lesson.make(Choice::Act { position: 2 }).unwrap();
        assert_eq!(find(&lesson, &second(Some(2))), Ok(2));
        assert_eq!(find(&lesson, &second(Some(1))), Err(Lost::OtherNumber));
        lesson.make(Choice::Act { position: 2 }).unwrap();
        assert_eq!(find(&lesson, &second(None)), Err(Lost::Gone));
        let pump = owned("pump", None, "put b", None);
        assert_eq!(find(&lesson, &pump), Err(Lost::Unknown));
        // Number 1 of several owners is not one station.
        let first = owned("desk", None, "put b", Some(1));
        assert_eq!(find(&lesson, &first), Ok(0));
    }

    /// An old lesson calls a station by what it does now.
    #[test]
    fn found_by_what_it_does() {
        let text = format!("{TRAYS} start (take a then put c) beside put b");
        let understood = of_text(&text);
        let program = &understood.program;
        let mut lesson = Lesson::open(&understood.table, program).unwrap();
        lesson.make(Choice::Act { position: 0 }).unwrap();
        let names = &lesson.now().names;
        assert_eq!(names.find(program, &called("put c", None)), Ok(0));
        assert_eq!(names.find(program, &called("take a", None)), Ok(0));
        assert_eq!(names.find(program, &called("put b", None)), Ok(1));
    }

    /// Names that do not fit the hall are noticed.
    #[test]
    fn names_that_do_not_fit() {
        let text = format!("{TRAYS} rule desk is take a then nothing start desk beside put b");
        let understood = of_text(&text);
        let Understood { table, program, .. } = &understood;
        let lesson = Lesson::open(table, program).unwrap();
        let standing = lesson.now().stations.clone();
        let names = &lesson.now().names;
        assert!(names.agree(program, table, &standing));
        assert!(!names.agree(program, table, &standing[..1]));
        let swapped = [standing[1].clone(), standing[0].clone()];
        assert!(!names.agree(program, table, &swapped));
        let elsewhere = [standing[0].clone(), Station::Putting(2)];
        assert!(!names.agree(program, table, &elsewhere));
    }
}
