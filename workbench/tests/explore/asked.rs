//! Random questions, with what they mean said a second time.

use reference::generator::Random;
use workbench::text::tree::{Class, Program};

use crate::brute::{Does, Graph, Situation, Station};

/// A condition, as it is written and as it is looked up.
#[derive(Clone, Debug)]
pub(crate) enum Condition {
    Compare(Vec<(bool, Value)>, &'static str, Vec<(bool, Value)>),
    SoMany(i64, Who, Place),
    Event(Who, &'static str),
    Not(Box<Condition>),
    Both(Box<Condition>, Box<Condition>),
    Either(Box<Condition>, Box<Condition>),
}

#[derive(Clone, Debug)]
pub(crate) enum Value {
    Number(i64),
    Tray(u8),
    Stations,
    Standing(Who, Place),
}

#[derive(Clone, Debug, PartialEq, Eq)]
pub(crate) enum Who {
    Rule(String),
    Doing(&'static str, u8),
}

#[derive(Clone, Debug, PartialEq, Eq)]
pub(crate) enum Place {
    Anywhere,
    Stands,
    Waits,
    Inside,
    At(&'static str, u8),
}

/// Makes conditions about the trays and rules of a text.
pub(crate) struct Asker<'a> {
    pub(crate) program: &'a Program,
    pub(crate) random: &'a mut Random,
    pub(crate) events: bool,
}

impl Asker<'_> {
    pub(crate) fn condition(&mut self, depth: usize) -> Condition {
        let boxed = |it: &mut Self| Box::new(it.condition(depth - 1));
        match self.random.below(if depth > 0 { 10 } else { 7 }) {
            0..=3 => {
                let signs = ["=", "!=", "<", "<=", ">", ">="];
                let sign = self.random.pick(&signs).unwrap();
                Condition::Compare(self.sum(), sign, self.sum())
            }
            4 | 5 => Condition::SoMany(
                self.random.byte_between(1, 2).into(),
                self.who(),
                self.place(),
            ),
            6 if self.events => {
                let event = ["commits", "fails", "gives up"];
                Condition::Event(self.who(), self.random.pick(&event).unwrap())
            }
            6 => Condition::Event(self.who(), "commits"),
            7 => Condition::Not(boxed(self)),
            8 => Condition::Both(boxed(self), boxed(self)),
            _ => Condition::Either(boxed(self), boxed(self)),
        }
    }

    fn sum(&mut self) -> Vec<(bool, Value)> {
        let values = self.random.between(1, 2);
        (0..values)
            .map(|at| (at > 0 && self.random.percent(50), self.value()))
            .collect()
    }

    fn value(&mut self) -> Value {
        match self.random.below(8) {
            0..=2 => Value::Number(self.random.byte_below(3).into()),
            3..=5 => Value::Tray(self.tray()),
            6 => Value::Stations,
            _ => Value::Standing(self.who(), self.place()),
        }
    }

    fn tray(&mut self) -> u8 {
        let trays: Vec<u8> = self.program.trays.iter().map(|it| it.number).collect();
        self.random.pick(&trays).unwrap()
    }

    fn who(&mut self) -> Who {
        let rules = self.program.definitions.iter();
        let rules = rules.filter(|it| it.class == Class::Rule);
        let rules: Vec<&str> = rules.map(|it| it.name.as_str()).collect();
        match self.random.pick(&rules) {
            Some(rule) if self.random.percent(70) => Who::Rule(rule.to_owned()),
            _ => {
                let (doing, tray) = self.doing();
                Who::Doing(doing, tray)
            }
        }
    }

    fn doing(&mut self) -> (&'static str, u8) {
        let doings = ["put", "take", "repeatedly take", "block"];
        (self.random.pick(&doings).unwrap(), self.tray())
    }

    fn place(&mut self) -> Place {
        match self.random.below(6) {
            0 | 1 => Place::Anywhere,
            2 => Place::Stands,
            3 => Place::Waits,
            4 => Place::Inside,
            _ => {
                let (doing, tray) = self.doing();
                Place::At(doing, tray)
            }
        }
    }
}

fn doing_words(program: &Program, doing: &str, tray: u8) -> String {
    match doing {
        "block" => doing.to_owned(),
        _ => format!("{doing} {}", program.tray_name(tray)),
    }
}

impl Who {
    fn words(&self, program: &Program) -> String {
        match self {
            Who::Rule(rule) => rule.clone(),
            Who::Doing(doing, tray) => doing_words(program, doing, *tray),
        }
    }

    fn is(&self, graph: &Graph<'_>, station: &Station) -> bool {
        match self {
            Who::Rule(rule) => graph
                .called(station)
                .any(|(name, _)| name.as_ref() == Some(rule)),
            Who::Doing(doing, tray) => does(station, doing, *tray),
        }
    }
}

fn does(station: &Station, doing: &str, tray: u8) -> bool {
    match station.does {
        Does::Put(to) => doing == "put" && to == tray,
        Does::Take(from, _) => doing == "take" && from == tray,
        Does::Repeatedly(from, _) => doing == "repeatedly take" && from == tray,
        Does::Block(_) => doing == "block",
    }
}

impl Place {
    fn words(&self, program: &Program) -> String {
        match self {
            Place::Anywhere => String::new(),
            Place::Stands => " stands".to_owned(),
            Place::Waits => " waits".to_owned(),
            Place::Inside => " inside".to_owned(),
            Place::At(doing, tray) => format!(" at {}", doing_words(program, doing, *tray)),
        }
    }

    fn is(&self, graph: &Graph<'_>, who: &Who, station: &Station) -> bool {
        match self {
            Place::Anywhere | Place::Stands => true,
            Place::Waits => !matches!(station.does, Does::Put(_)),
            Place::Inside => {
                let rule = matches!(who, Who::Rule(_));
                rule && graph.called(station).any(|(_, kept)| *kept)
            }
            Place::At(doing, tray) => does(station, doing, *tray),
        }
    }
}

fn number(graph: &Graph<'_>, now: &Situation, who: &Who, place: &Place) -> i64 {
    let stations = now.stations.iter();
    let there = stations.filter(|it| who.is(graph, it) && place.is(graph, who, it));
    i64::try_from(there.count()).unwrap()
}

/// When events are so: where they can come next, never, or by this station's step.
#[derive(Clone, Copy, Debug)]
pub(crate) enum Moment<'a> {
    Next,
    Still,
    Step(&'a Station),
}

impl Condition {
    pub(crate) fn words(&self, program: &Program) -> String {
        let sum = |sum: &[(bool, Value)]| {
            let mut words = String::new();
            for (at, (minus, value)) in sum.iter().enumerate() {
                if at > 0 {
                    words.push_str(if *minus { " - " } else { " + " });
                }
                words.push_str(&match value {
                    Value::Number(number) => number.to_string(),
                    Value::Tray(tray) => program.tray_name(*tray),
                    Value::Stations => "stations".to_owned(),
                    Value::Standing(who, place) => who.words(program) + &place.words(program),
                });
            }
            words
        };
        match self {
            Condition::Compare(left, sign, right) => format!("{} {sign} {}", sum(left), sum(right)),
            Condition::SoMany(1, who, place) => who.words(program) + &place.words(program),
            Condition::SoMany(many, who, place) => {
                format!("{many} of {}{}", who.words(program), place.words(program))
            }
            Condition::Event(who, event) => format!("{} {event}", who.words(program)),
            Condition::Not(inner) => format!("not ({})", inner.words(program)),
            Condition::Both(one, other) => {
                format!("({}) and ({})", one.words(program), other.words(program))
            }
            Condition::Either(one, other) => {
                format!("({}) or ({})", one.words(program), other.words(program))
            }
        }
    }

    pub(crate) fn is_so(&self, graph: &Graph<'_>, at: usize, moment: Moment<'_>) -> bool {
        let now = &graph.situations[at];
        let total = |sum: &[(bool, Value)]| -> i64 {
            let values = sum.iter().map(|(minus, value)| {
                let value = match value {
                    Value::Number(number) => *number,
                    Value::Tray(tray) => now.counts[usize::from(*tray)].into(),
                    Value::Stations => i64::try_from(now.stations.len()).unwrap(),
                    Value::Standing(who, place) => number(graph, now, who, place),
                };
                if *minus {
                    -value
                } else {
                    value
                }
            });
            values.sum()
        };
        match self {
            Condition::Compare(left, sign, right) => {
                let order = total(left).cmp(&total(right));
                match *sign {
                    "=" => order.is_eq(),
                    "!=" => order.is_ne(),
                    "<" => order.is_lt(),
                    "<=" => order.is_le(),
                    ">" => order.is_gt(),
                    _ => order.is_ge(),
                }
            }
            Condition::SoMany(many, who, place) => number(graph, now, who, place) >= *many,
            Condition::Event(who, event) => {
                let block = |it: &Station| matches!(it.does, Does::Block(_)) && who.is(graph, it);
                match moment {
                    Moment::Still => false,
                    Moment::Step(station) => block(station),
                    Moment::Next => {
                        now.stations
                            .iter()
                            .filter(|it| block(it))
                            .any(|it| match *event {
                                "commits" => graph.steps[at].iter().any(|(who, _)| who == it),
                                "gives up" => graph.first_way(now, it).is_none(),
                                _ => graph.can_be_robbed(at, it),
                            })
                    }
                }
            }
            Condition::Not(inner) => !inner.is_so(graph, at, moment),
            Condition::Both(one, other) => {
                one.is_so(graph, at, moment) && other.is_so(graph, at, moment)
            }
            Condition::Either(one, other) => {
                one.is_so(graph, at, moment) || other.is_so(graph, at, moment)
            }
        }
    }
}
