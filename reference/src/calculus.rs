//! `AtCCS` without hiding and message values: the syntax of Table 1 and the
//! reductions of Tables 2 and 3 of document 004, over plain trees. It knows
//! nothing of rule tables, halls and choices, and nothing of their limits.
//!
//! Where the printed tables slip, this is the reading taken: RD looks past
//! writes and WT past reads, both are empty on the empty log; ATOK goes to the
//! state without RD of the log and lays down WT of the log as outputs in log
//! order; COM keeps the state and has the putter on either side.

use std::collections::BTreeMap;

/// A name: a, b.
pub type Name = u8;

/// A finite multiset of names. Names that occur 0 times have no entry.
#[derive(Clone, Debug, Default, PartialEq, Eq, PartialOrd, Ord)]
pub struct Multiset {
    times: BTreeMap<Name, u32>,
}

impl Multiset {
    /// No element.
    pub fn empty() -> Multiset {
        Multiset::default()
    }

    /// How often the name occurs.
    pub fn times(&self, name: Name) -> u32 {
        self.times.get(&name).copied().unwrap_or(0)
    }

    /// This multiset with so many more of the name.
    #[must_use]
    pub fn plus_times(&self, name: Name, more: u32) -> Multiset {
        let mut sum = self.clone();
        if more > 0 {
            *sum.times.entry(name).or_insert(0) += more;
        }
        sum
    }

    /// This multiset with one more of the name.
    #[must_use]
    pub fn plus(&self, name: Name) -> Multiset {
        self.plus_times(name, 1)
    }

    /// True when every name occurs here at most as often as there.
    pub fn within(&self, other: &Multiset) -> bool {
        self.times
            .iter()
            .all(|(name, times)| *times <= other.times(*name))
    }

    /// This multiset without the elements found in the other.
    #[must_use]
    pub fn minus(&self, other: &Multiset) -> Multiset {
        let mut difference = Multiset::empty();
        for (name, times) in &self.times {
            let left = times.saturating_sub(other.times(*name));
            difference = difference.plus_times(*name, left);
        }
        difference
    }
}

/// An action of an expression and an entry of a log.
#[derive(Clone, Copy, Debug, PartialEq, Eq, PartialOrd, Ord)]
pub enum Act {
    /// A read of the name.
    Rd(Name),
    /// A write of the name.
    Wt(Name),
}

/// M, N.
#[derive(Clone, Debug, PartialEq, Eq, PartialOrd, Ord)]
pub enum Expression {
    /// It has done its work.
    End,
    /// It gives up.
    Retry,
    /// An action, then an expression.
    Prefix(Act, Box<Expression>),
    /// The first, or the second where the first gives up.
    OrElse(Box<Expression>, Box<Expression>),
}

/// A, B.
#[derive(Clone, Debug, PartialEq, Eq, PartialOrd, Ord)]
pub enum Ongoing {
    /// An expression with its own state and log.
    Of {
        /// What is still to be done.
        expression: Expression,
        /// The state when the block began.
        state: Multiset,
        /// What was done.
        log: Vec<Act>,
    },
    /// An alternative of which both sides go on.
    OrElse(Box<Ongoing>, Box<Ongoing>),
}

/// P, Q.
#[derive(Clone, Debug, PartialEq, Eq, PartialOrd, Ord)]
pub enum Process {
    /// It does nothing.
    Nil,
    /// An output of the name.
    Output(Name),
    /// An input of the name, then a process.
    Input(Name, Box<Process>),
    /// An input of the name that stays, with a process for each time.
    Replicated(Name, Box<Process>),
    /// Two processes in parallel.
    Parallel(Box<Process>, Box<Process>),
    /// A block that has not begun.
    Atom(Expression),
    /// A block that has begun.
    Block {
        /// How far it has come.
        ongoing: Ongoing,
        /// The code it began from.
        code: Expression,
    },
}

/// The axiom at the top of a derivation. PARL, PARR, ATPASS, AOL and AOR only
/// carry it through.
#[derive(Clone, Copy, Debug, PartialEq, Eq, PartialOrd, Ord)]
pub enum Rule {
    /// OUT.
    Out,
    /// IN.
    In,
    /// REP.
    Rep,
    /// ATST.
    AtSt,
    /// ATRE.
    AtRe,
    /// ATFAIL.
    AtFail,
    /// ATOK.
    AtOk,
    /// ARDOK.
    ArdOk,
    /// ARDF.
    ArdF,
    /// AWR.
    Awr,
    /// AOI.
    Aoi,
    /// AOF.
    Aof,
    /// AOE.
    Aoe,
    /// COM: two reductions in one, over this name.
    Com(Name),
}

/// One derivation: its rule, and the process and state it ends in.
#[derive(Clone, Debug, PartialEq, Eq, PartialOrd, Ord)]
pub struct Reduction {
    /// The axiom at its top, or COM.
    pub rule: Rule,
    /// The process it ends in.
    pub process: Process,
    /// The state it ends in.
    pub state: Multiset,
}

/// RD of a log.
pub fn rd(log: &[Act]) -> Multiset {
    let mut names = Multiset::empty();
    for act in log {
        if let Act::Rd(name) = act {
            names = names.plus(*name);
        }
    }
    names
}

/// WT of a log, kept in log order.
pub fn wt(log: &[Act]) -> Vec<Name> {
    let mut names = Vec::new();
    for act in log {
        if let Act::Wt(name) = act {
            names.push(*name);
        }
    }
    names
}

/// Two processes in parallel.
pub fn parallel(left: Process, right: Process) -> Process {
    Process::Parallel(Box::new(left), Box::new(right))
}

/// The components of a process, left to right: what is left of it up to nil
/// and grouping.
pub fn components(process: &Process) -> Vec<Process> {
    match process {
        Process::Nil => vec![],
        Process::Parallel(left, right) => {
            let mut all = components(left);
            all.extend(components(right));
            all
        }
        other => vec![other.clone()],
    }
}

/// Every derivation of a reduction from this process in this state.
pub fn reductions(process: &Process, state: &Multiset) -> Vec<Reduction> {
    let mut all = single_reductions(process, state);
    all.extend(com_reductions(process, state));
    all
}

/// Table 2 without COM.
fn single_reductions(process: &Process, state: &Multiset) -> Vec<Reduction> {
    let one = |rule, process, state| {
        vec![Reduction {
            rule,
            process,
            state,
        }]
    };
    match process {
        Process::Nil => vec![],
        Process::Output(name) => one(Rule::Out, Process::Nil, state.plus(*name)),
        Process::Input(name, then) => match without_one(state, *name) {
            None => vec![],
            Some(left) => one(Rule::In, (**then).clone(), left),
        },
        Process::Replicated(name, then) => match without_one(state, *name) {
            None => vec![],
            Some(left) => {
                let again = parallel((**then).clone(), process.clone());
                one(Rule::Rep, again, left)
            }
        },
        Process::Parallel(left, right) => {
            let mut all = Vec::new();
            for step in single_reductions(left, state) {
                all.push(on_the_left(step, right));
            }
            for step in single_reductions(right, state) {
                all.push(on_the_right(left, step));
            }
            all
        }
        Process::Atom(code) => {
            let ongoing = Ongoing::Of {
                expression: code.clone(),
                state: state.clone(),
                log: vec![],
            };
            let block = Process::Block {
                ongoing,
                code: code.clone(),
            };
            one(Rule::AtSt, block, state.clone())
        }
        Process::Block { ongoing, code } => {
            let mut all = closing_reductions(ongoing, code, state);
            for (rule, next) in ongoing_reductions(ongoing) {
                let block = Process::Block {
                    ongoing: next,
                    code: code.clone(),
                };
                all.extend(one(rule, block, state.clone()));
            }
            all
        }
    }
}

/// The state with one of the name taken out, if it has one.
fn without_one(state: &Multiset, name: Name) -> Option<Multiset> {
    let one = Multiset::empty().plus(name);
    if one.within(state) {
        Some(state.minus(&one))
    } else {
        None
    }
}

/// PARL.
fn on_the_left(step: Reduction, right: &Process) -> Reduction {
    Reduction {
        process: parallel(step.process, right.clone()),
        ..step
    }
}

/// PARR.
fn on_the_right(left: &Process, step: Reduction) -> Reduction {
    Reduction {
        process: parallel(left.clone(), step.process),
        ..step
    }
}

/// ATRE, ATFAIL and ATOK.
fn closing_reductions(ongoing: &Ongoing, code: &Expression, state: &Multiset) -> Vec<Reduction> {
    let Ongoing::Of {
        expression, log, ..
    } = ongoing
    else {
        return vec![];
    };
    let (rule, process, after) = match expression {
        Expression::Retry => (Rule::AtRe, Process::Atom(code.clone()), state.clone()),
        Expression::End if rd(log).within(state) => {
            let mut outputs = Process::Nil;
            for name in wt(log) {
                outputs = parallel(outputs, Process::Output(name));
            }
            (Rule::AtOk, outputs, state.minus(&rd(log)))
        }
        Expression::End => (Rule::AtFail, Process::Atom(code.clone()), state.clone()),
        _ => return vec![],
    };
    vec![Reduction {
        rule,
        process,
        state: after,
    }]
}

/// Table 3.
fn ongoing_reductions(ongoing: &Ongoing) -> Vec<(Rule, Ongoing)> {
    match ongoing {
        Ongoing::Of {
            expression,
            state,
            log,
        } => expression_reduction(expression, state, log),
        Ongoing::OrElse(left, right) => {
            let mut all = Vec::new();
            if let Ongoing::Of { expression, .. } = &**left {
                match expression {
                    Expression::Retry => all.push((Rule::Aof, (**right).clone())),
                    Expression::End => all.push((Rule::Aoe, (**left).clone())),
                    _ => {}
                }
            }
            for (rule, next) in ongoing_reductions(left) {
                all.push((rule, Ongoing::OrElse(Box::new(next), right.clone())));
            }
            for (rule, next) in ongoing_reductions(right) {
                all.push((rule, Ongoing::OrElse(left.clone(), Box::new(next))));
            }
            all
        }
    }
}

/// ARDOK, ARDF, AWR and AOI.
fn expression_reduction(
    expression: &Expression,
    state: &Multiset,
    log: &[Act],
) -> Vec<(Rule, Ongoing)> {
    let of = |expression: &Expression, log: Vec<Act>| Ongoing::Of {
        expression: expression.clone(),
        state: state.clone(),
        log,
    };
    match expression {
        Expression::End | Expression::Retry => vec![],
        Expression::Prefix(act, rest) => {
            let mut longer = log.to_vec();
            longer.push(*act);
            match act {
                Act::Wt(_) => vec![(Rule::Awr, of(rest, longer))],
                Act::Rd(_) if rd(&longer).within(state) => vec![(Rule::ArdOk, of(rest, longer))],
                Act::Rd(_) => vec![(Rule::ArdF, of(&Expression::Retry, log.to_vec()))],
            }
        }
        Expression::OrElse(left, right) => {
            let left = of(left, log.to_vec());
            let right = of(right, log.to_vec());
            let both = Ongoing::OrElse(Box::new(left), Box::new(right));
            vec![(Rule::Aoi, both)]
        }
    }
}

/// COM at every parallel composition, the putter on either side. A premise
/// changes the state and so is never itself a COM.
fn com_reductions(process: &Process, state: &Multiset) -> Vec<Reduction> {
    let Process::Parallel(left, right) = process else {
        return vec![];
    };
    let mut all = Vec::new();
    for step in com_reductions(left, state) {
        all.push(on_the_left(step, right));
    }
    for step in com_reductions(right, state) {
        all.push(on_the_right(left, step));
    }
    for (name, putter, taker) in handovers(left, right, state) {
        all.push(Reduction {
            rule: Rule::Com(name),
            process: parallel(putter, taker),
            state: state.clone(),
        });
    }
    for (name, putter, taker) in handovers(right, left, state) {
        all.push(Reduction {
            rule: Rule::Com(name),
            process: parallel(taker, putter),
            state: state.clone(),
        });
    }
    all
}

/// All ways in which the first adds one name to the state and the second,
/// from there, comes back to the state.
fn handovers(putter: &Process, taker: &Process, state: &Multiset) -> Vec<(Name, Process, Process)> {
    let mut all = Vec::new();
    for given in single_reductions(putter, state) {
        let Some(name) = added_name(state, &given.state) else {
            continue;
        };
        for taken in single_reductions(taker, &given.state) {
            if taken.state == *state {
                all.push((name, given.process.clone(), taken.process));
            }
        }
    }
    all
}

/// The name by which the second multiset exceeds the first, if it does so by
/// exactly one.
fn added_name(before: &Multiset, after: &Multiset) -> Option<Name> {
    let more = after.minus(before);
    let (name, _) = more.times.first_key_value()?;
    if before.plus(*name) == *after {
        Some(*name)
    } else {
        None
    }
}
