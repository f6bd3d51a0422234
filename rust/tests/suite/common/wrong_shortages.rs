//! Wrong ways to tell what was short. What a test of steps has met shows which of
//! them it would have noticed.

use reference::moves::{ARDF, ARDOK, ATFAIL, ATOK, ATRE};

use super::shortages::{lowest, Seen, Told};

/// The right answer, but by this rule another one.
fn but_at(seen: &Seen, rule: u8, told: impl FnOnce() -> Told) -> Told {
    if seen.rule == rule {
        told()
    } else {
        seen.told()
    }
}

/// A way to tell what was short.
pub(crate) struct Wrong {
    pub(crate) name: &'static str,
    pub(crate) tells: fn(&Seen) -> Told,
}

/// None of them is right on every hall.
pub(crate) const WRONG: [Wrong; 18] = [
    Wrong {
        name: "nothing by rule 6",
        tells: |seen| but_at(seen, ATFAIL, || None),
    },
    Wrong {
        name: "nothing by rule 9",
        tells: |seen| but_at(seen, ARDF, || None),
    },
    Wrong {
        name: "something by rule 5",
        tells: |seen| but_at(seen, ATRE, || lowest(&seen.reads(), &seen.now)),
    },
    Wrong {
        name: "something by rule 7",
        tells: |seen| but_at(seen, ATOK, || lowest(&seen.reads(), &seen.snapshot)),
    },
    Wrong {
        name: "something by rule 8",
        tells: |seen| but_at(seen, ARDOK, || lowest(&seen.reads(), &seen.now)),
    },
    Wrong {
        name: "rule 6 by the snapshot",
        tells: |seen| but_at(seen, ATFAIL, || lowest(&seen.reads(), &seen.snapshot)),
    },
    Wrong {
        name: "rule 9 by the counts of now",
        tells: |seen| but_at(seen, ARDF, || lowest(&seen.reads(), &seen.now)),
    },
    Wrong {
        name: "rule 9 without the read that it makes",
        tells: |seen| but_at(seen, ARDF, || lowest(&seen.logged(), &seen.snapshot)),
    },
    Wrong {
        name: "the highest tray",
        tells: |seen| seen.told().and(seen.all_short().last().copied()),
    },
    Wrong {
        name: "the tray of which most is missing",
        tells: |seen| {
            let all = seen.all_short();
            seen.told().and(all.into_iter().max_by_key(|(_, by)| *by))
        },
    },
    Wrong {
        name: "the short tray that is read first",
        tells: |seen| {
            let all = seen.all_short();
            let its_own = |read| all.iter().find(|(tray, _)| *tray == read).copied();
            seen.told().and(seen.trays_read().find_map(its_own))
        },
    },
    Wrong {
        name: "the tray that is read last",
        tells: |seen| {
            let last = seen.trays_read().last();
            let all = seen.all_short();
            let its_own = all.iter().find(|(tray, _)| Some(*tray) == last).copied();
            seen.told().and(its_own.or(last.map(|tray| (tray, 1))))
        },
    },
    Wrong {
        name: "the tray after it",
        tells: |seen| seen.told().map(|(tray, by)| (tray + 1, by)),
    },
    Wrong {
        name: "by one more",
        tells: |seen| seen.told().map(|(tray, by)| (tray, by + 1)),
    },
    Wrong {
        name: "always by one",
        tells: |seen| seen.told().map(|(tray, _)| (tray, 1)),
    },
    Wrong {
        name: "by as many as are read",
        tells: |seen| {
            let told = seen.told();
            told.map(|(tray, _)| (tray, seen.reads()[usize::from(tray)]))
        },
    },
    Wrong {
        name: "by what is missing of all trays",
        tells: |seen| {
            let all = seen.all_short().iter().map(|(_, by)| by).sum();
            seen.told().map(|(tray, _)| (tray, all))
        },
    },
    Wrong {
        name: "its own writes count",
        tells: |seen| {
            let (mut reads, writes) = (seen.reads(), seen.writes());
            for (reads, writes) in reads.iter_mut().zip(writes) {
                *reads = reads.saturating_sub(writes);
            }
            seen.told().and(lowest(&reads, seen.held_against()))
        },
    },
];
