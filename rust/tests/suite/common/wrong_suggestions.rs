//! Wrong ways to suggest. What a test of suggestions has met shows which of them
//! it would have noticed.

use std::cmp::Reverse;

/// A way to suggest: from all accepted choices, kind, position and node of each,
/// it takes one or none.
pub(crate) struct Wrong {
    pub(crate) name: &'static str,
    pub(crate) suggests: fn(&[[u8; 3]]) -> Option<[u8; 3]>,
}

/// The right one, for any order of the list: lowest position, then lowest node.
pub(crate) fn first_of(all: &[[u8; 3]]) -> Option<[u8; 3]> {
    least(all, |[_, position, node]| (position, node))
}

/// The choice with the least key.
fn least<K: Ord>(all: &[[u8; 3]], key: impl Fn([u8; 3]) -> K) -> Option<[u8; 3]> {
    all.iter().copied().min_by_key(|choice| key(*choice))
}

/// The right one of those choices that are looked at.
fn first_where(all: &[[u8; 3]], looked_at: impl Fn([u8; 3]) -> bool) -> Option<[u8; 3]> {
    let some: Vec<[u8; 3]> = all.iter().copied().filter(|it| looked_at(*it)).collect();
    first_of(&some)
}

/// None of them is right on every hall.
pub(crate) const WRONG: [Wrong; 8] = [
    Wrong {
        name: "the last accepted choice",
        suggests: |all| least(all, |[_, position, node]| Reverse((position, node))),
    },
    Wrong {
        name: "the highest node",
        suggests: |all| least(all, |[_, position, node]| (position, Reverse(node))),
    },
    Wrong {
        name: "the node before the position",
        suggests: |all| least(all, |[_, position, node]| (node, position)),
    },
    Wrong {
        name: "kind 1 before kind 2",
        suggests: |all| least(all, |choice| choice),
    },
    Wrong {
        name: "kind 2 before kind 1",
        suggests: |all| {
            least(all, |[kind, position, node]| {
                (Reverse(kind), position, node)
            })
        },
    },
    Wrong {
        name: "the first position that can move is passed over",
        suggests: |all| {
            let first = first_of(all)?;
            first_where(all, |choice| choice[1] != first[1])
        },
    },
    Wrong {
        name: "still where position 0 cannot move",
        suggests: |all| first_of(all).filter(|first| first[1] == 0),
    },
    Wrong {
        name: "no node but 0",
        suggests: |all| first_where(all, |choice| choice[2] == 0),
    },
];
