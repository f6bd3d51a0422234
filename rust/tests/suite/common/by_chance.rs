//! Tables and halls by chance.

use reference::build::Builder;
use reference::generator::{self, Random, Shape};
use reference::hall::{opening, Hall};
use reference::run::{run_choices, Tally};
use reference::table::{read_table, Table};

/// The table in these bytes, which must be accepted.
pub(crate) fn accepted(bytes: &[u8]) -> Table {
    read_table(bytes).expect("an accepted table")
}

/// An accepted table of any of the generator's sorts.
pub(crate) fn any_table(random: &mut Random) -> Vec<u8> {
    match random.below(4) {
        0 => generator::nearly_full_table(random),
        1 | 2 => generator::contended_table(random),
        _ => {
            let shape = Shape::any(random);
            generator::accepted_table(random, shape)
        }
    }
}

/// An accepted table whose start is a tree of processes by chance, nils among
/// them. Now and then many terms stand before it, so that it has high numbers.
pub(crate) fn tree_table(random: &mut Random) -> Vec<u8> {
    let mut table = Builder::new();
    if random.percent(30) {
        for _ in 0..random.between(1, 120) {
            table.put(random.byte_below(16));
        }
    }
    let end = table.end();
    let nil = table.nil();
    let put = table.put(random.byte_below(16));
    let leaves = vec![
        nil,
        nil,
        put,
        table.put(random.byte_below(16)),
        table.take(random.byte_below(16), nil),
        table.repeated_take(random.byte_below(16), put),
        table.atom(end),
    ];
    let width = if random.percent(20) {
        64
    } else {
        random.between(1, 64)
    };
    let all = Tree::any(random, leaves).grown(random, &mut table, width);
    if random.percent(30) {
        table.tokens(random.byte_below(16), random.byte_between(1, 255));
    }
    table.start(all)
}

/// How a tree of two sides each shall look.
struct Tree {
    leaves: Vec<u8>,
    /// To the left, to the right, or anyhow.
    lean: usize,
    /// How wide the smaller side of a leaning tree is at most.
    small: usize,
    /// How many times in a hundred both sides are one term.
    percent_shared: usize,
}

impl Tree {
    fn any(random: &mut Random, leaves: Vec<u8>) -> Tree {
        Tree {
            leaves,
            lean: random.below(3),
            small: random.between(1, 3),
            percent_shared: [0, 10][random.below(2)],
        }
    }

    /// The term of such a tree that is so wide.
    fn grown(&self, random: &mut Random, table: &mut Builder, width: usize) -> u8 {
        if width == 1 {
            return self.leaves[random.below(self.leaves.len())];
        }
        if width % 2 == 0 && random.percent(self.percent_shared) {
            let side = self.grown(random, table, width / 2);
            return table.side_by_side(side, side);
        }
        let small = random.between(1, self.small.min(width - 1));
        let in_left = match self.lean {
            0 => width - small,
            1 => small,
            _ => random.between(1, width - 1),
        };
        let left = self.grown(random, table, in_left);
        let right = self.grown(random, table, width - in_left);
        table.side_by_side(left, right)
    }
}

/// A hall that a run from the opening reaches.
pub(crate) fn reached_hall(random: &mut Random, table: &Table, choices: usize) -> Hall {
    let first = opening(table);
    let bytes = generator::choices(random, table, &first, choices, 10);
    run_choices(table, &first, Tally::FRESH, &bytes).hall
}

/// By turns a hall that a run reaches and one that most often no run reaches.
pub(crate) fn any_hall(random: &mut Random, table: &Table, round: usize) -> Hall {
    if round % 2 == 0 {
        reached_hall(random, table, 20)
    } else {
        generator::hall(random, table)
    }
}
