//! Takes and repeated takes that open as much as there may be side by side: what
//! was opened stands in the order of the leaves, whatever the term leans to.

use reference::build::Builder;
use reference::run::Tally;
use ruonfidd::opening_turns;

use crate::common::by_hand::{hall, joined, PUTTING, WAITING};
use crate::common::calls::Sequence;

const WIDTH: usize = 64;
/// The tray that is taken from.
const TRAY: u8 = 6;
/// The rules of the two takes.
const IN: u8 = 2;
const REP: u8 = 3;

/// Leaves that are nils: none, one at either end or within, some here and there.
const NILS: [&[usize]; 6] = [
    &[],
    &[0],
    &[63],
    &[30],
    &[0, 1, 17, 40, 62, 63],
    &[2, 3, 4, 31, 32, 33, 50, 61],
];

/// One process of the leaves, side by side in their order.
type Shape = fn(&mut Builder, &[u8]) -> u8;

/// Each shape, and how many terms are left to open at most while it is opened.
const SHAPES: [(&str, Shape, usize); 4] = [
    ("leaning to the left", to_the_left, 64),
    ("leaning to the right", to_the_right, 2),
    ("to both sides by turns", by_turns, 33),
    ("in pairs", in_pairs, 7),
];

/// Each term's left side is a term of its own, 63 deep: all leaves but the first
/// are still to open when the first one is come to.
fn to_the_left(table: &mut Builder, leaves: &[u8]) -> u8 {
    let mut all = leaves[0];
    for leaf in &leaves[1..] {
        all = table.side_by_side(all, *leaf);
    }
    all
}

fn to_the_right(table: &mut Builder, leaves: &[u8]) -> u8 {
    let (last, front) = leaves.split_last().expect("leaves");
    let mut all = *last;
    for leaf in front.iter().rev() {
        all = table.side_by_side(*leaf, all);
    }
    all
}

/// From leaf 32 outwards: 31 to its left, 33 to its right, 30 to its left, and so
/// on to 63 and 0. The 31 on the right are still to open when 31 and 32 are come
/// to.
fn by_turns(table: &mut Builder, leaves: &[u8]) -> u8 {
    let mut all = leaves[32];
    for outwards in 0..32 {
        all = table.side_by_side(leaves[31 - outwards], all);
        if let Some(leaf) = leaves.get(33 + outwards) {
            all = table.side_by_side(all, *leaf);
        }
    }
    all
}

fn in_pairs(table: &mut Builder, leaves: &[u8]) -> u8 {
    let mut level = leaves.to_vec();
    while level.len() > 1 {
        level = level
            .chunks(2)
            .map(|pair| table.side_by_side(pair[0], pair[1]))
            .collect();
    }
    level[0]
}

/// A process 64 wide, a take and a repeated take that open it, and the stations
/// that it opens, no two of them alike.
struct Wide {
    table: Vec<u8>,
    take: u8,
    repeated: u8,
    opened: Vec<u8>,
}

impl Wide {
    /// By turns a put, into trays 0 to 15 one after the other, a take, a repeated
    /// take and a block, each a term of its own; but these leaves are nils.
    fn new(nils: &[usize], (name, shape, most_left): (&str, Shape, usize)) -> Wide {
        let mut table = Builder::new();
        let nil = table.nil();
        let end = table.end();
        let mut leaves = Vec::new();
        let mut opened = Vec::new();
        for (group, tray) in (0..16).enumerate() {
            let put = table.put(tray);
            let take = table.take(tray, nil);
            let again = table.repeated_take(tray, nil);
            let block = table.atom(end);
            for (within, (term, station)) in [
                (put, [PUTTING, tray]),
                (take, [WAITING, take]),
                (again, [WAITING, again]),
                (block, [WAITING, block]),
            ]
            .into_iter()
            .enumerate()
            {
                if nils.contains(&(4 * group + within)) {
                    leaves.push(nil);
                } else {
                    leaves.push(term);
                    opened.extend(station);
                }
            }
        }
        assert_eq!(leaves.len(), WIDTH);
        assert_eq!(opened.len(), 2 * (WIDTH - nils.len()));
        let all = shape(&mut table, &leaves);
        // The shape is the one that was meant.
        let turns = opening_turns(&table.start(all)).map(|turns| turns.map(|turn| turn.left).max());
        assert_eq!(turns, Ok(Some(most_left)), "{name}");
        Wide {
            take: table.take(TRAY, all),
            repeated: table.repeated_take(TRAY, all),
            table: table.start(nil),
            opened,
        }
    }

    /// So many stations stand before this take and so many behind it. It is done
    /// by its rule, in a step and in a run, and leaves what it opens in its place.
    #[track_caller]
    fn opens(&self, rule: u8, before: usize, behind: usize) {
        let (sequence, [front, back]) = self.about_to_take(rule, before, behind);
        let stays: &[u8] = match rule {
            REP => &[WAITING, self.repeated],
            _ => &[],
        };
        let mut expected = hall(&joined(&[&front, &self.opened, stays, &back]));
        expected[usize::from(TRAY)] = 4;
        let position = u8::try_from(before).expect("a position");
        let mut by_step = sequence.copy();
        assert_eq!(by_step.step([1, position, 0]), (0, 2, rule), "{by_step}");
        assert!(by_step.hall == expected, "{by_step}");
        let mut by_run = sequence.copy();
        assert_eq!(by_run.run(&[1, position]), (0, 2, 1), "{by_run}");
        assert!(by_run.hall == expected, "{by_run}");
    }

    /// With so many around it this take would leave too many: nothing changes.
    #[track_caller]
    fn is_refused(&self, rule: u8, before: usize, behind: usize) {
        let (mut sequence, _) = self.about_to_take(rule, before, behind);
        let unchanged = sequence.hall.clone();
        let position = u8::try_from(before).expect("a position");
        assert_eq!(sequence.step([1, position, 0]), (19, 0, 0), "{sequence}");
        assert_eq!(sequence.run(&[1, position]), (19, 0, 0), "{sequence}");
        assert!(sequence.hall == unchanged, "{sequence}");
    }

    /// The take of this rule with five tokens to take, and the stations before it
    /// and behind it.
    fn about_to_take(&self, rule: u8, before: usize, behind: usize) -> (Sequence, [Vec<u8>; 2]) {
        let term = if rule == IN { self.take } else { self.repeated };
        let front: Vec<u8> = (0..16).flat_map(|tray| [PUTTING, tray]).collect();
        let back: Vec<u8> = (0..16).rev().flat_map(|tray| [PUTTING, tray]).collect();
        let around = [front[..2 * before].to_vec(), back[..2 * behind].to_vec()];
        let mut stored = hall(&joined(&[&around[0], &[WAITING, term], &around[1]]));
        stored[usize::from(TRAY)] = 5;
        let sequence = Sequence::new(&self.table, &stored, Tally::FRESH);
        (sequence, around)
    }
}

/// Alone in the hall, and with as many around it as there may be, before it,
/// behind it or on both sides; with one more it is refused.
#[track_caller]
fn opens_wherever_it_stands(wide: &Wide, rule: u8, room: usize) {
    wide.opens(rule, 0, 0);
    for before in [0, room / 2, room] {
        wide.opens(rule, before, room - before);
        wide.is_refused(rule, before, room + 1 - before);
        wide.is_refused(rule, before + 1, room - before);
    }
}

#[test]
fn a_take_opens_64_side_by_side() {
    for shape in SHAPES {
        for nils in NILS {
            opens_wherever_it_stands(&Wide::new(nils, shape), IN, nils.len());
        }
    }
}

/// It stands behind what it opened and is one of the 64 itself.
#[test]
fn a_repeated_take_opens_64_side_by_side() {
    for shape in SHAPES {
        for nils in NILS {
            let wide = Wide::new(nils, shape);
            match nils.len().checked_sub(1) {
                Some(room) => opens_wherever_it_stands(&wide, REP, room),
                None => wide.is_refused(REP, 0, 0),
            }
        }
    }
}
