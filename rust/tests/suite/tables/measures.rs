//! Width, branches and length at their limits, in many shapes.

use reference::build::Builder;
use reference::generator::Random;
use reference::table::byte_of;

use crate::common::answers::{table_gives, ACCEPTED};

/// How a sum is made of ones: the number of the term that has it.
type Sum = fn(&mut dyn FnMut(u8, u8) -> u8, u8, usize) -> u8;

/// Doubled as often as it goes, then the powers of two added up.
fn by_doubling(add: &mut dyn FnMut(u8, u8) -> u8, one: u8, sum: usize) -> u8 {
    let mut power = one;
    let mut all = None;
    for bit in 0.. {
        if sum >> bit & 1 == 1 {
            all = Some(all.map_or(power, |all| add(power, all)));
        }
        if sum >> bit <= 1 {
            break;
        }
        power = add(power, power);
    }
    all.expect("a sum of at least one")
}

fn chain_to_the_left(add: &mut dyn FnMut(u8, u8) -> u8, one: u8, sum: usize) -> u8 {
    (1..sum).fold(one, |all, _| add(all, one))
}

fn chain_to_the_right(add: &mut dyn FnMut(u8, u8) -> u8, one: u8, sum: usize) -> u8 {
    (1..sum).fold(one, |all, _| add(one, all))
}

fn chain_to_both_sides(add: &mut dyn FnMut(u8, u8) -> u8, one: u8, sum: usize) -> u8 {
    (1..sum).fold(one, |all, turn| {
        if turn % 2 == 0 {
            add(all, one)
        } else {
            add(one, all)
        }
    })
}

fn by_halves(add: &mut dyn FnMut(u8, u8) -> u8, one: u8, sum: usize) -> u8 {
    if sum == 1 {
        return one;
    }
    let left = by_halves(add, one, sum / 2);
    let right = by_halves(add, one, sum - sum / 2);
    add(left, right)
}

/// A third to the left, and there the other way round.
fn by_thirds(add: &mut dyn FnMut(u8, u8) -> u8, one: u8, sum: usize) -> u8 {
    if sum < 3 {
        return chain_to_the_left(add, one, sum);
    }
    let more = by_thirds(add, one, sum - sum / 3);
    let less = chain_to_both_sides(add, one, sum / 3);
    if sum % 2 == 1 {
        add(more, less)
    } else {
        add(less, more)
    }
}

const SUMS: [Sum; 6] = [
    by_doubling,
    chain_to_the_left,
    chain_to_the_right,
    chain_to_both_sides,
    by_halves,
    by_thirds,
];

/// The last record written has three bytes and is over a limit.
#[track_caller]
fn last_is_over(table: &Builder) {
    table_gives(&table.start(0), (7, table.offset() - 3));
    table_gives(&table.bytes(), (7, table.offset() - 3));
}

#[test]
fn widths_64_and_65() {
    let ones: [fn(&mut Builder) -> u8; 8] = [
        |table| table.nil(),
        |table| table.put(7),
        |table| {
            let nil = table.nil();
            table.take(1, nil)
        },
        |table| {
            let put = table.put(7);
            table.repeated_take(1, put)
        },
        |table| {
            let end = table.end();
            table.atom(end)
        },
        // Width does not look behind a take.
        |table| {
            let put = table.put(7);
            let wide = (0..6).fold(put, |all, _| table.side_by_side(all, all));
            table.take(1, wide)
        },
        |table| {
            let put = table.put(7);
            let wide = (0..6).fold(put, |all, _| table.side_by_side(all, all));
            table.repeated_take(1, wide)
        },
        // Nor into a block.
        |table| {
            let end = table.end();
            let long = longer(table, end, 16, 0x1234);
            let eight = (0..3).fold(long, |all, _| table.or_else(all, all));
            table.atom(eight)
        },
    ];
    for one in ones {
        for sum in SUMS {
            for width in [2, 3, 63, 64, 65] {
                let mut table = Builder::new();
                let one = one(&mut table);
                let top = sum(
                    &mut |left, right| table.side_by_side(left, right),
                    one,
                    width,
                );
                if width <= 64 {
                    table_gives(&table.start(top), ACCEPTED);
                } else {
                    last_is_over(&table);
                }
            }
        }
    }
}

/// Any two widths added: 64 * 63 / 2 of the sums are at most 64.
#[test]
fn any_two_widths() {
    let mut chain = Builder::new();
    let one = chain.put(0);
    chain.copies(one, 64);
    let mut accepted = 0;
    for left in 1..=64 {
        for right in 1..=64 {
            let mut table = chain.clone();
            let both = table.side_by_side(left - 1, right - 1);
            if left + right <= 64 {
                table_gives(&table.start(both), ACCEPTED);
                accepted += 1;
            } else {
                last_is_over(&table);
            }
        }
    }
    assert_eq!(accepted, 64 * 63 / 2);
}

#[test]
fn branches_8_and_9() {
    let ones: [fn(&mut Builder) -> u8; 4] = [
        |table| table.end(),
        |table| table.retry(),
        |table| {
            let end = table.end();
            table.rd(3, end)
        },
        |table| {
            let retry = table.retry();
            (0..8).fold(retry, |all, _| table.wt(15, all))
        },
    ];
    for one in ones {
        for sum in SUMS {
            for branches in 2..=9 {
                // Reads and writes between the forks change nothing.
                for between in [None, Some(9), Some(10)] {
                    let mut table = Builder::new();
                    let one = one(&mut table);
                    let mut add = |left, right| {
                        let right = match between {
                            Some(kind) if right != one => table.term(&[kind, 2, right]),
                            _ => right,
                        };
                        table.or_else(left, right)
                    };
                    let top = sum(&mut add, one, branches);
                    if branches <= 8 {
                        let atom = table.atom(top);
                        table_gives(&table.start(atom), ACCEPTED);
                    } else {
                        last_is_over(&table);
                    }
                }
            }
        }
    }
}

/// Any two numbers of branches added: 8 * 7 / 2 of the sums are at most 8.
#[test]
fn any_two_numbers_of_branches() {
    let mut chain = Builder::new();
    chain.end();
    for branches in 1..8 {
        chain.or_else(0, branches - 1);
    }
    let mut accepted = 0;
    for left in 1..=8 {
        for right in 1..=8 {
            let mut table = chain.clone();
            let both = table.or_else(left - 1, right - 1);
            if left + right <= 8 {
                let atom = table.atom(both);
                table_gives(&table.start(atom), ACCEPTED);
                accepted += 1;
            } else {
                last_is_over(&table);
            }
        }
    }
    assert_eq!(accepted, 8 * 7 / 2);
}

/// Adds so many reads and writes, as the bits say.
fn longer(table: &mut Builder, from: u8, by: usize, bits: usize) -> u8 {
    (0..by).fold(from, |rest, at| {
        if bits >> at & 1 == 1 {
            table.wt(byte_of(at), rest)
        } else {
            table.rd(15 - byte_of(at), rest)
        }
    })
}

/// The top is 16 long: accepted, and one more read or write is too long.
#[track_caller]
fn sixteen_long(table: &Builder, top: u8) {
    let mut at_the_limit = table.clone();
    let atom = at_the_limit.atom(top);
    table_gives(&at_the_limit.start(atom), ACCEPTED);
    for kind in [9, 10] {
        let mut over = table.clone();
        over.term(&[kind, 0, top]);
        last_is_over(&over);
    }
}

#[test]
fn lengths_16_and_17() {
    // Reads alone, writes alone, by turns, halves, and any others.
    let mut random = Random::new(16);
    let mut patterns = vec![0, 0xFFFF, 0x5555, 0xAAAA, 0x00FF, 0xFF00];
    patterns.extend((0..50).map(|_| random.below(0x1_0000)));
    for bits in patterns {
        for kind in [7, 8] {
            let mut table = Builder::new();
            let last = table.term(&[kind]);
            let top = longer(&mut table, last, 16, bits);
            sixteen_long(&table, top);
            // A fork somewhere on the way: the longer side is the left one, the
            // right one, or both.
            for below in 0..=16 {
                for shorter in [0, below / 2, below] {
                    for long_to_the_left in [false, true] {
                        let mut table = Builder::new();
                        let last = table.term(&[kind]);
                        let short = longer(&mut table, last, shorter, bits);
                        let long = longer(&mut table, last, below, bits);
                        let fork = if long_to_the_left {
                            table.or_else(long, short)
                        } else {
                            table.or_else(short, long)
                        };
                        let top = longer(&mut table, fork, 16 - below, bits >> below);
                        sixteen_long(&table, top);
                    }
                }
            }
        }
    }
}

/// Forks in forks: all sides shorter but one, at each of the eight places.
#[test]
fn the_longest_of_eight_sides() {
    for sum in SUMS {
        for longest in 0..8 {
            let mut table = Builder::new();
            let end = table.end();
            let short = longer(&mut table, end, 3, 5);
            let long = longer(&mut table, end, 12, 0x0F0F);
            // The sides are numbered as the sum meets its ones.
            let mut sides = 0;
            let mut side = |number: u8| {
                if number != short {
                    return number;
                }
                sides += 1;
                if sides - 1 == longest {
                    long
                } else {
                    short
                }
            };
            let mut add = |left: u8, right: u8| {
                let (left, right) = (side(left), side(right));
                table.or_else(left, right)
            };
            let top = sum(&mut add, short, 8);
            // Doubling has but two sides of its own; the sum is the same.
            let length = if longest < sides { 12 } else { 3 };
            let top = longer(&mut table, top, 16 - length, longest);
            sixteen_long(&table, top);
        }
    }
}

/// Both limits at once: 8 branches and 16 long, so anything on top is refused.
#[test]
fn branches_and_length_at_once() {
    let mut table = Builder::new();
    let end = table.end();
    let long = longer(&mut table, end, 16, 0x3333);
    let two = table.or_else(long, long);
    let four = table.or_else(two, two);
    let top = table.or_else(four, four);
    sixteen_long(&table, top);
    for other in [end, long, two, four, top] {
        for (left, right) in [(top, other), (other, top)] {
            let mut over = table.clone();
            over.or_else(left, right);
            last_is_over(&over);
        }
    }
}
