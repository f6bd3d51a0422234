//! Random halls that meet the limits of the engine and are small all the same.

use reference::build::Builder;
use reference::generator::Random;

/// A hall whose stations want the same tokens, near 64 stations or 255 tokens:
/// most stations wait at a tray that stays empty, so that the others alone make
/// the hall large or small.
pub(crate) fn near_the_limits(random: &mut Random) -> Vec<u8> {
    let mut table = Builder::new();
    let nothing = table.nil();
    let idle = table.take(3, nothing);
    let active = random.between(2, 4);
    let mut all = active_station(random, &mut table);
    for _ in 1..active {
        let part = active_station(random, &mut table);
        all = table.side_by_side(all, part);
    }
    if random.percent(80) {
        let crowd = 64 - active - random.below(2);
        let crowd = crowd_of(&mut table, idle, crowd);
        all = table.side_by_side(crowd, all);
    }
    for tray in 0..3 {
        let count = match random.below(6) {
            0 | 1 => 0,
            2 => random.byte_between(253, 255),
            _ => random.byte_between(1, 2),
        };
        if count > 0 {
            table.tokens(tray, count);
        }
    }
    table.start(all)
}

/// So many equal stations, in halves: few terms are read faster.
fn crowd_of(table: &mut Builder, process: u8, how_many: usize) -> u8 {
    if how_many == 1 {
        return process;
    }
    let half = crowd_of(table, process, how_many / 2);
    let both = table.side_by_side(half, half);
    if how_many % 2 == 0 {
        both
    } else {
        table.side_by_side(both, process)
    }
}

/// Halls that find no way without notes: a put makes room for a take that opens
/// two, while a block holds on to what it saw before.
pub(crate) fn tight(random: &mut Random) -> Vec<u8> {
    let mut table = Builder::new();
    let nothing = table.nil();
    let idle = table.take(3, nothing);
    let put = table.put(0);
    let after = table.put(random.byte_below(3));
    let two = table.side_by_side(after, after);
    let take = table.take(1, two);
    let end = table.end();
    let mut first = end;
    for _ in 0..random.between(0, 3) {
        first = table.wt(random.byte_below(3), first);
    }
    let first = table.rd(0, first);
    let mut second = end;
    for _ in 0..random.between(0, 2) {
        second = table.wt(random.byte_below(3), second);
    }
    let second = if random.percent(40) {
        table.rd(1, second)
    } else {
        second
    };
    let body = table.or_else(first, second);
    let block = table.atom(body);
    let mut parts = vec![put, take, block];
    if random.percent(30) {
        parts.push(active_station(random, &mut table));
    }
    let crowd = 64 - parts.len() - usize::from(random.percent(15));
    let mut all = crowd_of(&mut table, idle, crowd);
    for part in parts {
        all = table.side_by_side(all, part);
    }
    table.tokens(1, random.byte_between(1, 2));
    table.start(all)
}

/// Halls in which an attempt can be stuck near 64 stations: what it saw before a
/// put has no room afterwards. Some have a clock, so that this is no end but a
/// round.
pub(crate) fn stuck(random: &mut Random) -> Vec<u8> {
    let mut table = Builder::new();
    let nothing = table.nil();
    let idle = table.take(3, nothing);
    let put = table.put(0);
    let end = table.end();
    let mut first = end;
    for _ in 0..random.between(0, 1) {
        first = table.wt(random.byte_below(3), first);
    }
    let first = table.rd(0, first);
    let mut body = end;
    for _ in 0..random.between(2, 4) {
        body = table.wt(random.byte_between(1, 2), body);
    }
    if random.percent(30) {
        body = table.rd(1, body);
    }
    if random.percent(30) {
        let other = way(random, &mut table);
        body = table.or_else(other, body);
    }
    let body = table.or_else(first, body);
    let block = table.atom(body);
    let mut parts = vec![put, block];
    if random.percent(40) {
        parts.push(active_station(random, &mut table));
    }
    if random.percent(40) {
        let tick = table.put(4);
        parts.push(table.repeated_take(4, tick));
        table.tokens(4, 1);
    }
    let crowd = 64 - parts.len() - usize::from(random.percent(30));
    let mut all = crowd_of(&mut table, idle, crowd);
    for part in parts {
        all = table.side_by_side(all, part);
    }
    if random.percent(50) {
        table.tokens(1, random.byte_between(1, 2));
    }
    table.start(all)
}

/// Small halls in which tokens go round, beside stations that may come to a
/// standstill.
pub(crate) fn going_round(random: &mut Random) -> Vec<u8> {
    let mut table = Builder::new();
    let mut all = table.nil();
    for _ in 0..random.between(1, 3) {
        let from = random.byte_below(3);
        let mut then = table.put(random.byte_below(3));
        match random.below(6) {
            0 => {
                let more = table.put(random.byte_below(4));
                then = table.side_by_side(then, more);
            }
            1 => {
                let end = table.end();
                let put = table.wt(random.byte_below(3), end);
                let both = table.rd(random.byte_below(3), put);
                let otherwise = table.or_else(both, put);
                then = table.atom(otherwise);
            }
            2 => then = table.take(random.byte_below(3), then),
            _ => {}
        }
        let around = table.repeated_take(from, then);
        all = table.side_by_side(around, all);
    }
    for _ in 0..random.between(0, 2) {
        let part = active_station(random, &mut table);
        all = table.side_by_side(all, part);
    }
    for tray in 0..3 {
        if random.percent(60) {
            table.tokens(tray, random.byte_between(1, 2));
        }
    }
    table.start(all)
}

fn active_station(random: &mut Random, table: &mut Builder) -> u8 {
    let tray = random.byte_below(3);
    match random.below(10) {
        0..=1 => table.put(tray),
        2 => {
            let put = table.put(random.byte_below(3));
            let puts = table.copies(put, random.between(1, 3));
            table.take(tray, puts)
        }
        3 => {
            let put = table.put(random.byte_below(3));
            table.repeated_take(tray, put)
        }
        _ => {
            let mut body = way(random, table);
            for _ in 0..random.below(3) {
                let first = way(random, table);
                body = table.or_else(first, body);
            }
            table.atom(body)
        }
    }
}

fn way(random: &mut Random, table: &mut Builder) -> u8 {
    let mut way = if random.percent(95) {
        table.end()
    } else {
        table.retry()
    };
    for _ in 0..random.below(4) {
        let tray = random.byte_below(3);
        way = if random.percent(50) {
            table.rd(tray, way)
        } else {
            table.wt(tray, way)
        };
    }
    way
}
