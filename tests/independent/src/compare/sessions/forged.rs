//! Values made otherwise: one part of a value is changed, so that the value may count as something else.

use super::value::{current, with_current};
use crate::library::{Held, Record, Session as Value};
use crate::random::Random;

/// Below p, or one that 4 is for.
fn word(random: &mut Random, p: u32) -> u32 {
    if random.once_in(2) {
        random.below(p.max(1).into()) as u32
    } else {
        random.large_word(p)
    }
}

/// Of what the current or the waiting session holds.
fn held(random: &mut Random, mut value: Held) -> Held {
    let place = random.below(16) as usize;
    match random.below(9) {
        0 => value.state = [0, 1, 2, 3, u32::MAX][random.below(5) as usize],
        1 => value.p = random.modulus_number(),
        2 => value.n = random.degree(),
        3 => value.t1[place] = word(random, value.p),
        4 => value.t2[place] = word(random, value.p),
        5 => value.s[place] = word(random, value.p),
        6 => value.r[place] = word(random, value.p),
        // of an empty session nothing else is looked at
        7 => value = Held { state: 0, p: random.next() as u32, n: random.next() as u32, t1: [u32::MAX; 16], ..value },
        _ => value.state = 1 + value.state % 2,
    }
    value
}

/// A ledger that is full or nearly so, of numbers with few and with many digits; records that do not count are drawn too.
fn filled(random: &mut Random, value: &mut Value) {
    value.records = 510 + random.below(3) as u32;
    for record in &mut value.ledger {
        let bits = 1 + random.below(32);
        *record = Record { direction: random.below(2) as u32, residues: (random.next() >> (64 - bits)) as u32 };
    }
}

fn ledger(random: &mut Random, value: &mut Value) {
    // the last record that counts, the first that does not, or any
    let count = value.records.min(512) as usize;
    let record = [count.max(1) - 1, count.min(511), random.below(512) as usize][random.below(3) as usize];
    match random.below(4) {
        0 => value.records = [0, 511, 512, 513, 65_536, u32::MAX][random.below(6) as usize],
        1 => value.ledger[record].direction = [0, 1, 2, 256, 65_536, u32::MAX][random.below(6) as usize],
        2 => value.ledger[record].residues = u32::MAX,
        _ => filled(random, value),
    }
}

/// Of the open table; where none is open, neither its residues nor its waiting session is looked at.
fn table(random: &mut Random, value: &mut Value) {
    match random.below(5) {
        0 => value.open = [0, 1, 2, 3, u32::MAX][random.below(5) as usize],
        1 => value.fed = random.next() as u32,
        // parts of up to 12 residues are on both sides of the limit
        2 => value.fed = u32::MAX - random.below(16) as u32,
        3 => {
            value.open = 1 + random.below(2) as u32;
            value.waiting = current(value);
        }
        _ => {
            let waiting = value.waiting;
            value.waiting = current(value);
            *value = with_current(value, waiting);
        }
    }
}

pub fn forged(random: &mut Random, mut value: Value) -> Value {
    match random.below(4) {
        0 => return with_current(&value, held(random, current(&value))),
        1 => value.waiting = held(random, value.waiting),
        2 => ledger(random, &mut value),
        _ => table(random, &mut value),
    }
    value
}
