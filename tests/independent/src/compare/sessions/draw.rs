//! Session calls drawn at random, refused ones included, with tables in parts between the others.

use super::value::counts_as;
use super::Calls;
use crate::compare::{sizes, Tally};
use crate::document::held::Held;
use crate::document::{self, finder, is_prime};
use crate::random::Random;

/// A table of groups of n words; of a wrong length or with a word of p or more once in a while.
fn table(random: &mut Random, p: u32, n: u32) -> Vec<u32> {
    let groups = if random.once_in(500) { 16_384 / u64::from(n) } else { random.below(12) };
    let mut length = (groups * u64::from(n)) as usize;
    if random.once_in(10) {
        length += 1 + random.below(2) as usize;
    }
    if random.once_in(2000) {
        length = (16_384 / n as usize + 1) * n as usize;
    }
    let mut table = random.uniform(p, length as u32);
    if length > 0 && random.once_in(12) {
        let place = random.below(length as u64) as usize;
        table[place] = random.large_word(p);
    }
    table
}

/// A list to lend for the output, now and then too long.
fn output(random: &mut Random, input: &[u32]) -> Vec<u32> {
    let mut output: Vec<u32> = input.iter().map(|_| random.next() as u32).collect();
    if random.once_in(12) {
        output.push(1);
    }
    output
}

fn models(random: &mut Random) -> (u32, u32, Vec<u32>, Vec<u32>) {
    let p = random.prime();
    let n = if random.once_in(4) { 1 + random.below(16) as u32 } else { sizes::degree(random, p) };
    let modulus = |random: &mut Random| {
        let divisors = n > 1 && random.once_in(12);
        random.modulus(p, n, divisors)
    };
    (p, n, modulus(random), modulus(random))
}

fn load(calls: &mut Calls, random: &mut Random, tally: &mut Tally) {
    let (p, n, t1, t2) = models(random);
    let (p, n) = (if random.once_in(6) { random.modulus_number() } else { p }, if random.once_in(6) { random.degree() } else { n });
    let t2 = if random.once_in(10) { random.words(p, n, true) } else { t2 };
    calls.load(p, n, &t1, &t2, tally);
}

/// Mostly the pair that the finder gives for the models that it is proposed for.
fn propose(calls: &mut Calls, random: &mut Random, tally: &mut Tally) {
    let session = counts_as(&calls.current);
    let (p, n) = match session.acted_on() {
        Held::Loaded { p, n, .. } => (*p, *n),
        _ => (5, 2),
    };
    let words = |random: &mut Random| random.words(p, n, true);
    let (s, r) = match session.acted_on() {
        Held::Loaded { t1, t2, .. } if document::finder_number(p, n, t1, t2) == 0 => {
            let pair = finder::pair(p, t1, t2);
            (pair.s, pair.r)
        }
        _ => (words(random), words(random)),
    };
    let r = if random.once_in(4) { words(random) } else { r };
    calls.propose(&s, &r, tally);
}

/// A part where a table is open and a whole table where none is, or, once in a while, the other way round.
fn convert(calls: &mut Calls, random: &mut Random, tally: &mut Tally) {
    let (p, n) = (calls.current.p, calls.current.n);
    let (p, n) = if (1..=16).contains(&n) && is_prime(p) { (p, n) } else { (5, 2) };
    let input = table(random, p, n);
    let lent = output(random, &input);
    if calls.is_open() != random.once_in(12) {
        calls.feed(&input, lent, tally);
    } else {
        calls.convert(random.once_in(2), &input, lent, tally);
    }
}

pub fn draw(calls: &mut Calls, random: &mut Random, tally: &mut Tally) {
    let open = calls.is_open();
    match random.below(16) {
        0 | 1 => load(calls, random, tally),
        2 => propose(calls, random, tally),
        3 => {
            calls.find(tally);
        }
        4 if random.once_in(3) => calls.clear(tally),
        5 if random.once_in(2) => {
            calls.report(tally);
        }
        6 | 7 if open == random.once_in(8) => {
            calls.begin(random.once_in(2), tally);
        }
        8 if open != random.once_in(8) => {
            calls.end(tally);
        }
        _ => convert(calls, random, tally),
    }
}
