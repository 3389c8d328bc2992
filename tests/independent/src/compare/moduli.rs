//! The test of one modulus for divisors: on all small moduli, on products and powers of irreducible polynomials, on X^n − a, on random moduli of
//! every degree, and on what it refuses before.

mod binomials;
mod products;
mod small;

use super::Tally;
use crate::document;
use crate::library;
use crate::random::Random;
use yokebean::{irreducible, Size};

/// The number on which both sides agree.
fn compare(p: u32, n: u32, t: &[u32], tally: &mut Tally) -> u32 {
    let want = document::irreducible(p, n, t);
    tally.compare("irreducible", want, &(p, n, t), &library::number(irreducible(Size { p, n }, t)), &want);
    want
}

/// Both sides must give the number that is known beforehand.
fn compare_known(p: u32, t: &[u32], known: u32, tally: &mut Tally) {
    assert_eq!(compare(p, t.len() as u32, t, tally), known, "p = {p}, T = {t:?}");
}

/// Each number with those after it in the order applying as well.
fn in_order(tally: &mut Tally) {
    let calls: [(u32, u32, &[u32], u32); 12] = [
        (9, 17, &[9, 0], 1),
        (1_048_583, 0, &[], 1),
        (65_537, 0, &[], 2),
        (0, 2, &[0, 0], 1),
        (3, 17, &[3; 16], 2),
        (3, 0, &[], 2),
        (3, 2, &[3, 0, 0], 3),
        (3, 2, &[3], 3),
        (3, 2, &[], 3),
        (3, 2, &[0, 3], 4),
        (3, 2, &[0, 0], 6),
        (3, 2, &[1, 0], 0),
    ];
    for (p, n, t, known) in calls {
        assert_eq!(compare(p, n, t, tally), known);
    }
}

pub fn run(rounds: u64, tally: &mut Tally) {
    let random = &mut Random::new(0xa076_1d64_78bd_642f);
    in_order(tally);
    small::run(tally);
    products::run(random, tally);
    binomials::run(random, tally);
    for _ in 0..rounds {
        let (p, n) = (random.prime(), 1 + random.below(16) as u32);
        compare(p, n, &random.uniform(p, n), tally);
        compare(p, n, &random.words(p, n, true), tally);

        // anything at all
        let (p, n) = (random.modulus_number(), random.degree());
        compare(p, n, &random.words(p, n, true), tally);
    }
}
