//! Pairs of Algorithm 2.1 with other choices than the finder's, those found before request S-6 among them: the checker accepts each, alone and as
//! proposed to a session.

use super::case::Case;
use super::pairs::compare_check;
use super::sessions::Calls;
use super::{sizes, Tally};
use crate::document::earlier;
use crate::document::eigenvector::{eigenvector, has_order, zeta};
use crate::document::model::{Model, Residue};
use crate::document::polynomial::power;
use crate::random::Random;

fn accept(case: &Case, tally: &mut Tally) {
    let Case { p, n, t1, t2, s, r } = case;
    assert_eq!(compare_check(case, tally), 0);
    let mut calls = Calls::new(tally);
    calls.load(*p, *n, t1, t2, tally);
    assert_eq!(calls.propose(s, r, tally), 0);
}

/// Any number of order n: a power of one of them.
fn any_zeta(random: &mut Random, p: u64, n: u64) -> u64 {
    let smallest = zeta(p, n);
    loop {
        let zeta = power(p, smallest, random.below(n));
        if has_order(p, n, zeta) {
            return zeta;
        }
    }
}

/// For any ζ and any multiples of the eigenvectors, with each of the n numbers c: these are n different pairs.
fn any_pairs(random: &mut Random, p: u32, t1: &[u32], t2: &[u32]) -> Vec<(Residue, Residue)> {
    let zeta = any_zeta(random, p.into(), t1.len() as u64);
    let [k1, k2] = [t1, t2].map(|t| Model::new(p, t));
    let [alpha1, alpha2] = [&k1, &k2].map(|model| model.scaled(1 + random.below(model.p - 1), &eigenvector(model, zeta)));
    let pairs = earlier::pairs(&k1, &k2, zeta, &alpha1, &alpha2);
    assert_eq!(pairs.iter().collect::<std::collections::BTreeSet<_>>().len(), t1.len());
    pairs
}

pub fn run(rounds: u64, tally: &mut Tally) {
    let random = &mut Random::new(0x1656_67b1_9e37_79f9);
    for _ in 0..rounds {
        for (p, n) in sizes::divisors(random) {
            let [t1, t2] = [0; 2].map(|_| random.modulus(p, n, false));
            let mut pairs = any_pairs(random, p, &t1, &t2);
            pairs.push(earlier::pair(p, &t1, &t2));
            for (s, r) in pairs {
                accept(&Case { p, n, t1: t1.clone(), t2: t2.clone(), s, r }, tally);
            }
        }
    }
}
