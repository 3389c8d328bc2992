//! X^n − a, where the order of a modulo p decides (Lidl and Niederreiter, Finite Fields, Theorem 3.75).

use super::{compare_known, Tally};
use crate::random::Random;

/// The smallest e from 1 with a^e = 1, for a that is not 0.
fn order(p: u32, a: u32) -> u32 {
    let powers = std::iter::successors(Some(u64::from(a)), |&power| Some(power * u64::from(a) % u64::from(p)));
    1 + powers.take_while(|&power| power != 1).count() as u32
}

/// With e the order of a: every prime q that divides n divides e and not (p − 1)/e, and 4 divides p − 1 if it divides n.
fn is_irreducible(p: u32, n: u32, a: u32) -> bool {
    if n == 1 || a == 0 {
        return n == 1;
    }
    let e = order(p, a);
    let is_prime = |q: u32| (2..q).all(|d| q % d != 0);
    let mut primes = (2..=n).filter(|&q| n % q == 0 && is_prime(q));
    primes.all(|q| e % q == 0 && (p - 1) / e % q != 0) && (n % 4 != 0 || (p - 1) % 4 == 0)
}

fn compare_binomial(p: u32, n: u32, a: u32, tally: &mut Tally) {
    let mut t = vec![0; n as usize];
    t[0] = (p - a) % p;
    compare_known(p, &t, if is_irreducible(p, n, a) { 0 } else { 6 }, tally);
}

pub fn run(random: &mut Random, tally: &mut Tally) {
    for p in [2, 3, 5, 7, 13, 17, 23, 31, 97, 251, 257, 1009, 65_519, 65_521, 65_537, 786_433, 1_048_573] {
        for n in 1..=16 {
            for a in [0, 1, p - 1] {
                compare_binomial(p, n, a, tally);
            }
            for _ in 0..6 {
                compare_binomial(p, n, random.below(p.into()) as u32, tally);
            }
        }
    }
}
