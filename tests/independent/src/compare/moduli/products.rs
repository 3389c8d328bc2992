//! Products of irreducible polynomials, which are refused, for every way to write n as a sum of at least two degrees: with distinct factors where
//! there are as many, and with factors drawn one by one; and powers f^k. The factors themselves are accepted.

use super::{compare_known, Tally};
use crate::document::polynomial::{lower_words, monic, product, Polynomial};
use crate::random::Random;

/// Irreducible polynomials modulo p, by degree from 1; no product of degree 16 needs more distinct ones.
struct Factors {
    p: u32,
    of_degree: Vec<Vec<Polynomial>>,
}

impl Factors {
    fn new(random: &mut Random, p: u32) -> Self {
        Factors { p, of_degree: (1..=16).map(|degree| distinct_factors(random, p, degree)).collect() }
    }

    fn list(&self, degree: usize) -> &[Polynomial] {
        &self.of_degree[degree - 1]
    }

    fn multiplied<'a>(&self, factors: impl Iterator<Item = &'a Polynomial>) -> Vec<u32> {
        lower_words(&factors.fold(vec![1], |value, f| product(self.p.into(), &value, f)))
    }

    /// A product with these degrees that takes the factors of one degree in turn.
    fn distinct(&self, degrees: &[usize]) -> Vec<u32> {
        let turn = |k: usize| degrees[..k].iter().filter(|&&degree| degree == degrees[k]).count();
        self.multiplied((0..degrees.len()).map(|k| {
            let list = self.list(degrees[k]);
            &list[turn(k) % list.len()]
        }))
    }

    /// A product with these degrees, each factor drawn for itself.
    fn drawn(&self, random: &mut Random, degrees: &[usize]) -> Vec<u32> {
        self.multiplied(degrees.iter().map(|&degree| {
            let list = self.list(degree);
            &list[random.below(list.len() as u64) as usize]
        }))
    }
}

/// 16 / degree irreducible polynomials, or fewer where no more turn up.
fn distinct_factors(random: &mut Random, p: u32, degree: u32) -> Vec<Polynomial> {
    let mut list = Vec::new();
    for _ in 0..100 {
        let f = monic(&random.modulus(p, degree, false));
        if !list.contains(&f) {
            list.push(f);
        }
        if list.len() as u32 == 16 / degree {
            break;
        }
    }
    list
}

/// The ways to write n as a sum of numbers up to `largest`, without regard to their order.
fn sums(n: usize, largest: usize) -> Vec<Vec<usize>> {
    if n == 0 {
        return vec![Vec::new()];
    }
    let first = |part: usize| sums(n - part, part).into_iter().map(move |rest| [vec![part], rest].concat());
    (1..=n.min(largest)).flat_map(first).collect()
}

fn compare_products(random: &mut Random, factors: &Factors, n: usize, tally: &mut Tally) {
    for degrees in sums(n, n - 1) {
        compare_known(factors.p, &factors.distinct(&degrees), 6, tally);
        compare_known(factors.p, &factors.drawn(random, &degrees), 6, tally);
    }
}

fn compare_powers(factors: &Factors, n: usize, tally: &mut Tally) {
    for k in (2..=n).filter(|k| n % k == 0) {
        for f in factors.list(n / k) {
            compare_known(factors.p, &factors.multiplied(vec![f; k].into_iter()), 6, tally);
        }
    }
}

pub fn run(random: &mut Random, tally: &mut Tally) {
    for p in [2, 3, 5, 251, 65_521, 1_048_573] {
        let factors = Factors::new(random, p);
        for f in factors.of_degree.iter().flatten() {
            compare_known(p, &lower_words(f), 0, tally);
        }
        for n in 2..=16 {
            compare_products(random, &factors, n, tally);
            compare_powers(&factors, n, tally);
        }
    }
}
