//! Cases whose answers are known by how they are made: over moduli with and without divisors, where the four congruences hold and where they fail.

use super::case::{changed_variable, conjugate, Case};
use crate::document::model::Model;
use crate::random::Random;

/// A case, the checker's number for it, and the line that the program prints for its card.
pub struct Known {
    pub case: Case,
    pub number: u32,
    pub line: &'static str,
}

impl Known {
    /// Whether the four congruences hold.
    pub fn congruent(&self) -> bool {
        self.line == "VALID" || self.line == "RING"
    }
}

/// One word of S or R becomes another; S and R determine each other, so a congruence fails.
pub fn changed_word(random: &mut Random, case: &Case) -> Case {
    let (mut case, p) = (case.clone(), u64::from(case.p));
    let list = if random.once_in(2) { &mut case.s } else { &mut case.r };
    let place = random.below(list.len() as u64) as usize;
    list[place] = ((u64::from(list[place]) + 1 + random.below(p - 1)) % p) as u32;
    case
}

/// One modulus on both sides, S = R = X.
fn identity(p: u32, n: u32, t: &[u32]) -> Case {
    let x = Model::new(p, t).x();
    Case { p, n, t1: t.to_vec(), t2: t.to_vec(), s: x.clone(), r: x }
}

/// T1 = X^n − X^(n−1), T2 = X^n, S = R = 0: T1(S) and T2(R) are 0, but the maps lose X.
fn lost(p: u32, n: u32) -> Case {
    let zero = vec![0; n as usize];
    let mut t1 = zero.clone();
    t1[n as usize - 1] = p - 1;
    Case { p, n, t1, t2: zero.clone(), s: zero.clone(), r: zero }
}

/// Any S and R.
fn unrelated(random: &mut Random, p: u32, n: u32, t1: &[u32], t2: &[u32]) -> Case {
    Case { p, n, t1: t1.to_vec(), t2: t2.to_vec(), s: random.words(p, n, false), r: random.words(p, n, false) }
}

/// Over an irreducible modulus.
fn over_field(random: &mut Random, p: u32, n: u32, field: &[u32]) -> Vec<Known> {
    let mut pair = changed_variable(random, p, n, field.to_vec());
    if random.once_in(2) {
        conjugate(&mut pair);
    }
    let wrong = changed_word(random, &pair);
    vec![Known { case: pair, number: 0, line: "VALID" }, Known { case: wrong, number: 8, line: "REFUSED 8" }]
}

/// Over a modulus with divisors, alone and beside an irreducible one.
fn over_ring(random: &mut Random, p: u32, n: u32, field: &[u32], ring: &[u32]) -> Vec<Known> {
    let pair = changed_variable(random, p, n, ring.to_vec());
    let wrong = changed_word(random, &pair);
    vec![
        Known { case: pair, number: 6, line: "RING" },
        Known { case: identity(p, n, ring), number: 6, line: "RING" },
        Known { case: wrong, number: 6, line: "REFUSED 6" },
        Known { case: lost(p, n), number: 6, line: "REFUSED 6" },
        Known { case: unrelated(random, p, n, ring, field), number: 6, line: "REFUSED 6" },
        Known { case: unrelated(random, p, n, field, ring), number: 7, line: "REFUSED 7" },
    ]
}

/// A case of every sort.
pub fn draw_size(random: &mut Random, p: u32, n: u32) -> Vec<Known> {
    let field = random.modulus(p, n, false);
    let mut cases = over_field(random, p, n, &field);
    if n > 1 {
        let ring = random.modulus(p, n, true);
        cases.extend(over_ring(random, p, n, &field, &ring));
    }
    cases
}

/// A case of every sort for each n and several p.
pub fn draw_all(random: &mut Random) -> Vec<Known> {
    let sizes = [2, 3, 5, 251, 65_521, 1_048_573].into_iter().flat_map(|p| (1..=16).map(move |n| (p, n)));
    sizes.flat_map(|(p, n)| draw_size(random, p, n)).collect()
}
