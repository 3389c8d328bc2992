//! Whether a monic polynomial has a monic divisor of degree 1 to n − 1: by trial division where there are not too many polynomials to try, else by
//! greatest common divisors.

use super::model::Model;
use super::polynomial::{all_lists, common_divisor, monic, remainder};

/// Trial division is taken for up to so many polynomials of the largest degree.
const TRIALS: u64 = 1_000;

/// Whether the polynomial with the lower words t has a monic divisor of degree 1 to n − 1.
pub fn has_divisor(p: u32, t: &[u32]) -> bool {
    let trials = u64::from(p).checked_pow(t.len() as u32 / 2);
    if trials.map_or(false, |trials| trials <= TRIALS) {
        by_trial(p, t)
    } else {
        by_common_divisors(p, t)
    }
}

/// Some monic polynomial of degree 1 to n/2 divides: of two factors, one has at most half the degree.
pub fn by_trial(p: u32, t: &[u32]) -> bool {
    let f = monic(t);
    let divides = |d: Vec<u32>| remainder(p.into(), &f, &monic(&d)).is_empty();
    (1..=t.len() as u32 / 2).any(|degree| all_lists(p, degree).any(divides))
}

/// For some d up to n/2 there is a common divisor with X^(p^d) − X, the product of all irreducible monic polynomials whose degree divides d.
pub fn by_common_divisors(p: u32, t: &[u32]) -> bool {
    let (model, f) = (Model::new(p, t), monic(t));
    let minus_x = model.scaled(model.p - 1, &model.x());
    let mut conjugate = model.x();
    (1..=t.len() / 2).any(|_| {
        conjugate = model.power(&conjugate, model.p);
        let difference: Vec<u64> = model.sum(&conjugate, &minus_x).iter().map(|&c| c.into()).collect();
        common_divisor(model.p, &f, &difference).len() > 1
    })
}
