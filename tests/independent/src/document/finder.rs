//! The finder's values for two models without divisors. Each model has an α, found by one of two methods without looking at the other model, and the
//! polynomial P of degree below n with P(α) = X. The found maps take the one α to the other, so that they compose.

use super::kept::Kept;
use super::model::{Model, Residue};
use super::{eigenvector, tower};

pub struct Pair {
    pub alpha1: Residue,
    pub alpha2: Residue,
    pub s: Residue,
    pub r: Residue,
}

/// How α is found.
#[derive(Clone, Copy, Debug, PartialEq)]
pub enum Method {
    /// n divides p − 1.
    Eigenvector,
    /// n = p^k with k ≥ 1.
    Tower,
}

/// The method of a size, if it has one. "A degree of 1 keeps the first method."
pub fn method(p: u32, n: u32) -> Option<Method> {
    let is_power = || (1..=4).any(|k| u128::from(p).pow(k) == u128::from(n));
    if (p - 1) % n == 0 {
        Some(Method::Eigenvector)
    } else if is_power() {
        Some(Method::Tower)
    } else {
        None
    }
}

thread_local! {
    /// α and P of models met before.
    static GENERATORS: Kept<(u64, Vec<u32>), (Residue, Residue)> = Kept::new();
}

/// α of a model, and P.
fn generator(model: &Model) -> (Residue, Residue) {
    let searched = || match method(model.p as u32, model.modulus.len() as u32).unwrap() {
        Method::Eigenvector => eigenvector::generator(model),
        Method::Tower => tower::generator(model),
    };
    GENERATORS.with(|kept| kept.get((model.p, model.modulus.to_vec()), searched))
}

pub fn pair(p: u32, t1: &[u32], t2: &[u32]) -> Pair {
    let (k1, k2) = (Model::new(p, t1), Model::new(p, t2));
    let [(alpha1, p1), (alpha2, p2)] = [&k1, &k2].map(generator);
    // the inverse map sends α2 to α1
    let (s, r) = (k2.substitute(&alpha2, &p1), k1.substitute(&alpha1, &p2));
    Pair { alpha1, alpha2, s, r }
}
