//! Pairs of Algorithm 2.1 with any choices: ζ of order n, eigenvectors α1 and α2 for it, and c with c^n·α2^n = α1^n. All of them are accepted, those
//! that were found before request S-6 among them.

use super::eigenvector::{eigenvector, express, nth_power, zeta};
use super::model::{Model, Residue};
use super::polynomial::power;

/// S = P1(c·α2) and R = P2(α1/c) for each c, from the smallest up.
pub fn pairs(k1: &Model, k2: &Model, zeta: u64, alpha1: &[u32], alpha2: &[u32]) -> Vec<(Residue, Residue)> {
    let (p, n) = (k1.p, k1.modulus.len() as u64);
    let (a1, a2) = (nth_power(k1, alpha1), nth_power(k2, alpha2));
    let (p1, p2) = (express(k1, zeta, alpha1), express(k2, zeta, alpha2));
    let forth = |c: u64| k2.substitute(&k2.scaled(c, alpha2), &p1);
    let back = |c: u64| k1.substitute(&k1.scaled(power(p, c, p - 2), alpha1), &p2);
    let smallest = (1..p).find(|&c| power(p, c, n) * a2 % p == a1).unwrap();
    // the others are its products with the powers of ζ
    let mut factors: Vec<u64> = (0..n).map(|k| smallest * power(p, zeta, k) % p).collect();
    factors.sort();
    factors.into_iter().map(|c| (forth(c), back(c))).collect()
}

/// The pair that was found before request S-6: the smallest ζ and c, and eigenvectors whose first coefficient that is not zero is 1.
pub fn pair(p: u32, t1: &[u32], t2: &[u32]) -> (Residue, Residue) {
    let (k1, k2) = (Model::new(p, t1), Model::new(p, t2));
    let zeta = zeta(p.into(), t1.len() as u64);
    pairs(&k1, &k2, zeta, &eigenvector(&k1, zeta), &eigenvector(&k2, zeta)).swap_remove(0)
}
