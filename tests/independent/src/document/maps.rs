//! All the maps of request S-5: every residue is tried where there are not too many; else they are the conjugates of S, sorted.

use super::check_with_squares;
use super::model::{Model, Residue};
use super::polynomial::all_lists;

/// Every residue is tried where there are up to so many.
pub const TRIALS: u64 = 4_096;

/// Of all residues those S' with T1(S') = 0 mod T2. `all_lists` counts up with the highest power in front, so they come in ascending order.
pub fn by_trial(p: u32, t1: &[u32], t2: &[u32]) -> Vec<Residue> {
    let model = Model::new(p, t2);
    let zero = model.constant(0);
    all_lists(p, t2.len() as u32).filter(|s| model.modulus_at(t1, s) == zero).collect()
}

/// S, S^p, S^(p²), …, sorted: "Compare coefficients from the highest power down".
pub fn by_conjugates(p: u32, t2: &[u32], s: &[u32]) -> Vec<Residue> {
    let mut list = Model::new(p, t2).conjugates(s.to_vec());
    list.sort_by(|u, v| u.iter().rev().cmp(v.iter().rev()));
    list
}

fn all_maps(p: u32, t1: &[u32], t2: &[u32], s: &[u32]) -> Vec<Residue> {
    let residues = u64::from(p).checked_pow(t2.len() as u32);
    if residues.map_or(false, |residues| residues <= TRIALS) {
        by_trial(p, t1, t2)
    } else {
        by_conjugates(p, t2, s)
    }
}

/// The number, and what the output list holds after the call.
pub fn maps(p: u32, n: u32, lists: [&[u32]; 4], out: &[u32]) -> (u32, Vec<u32>) {
    match check_with_squares(p, n, lists, &[out]) {
        0 => (0, all_maps(p, lists[0], lists[1], lists[2]).concat()),
        refusal => (refusal, out.to_vec()),
    }
}

/// The n accepted pairs over two moduli, from one of them: to S^(p^k) belongs R^(p^(n−k)).
pub fn pairs(p: u32, t1: &[u32], t2: &[u32], s: &[u32], r: &[u32]) -> Vec<(Residue, Residue)> {
    let mut back = Model::new(p, t1).conjugates(r.to_vec());
    back[1..].reverse();
    Model::new(p, t2).conjugates(s.to_vec()).into_iter().zip(back).collect()
}
