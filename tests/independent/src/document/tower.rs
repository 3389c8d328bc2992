//! The second method, for n = p^k with k ≥ 1: α comes from k rounds, each of which solves v^p = v + a in a model without divisors (Algorithm 4.1 of the
//! source, request S-7). A solution is a sum over the conjugates of a (Hilbert's Theorem 90 for sums), and P with P(α) = X is Lagrange's polynomial,
//! which takes each conjugate of α to that of X.

use super::model::{Model, Residue};
use super::polynomial::{all_lists, power};

/// The sum of all conjugates, which is a constant.
fn trace(model: &Model, u: Residue) -> u64 {
    model.coerced(&model.conjugates(u).iter().fold(model.constant(0), |sum, conjugate| model.sum(&sum, conjugate)))
}

/// 1/u, which is u^(p^n − 2).
fn inverse(model: &Model, u: &[u32]) -> Residue {
    model.power(u, model.p.pow(model.modulus.len() as u32) - 2)
}

/// The v with v^p = v + a and constant coefficient 0. With b_i = a + a^p + …, i terms, and θ a power of X whose trace is not 0, the sum of the
/// b_i·θ^(p^i) is w with w^p = w − a·Tr θ, because b_n = Tr a = 0. Solutions differ by constants.
pub fn solution(model: &Model, a: &[u32]) -> Residue {
    let thetas = (0..model.modulus.len() as u64).map(|k| model.power(&model.x(), k));
    let (theta, trace) = thetas.map(|theta| (theta.clone(), trace(model, theta))).find(|(_, trace)| *trace != 0).unwrap();
    let (mut b, mut w) = (model.constant(0), model.constant(0));
    for (a, theta) in model.conjugates(a.to_vec()).iter().zip(model.conjugates(theta)) {
        w = model.sum(&w, &model.product(&b, &theta));
        b = model.sum(&b, a);
    }
    let mut v = model.scaled(power(model.p, model.p - trace, model.p - 2), &w);
    v[0] = 0;
    v
}

/// The same by trying all residues; there is only one.
pub fn solution_by_trial(model: &Model, a: &[u32]) -> Residue {
    let residues = all_lists(model.p as u32, model.modulus.len() as u32).filter(|v| v[0] == 0);
    let solutions: Vec<Residue> = residues.filter(|v| model.power(v, model.p) == model.sum(v, a)).collect();
    assert_eq!(solutions.len(), 1);
    solutions[0].clone()
}

/// a and α after each round: both begin as 1; a becomes a·α^(p−1), then α the solution for it.
pub fn rounds(model: &Model, solution: fn(&Model, &[u32]) -> Residue) -> Vec<(Residue, Residue)> {
    let (mut a, mut alpha) = (model.constant(1), model.constant(1));
    let degrees = std::iter::successors(Some(model.p), |degree| Some(degree * model.p));
    let round = |_| {
        a = model.product(&a, &model.power(&alpha, model.p - 1));
        alpha = solution(model, &a);
        (a.clone(), alpha.clone())
    };
    degrees.take_while(|&degree| degree <= model.modulus.len() as u64).map(round).collect()
}

/// The polynomial P of degree below n with P(α) = X: the sum, over the conjugates, of X·Q/Q(α), where Q is the product of Y − β over all other
/// conjugates β of α.
pub fn express(model: &Model, alpha: &[u32]) -> Residue {
    let mut q = vec![model.constant(1)];
    for beta in &model.conjugates(alpha.to_vec())[1..] {
        let negative = model.scaled(model.p - 1, beta);
        let mut next: Vec<Residue> = q.iter().map(|c| model.product(c, &negative)).chain([model.constant(0)]).collect();
        for (c, above) in next[1..].iter_mut().zip(&q) {
            *c = model.sum(c, above);
        }
        q = next;
    }
    let at_alpha = q.iter().rev().fold(model.constant(0), |value, c| model.sum(&model.product(&value, alpha), c));
    let factor = model.product(&model.x(), &inverse(model, &at_alpha));
    q.iter().map(|c| trace(model, model.product(c, &factor)) as u32).collect()
}

/// α and P.
pub fn generator(model: &Model) -> (Residue, Residue) {
    let (_, alpha) = rounds(model, solution).pop().unwrap();
    let expressed = express(model, &alpha);
    (alpha, expressed)
}
