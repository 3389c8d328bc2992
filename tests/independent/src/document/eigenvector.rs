//! The first method, for n that divides p − 1: α is an eigenvector of the p-th power σ in a model without divisors, as request S-6 has it. With ζ of
//! order n, the resolvent Σ ζ^(−i) σ^i(θ) is an eigenvector of σ for ζ or 0; and P(α) = X means P(ζ^k·α) = σ^k(X), so P's coefficients are sums over
//! the conjugates of X.

use super::kept::Kept;
use super::model::{Model, Residue};
use super::polynomial::power;

/// Whether z^n = 1 and no lower power is 1.
pub fn has_order(p: u64, n: u64, z: u64) -> bool {
    power(p, z, n) == 1 && (1..n).all(|k| power(p, z, k) != 1)
}

thread_local! {
    /// ζ of sizes met before.
    static ZETAS: Kept<(u64, u64), u64> = Kept::new();
}

/// The smallest number from 1 to p − 1 of order n.
pub fn zeta(p: u64, n: u64) -> u64 {
    let searched = || (1..p).find(|&z| has_order(p, n, z)).unwrap();
    ZETAS.with(|kept| kept.get((p, n), searched))
}

/// ζ, and the smallest a from 1 to p − 1 with a^((p−1)/n) = ζ.
pub fn zeta_and_a(p: u64, n: u64) -> (u64, u64) {
    let zeta = zeta(p, n);
    (zeta, (1..p).find(|&a| power(p, a, (p - 1) / n) == zeta).unwrap())
}

/// The sum of ζ^(−i·step) times the i-th conjugate.
fn resolvent(model: &Model, zeta: u64, step: u64, conjugates: &[Residue]) -> Residue {
    let n = conjugates.len() as u64;
    let factor = power(model.p, zeta, (n - step % n) % n);
    let terms = conjugates.iter().enumerate().map(|(i, u)| model.scaled(power(model.p, factor, i as u64), u));
    terms.fold(model.constant(0), |sum, term| model.sum(&sum, &term))
}

/// The eigenvector for ζ whose first coefficient that is not zero is 1: a multiple of the first resolvent of a power of X that is not 0. The power 1
/// comes last, as its resolvent is 0 unless n = 1.
pub fn eigenvector(model: &Model, zeta: u64) -> Residue {
    let starts = (1..model.modulus.len() as u64).chain([0]).map(|k| model.power(&model.x(), k));
    let monic = |vector: Residue| {
        let lead = *vector.iter().find(|&&word| word != 0)?;
        Some(model.scaled(power(model.p, lead.into(), model.p - 2), &vector))
    };
    starts.map(|start| resolvent(model, zeta, 1, &model.conjugates(start))).find_map(monic).unwrap()
}

/// α^n, which σ fixes: a constant.
pub fn nth_power(model: &Model, alpha: &[u32]) -> u64 {
    model.coerced(&model.power(alpha, model.modulus.len() as u64))
}

/// The eigenvector with n-th power a and the smallest first coefficient, which is tried from 1 up.
fn alpha(model: &Model, zeta: u64, a: u64) -> Residue {
    let (vector, n) = (eigenvector(model, zeta), model.modulus.len() as u64);
    let b = nth_power(model, &vector);
    let first = (1..model.p).find(|&first| power(model.p, first, n) * b % model.p == a).unwrap();
    model.scaled(first, &vector)
}

/// The polynomial P of degree below n with P(α) = X: its i-th coefficient is the i-th resolvent of X, divided by n·α^i.
pub fn express(model: &Model, zeta: u64, alpha: &[u32]) -> Residue {
    let n = model.modulus.len() as u64;
    let conjugates = model.conjugates(model.x());
    let denominator = power(model.p, n * nth_power(model, alpha) % model.p, model.p - 2);
    let coefficient = |i: u64| {
        let quotient = model.product(&resolvent(model, zeta, i, &conjugates), &model.power(alpha, n - i));
        model.coerced(&model.scaled(denominator, &quotient)) as u32
    };
    (0..n).map(coefficient).collect()
}

/// α and P.
pub fn generator(model: &Model) -> (Residue, Residue) {
    let (zeta, a) = zeta_and_a(model.p, model.modulus.len() as u64);
    let alpha = alpha(model, zeta, a);
    let expressed = express(model, zeta, &alpha);
    (alpha, expressed)
}
