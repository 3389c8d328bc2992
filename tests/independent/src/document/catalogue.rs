//! The catalogue of request S-12: counted by Gauss's formula, and listed by testing each monic polynomial by itself: in degree 2 its discriminant, else
//! by trial division where there are not too many, and by greatest common divisors.

use super::divisor;
use super::polynomial::all_lists;
use super::{first, is_prime, model_number};

/// Trial division is taken for up to so many polynomials.
pub const TRIALS: u32 = 4_096;

/// μ(d): 0 where the square of a prime divides d, else 1 or −1 as the number of primes that divide d is even or odd.
fn moebius(d: u32) -> i64 {
    let primes = (2..=d).filter(|&q| d % q == 0 && is_prime(q));
    primes.map(|q| if d % (q * q) == 0 { 0 } else { -1 }).product()
}

/// How many irreducible monic polynomials of degree n there are: the sum of the μ(d)·p^(n/d), over the divisors d of n, divided by n.
pub fn gauss(p: u32, n: u32) -> u32 {
    let sum: i64 = (1..=n).filter(|d| n % d == 0).map(|d| moebius(d) * i64::from(p).pow(n / d)).sum();
    assert_eq!(sum % i64::from(n), 0);
    (sum / i64::from(n)) as u32
}

/// "The monic polynomials of degree n without a monic divisor of degree 1 to n − 1", one by one. `all_lists` counts up with the highest power in front,
/// so they come in ascending order.
pub fn by_test(p: u32, n: u32, has_divisor: fn(u32, &[u32]) -> bool) -> Vec<u32> {
    all_lists(p, n).filter(|t| !has_divisor(p, t)).flatten().collect()
}

/// X² + bX + c modulo an odd p has a divisor exactly if b² − 4c is a square.
pub fn by_discriminant(p: u32) -> Vec<u32> {
    let mut squares = vec![false; p as usize];
    (0..p).for_each(|a| squares[(a * a % p) as usize] = true);
    let discriminant = |t: &[u32]| (t[1] * t[1] + 4 * (p - t[0])) % p;
    all_lists(p, 2).filter(|t| !squares[discriminant(t) as usize]).flatten().collect()
}

fn all_moduli(p: u32, n: u32) -> Vec<u32> {
    match n {
        1 => (0..p).collect(),
        2 if p > 2 => by_discriminant(p),
        _ if p.pow(n) <= TRIALS => by_test(p, n, divisor::by_trial),
        _ => by_test(p, n, divisor::by_common_divisors),
    }
}

/// Refusal 29, or 0.
fn size_number(p: u32, n: u32) -> u32 {
    let size = u64::from(p).checked_pow(n);
    u32::from(size.map_or(true, |size| size > 65_536)) * 29
}

/// The number, and how many there are.
pub fn count(p: u32, n: u32) -> (u32, u32) {
    match first(&[&|| model_number(p, n), &|| size_number(p, n)]) {
        0 => (0, gauss(p, n)),
        refusal => (refusal, 0),
    }
}

/// The number, and what the output list holds after the call.
pub fn list(p: u32, n: u32, out: &[u32]) -> (u32, Vec<u32>) {
    let (number, count) = count(p, n);
    match first(&[&|| number, &|| u32::from(out.len() != (n * count) as usize) * 3]) {
        0 => (0, all_moduli(p, n)),
        refusal => (refusal, out.to_vec()),
    }
}
