//! Document 01, and of document 02 the requests that have landed, in plain Rust: what the calls must answer, written from the documents and by other
//! methods than the proved code's. Polynomials are multiplied out and divided with remainder; divisors are found by trial division, or by greatest
//! common divisors where there are too many to try; the finder's values come from sums over conjugates (Lagrange resolvents, Hilbert's Theorem 90 for
//! sums), without solving linear systems; all maps of a pair are found by trying every residue, or are powers of S, sorted; isomorphisms are found by
//! a search for tables of values; each column of a matrix is a power by itself; tables are restored from differences by sums that do not wrap; the
//! catalogue is counted by Gauss's formula, and each polynomial is tested by itself; cards are strings of bits.

pub mod card;
pub mod catalogue;
pub mod differences;
pub mod divisor;
pub mod earlier;
pub mod eigenvector;
pub mod finder;
pub mod held;
pub mod isomorphisms;
mod kept;
pub mod maps;
pub mod matrix;
pub mod model;
pub mod polynomial;
pub mod session;
pub mod sheet;
pub mod tower;

use divisor::has_divisor;
use model::Model;

/// Whether p is a prime from 2 to 1,048,575: no d with d·d ≤ p divides it.
pub fn is_prime(p: u32) -> bool {
    (2..=1_048_575).contains(&p) && (2..).take_while(|d| d * d <= p).all(|d| p % d != 0)
}

/// Refusal 2, or 0.
pub fn degree_number(n: u32) -> u32 {
    u32::from(!(1..=16).contains(&n)) * 2
}

/// Refusal 1 or 2, or 0.
pub fn model_number(p: u32, n: u32) -> u32 {
    if is_prime(p) {
        degree_number(n)
    } else {
        1
    }
}

/// Refusal 3 or 4, or 0: `read` are the lists of coefficients that a call reads, `lent` those it writes.
pub fn list_number(p: u32, n: u32, read: &[&[u32]], lent: &[&[u32]]) -> u32 {
    if read.iter().chain(lent).any(|list| list.len() != n as usize) {
        3
    } else if read.iter().any(|list| list.iter().any(|&word| word >= p)) {
        4
    } else {
        0
    }
}

/// Refusal 3, or 0, of lists that must have n·n words.
pub fn square_number(n: u32, lists: &[&[u32]]) -> u32 {
    u32::from(lists.iter().any(|list| list.len() as u64 != u64::from(n) * u64::from(n))) * 3
}

/// Refusal 9 or 10, or 0, of a table and the list it is written into.
pub fn table_number(n: u32, table: &[u32], out: &[u32]) -> u32 {
    if table.len() > 16_384 || table.len() % n as usize != 0 {
        9
    } else if out.len() != table.len() {
        10
    } else {
        0
    }
}

/// The first that applies among 1 to 4.
pub fn number(p: u32, n: u32, read: &[&[u32]], lent: &[&[u32]]) -> u32 {
    first(&[&|| model_number(p, n), &|| list_number(p, n, read, lent)])
}

/// The first number that is not 0; later ones are not worked out.
pub fn first(numbers: &[&dyn Fn() -> u32]) -> u32 {
    numbers.iter().map(|number| number()).find(|&number| number != 0).unwrap_or(0)
}

/// The four congruences.
pub fn congruences(p: u32, t1: &[u32], t2: &[u32], s: &[u32], r: &[u32]) -> bool {
    let (k1, k2) = (Model::new(p, t1), Model::new(p, t2));
    k2.modulus_at(t1, s) == k2.constant(0)
        && k1.modulus_at(t2, r) == k1.constant(0)
        && k1.substitute(r, s) == k1.x()
        && k2.substitute(s, r) == k2.x()
}

/// Refusal 6 or 7, or 0.
pub fn field_number(p: u32, t1: &[u32], t2: &[u32]) -> u32 {
    if has_divisor(p, t1) {
        6
    } else if has_divisor(p, t2) {
        7
    } else {
        0
    }
}

/// Refusal 6, 7 or 8, or 0: "Acceptance means field moduli and the four congruences".
pub fn pair_number(p: u32, t1: &[u32], t2: &[u32], s: &[u32], r: &[u32]) -> u32 {
    first(&[&|| field_number(p, t1, t2), &|| if congruences(p, t1, t2, s, r) { 0 } else { 8 }])
}

pub fn check(p: u32, n: u32, t1: &[u32], t2: &[u32], s: &[u32], r: &[u32]) -> u32 {
    first(&[&|| number(p, n, &[t1, t2, s, r], &[]), &|| pair_number(p, t1, t2, s, r)])
}

/// The checker's numbers for a call that writes lists of n·n words.
pub fn check_with_squares(p: u32, n: u32, lists: [&[u32]; 4], lent: &[&[u32]]) -> u32 {
    let [t1, t2, s, r] = lists;
    first(&[&|| model_number(p, n), &|| square_number(n, lent), &|| check(p, n, t1, t2, s, r)])
}

/// The test of one modulus.
pub fn irreducible(p: u32, n: u32, t: &[u32]) -> u32 {
    first(&[&|| number(p, n, &[t], &[]), &|| if has_divisor(p, t) { 6 } else { 0 }])
}

/// Refusals 5, 6 and 7, or 0.
pub fn finder_number(p: u32, n: u32, t1: &[u32], t2: &[u32]) -> u32 {
    first(&[&|| if finder::method(p, n).is_some() { 0 } else { 5 }, &|| field_number(p, t1, t2)])
}

pub fn find(p: u32, n: u32, t1: &[u32], t2: &[u32], s: &[u32], r: &[u32]) -> (u32, Vec<u32>, Vec<u32>) {
    match first(&[&|| number(p, n, &[t1, t2], &[s, r]), &|| finder_number(p, n, t1, t2)]) {
        0 => {
            let pair = finder::pair(p, t1, t2);
            (0, pair.s, pair.r)
        }
        refusal => (refusal, s.to_vec(), r.to_vec()),
    }
}
