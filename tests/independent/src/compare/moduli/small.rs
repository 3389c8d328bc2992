//! All monic T with p^n up to 4,096, and all of every degree for p = 2. The two methods of `document` agree there, and the number of irreducible T is
//! the right one: p^n is the sum, over the divisors d of n, of d times the number of irreducible polynomials of degree d.

use super::{compare, Tally};
use crate::document::polynomial::all_lists;
use crate::document::{divisor, is_prime};

/// How many T of degree n are irreducible.
fn count(p: u32, n: u32, tally: &mut Tally) -> u32 {
    let mut count = 0;
    for t in all_lists(p, n) {
        assert_eq!(divisor::by_trial(p, &t), divisor::by_common_divisors(p, &t), "p = {p}, T = {t:?}");
        if compare(p, n, &t, tally) == 0 {
            count += 1;
        }
    }
    count
}

fn all_up_to(limit: u32, p: u32, tally: &mut Tally) {
    let degrees = (1..).take_while(|&n| p.pow(n) <= limit);
    let counts: Vec<(u32, u32)> = degrees.map(|n| (n, count(p, n, tally))).collect();
    for &(n, _) in &counts {
        let sum: u32 = counts.iter().filter(|(d, _)| n % d == 0).map(|(d, count)| d * count).sum();
        assert_eq!(sum, p.pow(n), "p = {p}, n = {n}");
    }
}

pub fn run(tally: &mut Tally) {
    all_up_to(1 << 16, 2, tally);
    for p in (3..=4_096).filter(|&p| is_prime(p)) {
        all_up_to(4_096, p, tally);
    }
}
