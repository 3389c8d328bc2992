//! The sizes that the finder takes: n from 1 to 16 with primes p such that n divides p − 1, and the ten with n = p^k, k ≥ 1.

use crate::document::is_prime;
use crate::random::Random;

/// n is a power of p.
pub const POWERS: [(u32, u32); 10] = [(2, 2), (2, 4), (2, 8), (2, 16), (3, 3), (3, 9), (5, 5), (7, 7), (11, 11), (13, 13)];

/// Whether the finder takes a size.
pub fn is_findable(p: u32, n: u32) -> bool {
    (p - 1) % n == 0 || POWERS.contains(&(p, n))
}

/// A degree that the finder takes for this p.
pub fn degree(random: &mut Random, p: u32) -> u32 {
    let degrees: Vec<u32> = (1..=16).filter(|&n| is_findable(p, n)).collect();
    degrees[random.below(degrees.len() as u64) as usize]
}

/// All p up to 200; the two largest below 65,536 and two drawn; and the largest of all and one drawn, where a card is wide.
fn primes(random: &mut Random, n: u32) -> Vec<u32> {
    let is_taken = |p: &u32| (p - 1) % n == 0 && is_prime(*p);
    let drawn = [1 << 16, 1 << 16, 1 << 20].map(|limit| loop {
        let p = 2 + random.below(limit - 2) as u32;
        if is_taken(&p) {
            break p;
        }
    });
    let largest = (2..65_536).rev().filter(is_taken).take(2).chain((2..1_048_576).rev().find(is_taken));
    (2..=200).filter(is_taken).chain(drawn).chain(largest).collect()
}

/// For every n primes p such that n divides p − 1.
pub fn divisors(random: &mut Random) -> Vec<(u32, u32)> {
    (1..=16).flat_map(|n| primes(random, n).into_iter().map(move |p| (p, n))).collect()
}
