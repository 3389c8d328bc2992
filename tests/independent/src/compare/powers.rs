//! Degrees that are powers of p, alone and through sessions: every pair of moduli of the smallest sizes, also with divisors, every pair of irreducible
//! ones of two more, and drawn ones of all; and sizes that the finder does not take. All numbers are known beforehand. Where there are not too many
//! residues, `document` agrees with what trying all of them finds.

use super::pairs::compare_find;
use super::sessions::Calls;
use super::sizes::{is_findable, POWERS};
use super::Tally;
use crate::document::model::{Model, Residue};
use crate::document::polynomial::all_lists;
use crate::document::{divisor::has_divisor, is_prime, tower};
use crate::random::Random;

/// All irreducible moduli of the two smallest sizes: X² + X + 1; X⁴ + X + 1, X⁴ + X³ + 1 and X⁴ + X³ + X² + X + 1.
const SMALLEST: [(u32, u32, &[&[u32]]); 2] = [(2, 2, &[&[1, 1]]), (2, 4, &[&[1, 1, 0, 0], &[1, 0, 0, 1], &[1, 1, 1, 1]])];

fn compare(p: u32, t1: &[u32], t2: &[u32], known: u32, tally: &mut Tally) {
    let n = t1.len() as u32;
    let found = compare_find(p, n, t1, t2, [vec![7; t1.len()], vec![9; t1.len()]], tally);
    let mut calls = Calls::new(tally);
    calls.load(p, n, t1, t2, tally);
    assert_eq!([found.0, calls.find(tally)], [known; 2], "p = {p}, T1 = {t1:?}, T2 = {t2:?}");
}

fn every_pair(p: u32, n: u32, irreducible: &[&[u32]], tally: &mut Tally) {
    for t1 in all_lists(p, n) {
        for t2 in all_lists(p, n) {
            let known = match [&t1, &t2].map(|t| irreducible.contains(&&t[..])) {
                [true, true] => 0,
                [false, _] => 6,
                [true, false] => 7,
            };
            compare(p, &t1, &t2, known, tally);
        }
    }
}

fn every_irreducible_pair(p: u32, n: u32, tally: &mut Tally) {
    let irreducible: Vec<Vec<u32>> = all_lists(p, n).filter(|t| !has_divisor(p, t)).collect();
    for t1 in &irreducible {
        for t2 in &irreducible {
            compare(p, t1, t2, 0, tally);
        }
    }
}

fn drawn(random: &mut Random, p: u32, n: u32, tally: &mut Tally) {
    let [t1, t2] = [0; 2].map(|_| random.modulus(p, n, false));
    let [d1, d2] = [0; 2].map(|_| random.modulus(p, n, true));
    compare(p, &t1, &t2, 0, tally);
    compare(p, &d1, &t2, 6, tally);
    compare(p, &t1, &d2, 7, tally);
    compare(p, &d1, &d2, 6, tally);
}

/// The solution of every round and P are those found by trying all residues.
fn by_trial(random: &mut Random, p: u32, n: u32) {
    let t = random.modulus(p, n, false);
    let model = Model::new(p, &t);
    let rounds = tower::rounds(&model, tower::solution_by_trial);
    assert_eq!(tower::rounds(&model, tower::solution), rounds, "p = {p}, T = {t:?}");
    let (alpha, expressed) = tower::generator(&model);
    let all: Vec<Residue> = all_lists(p, n).filter(|f| model.substitute(&alpha, f) == model.x()).collect();
    assert_eq!(all, [expressed], "p = {p}, T = {t:?}");
}

/// 5, whatever the moduli are.
fn refused(random: &mut Random, p: u32, n: u32, tally: &mut Tally) {
    for divisors in [[false, false], [true, false], [false, true]] {
        let [t1, t2] = divisors.map(|divisors| random.modulus(p, n, divisors));
        compare(p, &t1, &t2, 5, tally);
    }
}

pub fn run(rounds: u64, tally: &mut Tally) {
    let random = &mut Random::new(0xe703_7ed1_a0b4_28db);
    for (p, n, irreducible) in SMALLEST {
        every_pair(p, n, irreducible, tally);
    }
    for (p, n) in [(3, 3), (2, 8)] {
        every_irreducible_pair(p, n, tally);
    }
    for (p, n) in POWERS {
        for _ in 0..rounds {
            drawn(random, p, n, tally);
        }
    }
    for (p, n) in [(2, 2), (2, 4), (2, 8), (3, 3), (3, 9), (5, 5)] {
        for _ in 0..rounds / 20 {
            by_trial(random, p, n);
        }
    }
    for p in (2..=31).chain([251, 65_521, 1_048_573]).filter(|&p| is_prime(p)) {
        for n in (1..=16).filter(|&n| !is_findable(p, n)) {
            refused(random, p, n, tally);
        }
    }
}
