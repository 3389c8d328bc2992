//! Checker and finder, on cases of every sort.

use super::case::{conjugate, damage, draw, half_conjugate, Case};
use super::known::draw_all;
use super::Tally;
use crate::document;
use crate::library;
use crate::random::Random;
use yokebean::{check, find, Size};

/// The number on which both sides agree.
pub fn compare_check(case: &Case, tally: &mut Tally) -> u32 {
    let Case { p, n, t1, t2, s, r } = case;
    let want = document::check(*p, *n, t1, t2, s, r);
    tally.compare("check", want, &(p, n, t1, t2, s, r), &library::number(check(Size { p: *p, n: *n }, t1, t2, s, r)), &want);
    want
}

/// The number on which both sides agree, and what the two lists hold after the call.
pub fn compare_find(p: u32, n: u32, t1: &[u32], t2: &[u32], lent: [Vec<u32>; 2], tally: &mut Tally) -> (u32, Vec<u32>, Vec<u32>) {
    let want = document::find(p, n, t1, t2, &lent[0], &lent[1]);
    let [mut s, mut r] = lent;
    let number = library::number(find(Size { p, n }, t1, t2, &mut s, &mut r));
    if number == 0 {
        assert_eq!(check(Size { p, n }, t1, t2, &s, &r), Ok(()), "the checker refuses a found pair");
    }
    let got = (number, s, r);
    tally.compare("find", want.0, &(p, n, t1, t2), &got, &want);
    got
}

pub fn run(rounds: u64, tally: &mut Tally) {
    let random = &mut Random::new(0x2545_f491_4f6c_dd1d);
    for _ in 0..rounds / 2_000 {
        for known in draw_all(random) {
            assert_eq!(compare_check(&known.case, tally), known.number);
        }
    }
    for _ in 0..rounds {
        let mut case = draw(random);
        compare_find(case.p, case.n, &case.t1, &case.t2, [0; 2].map(|_| random.words(case.p, case.n, true)), tally);
        compare_check(&case, tally);
        conjugate(&mut case);
        compare_check(&case, tally);
        if random.once_in(2) {
            half_conjugate(&mut case);
        } else {
            damage(random, &mut case);
        }
        compare_check(&case, tally);

        // anything at all
        let (p, n) = (random.modulus_number(), random.degree());
        let [t1, t2, s, r] = [0; 4].map(|_| random.words(p, n, true));
        compare_find(p, n, &t1, &t2, [s.clone(), r.clone()], tally);
        compare_check(&Case { p, n, t1, t2, s, r }, tally);
    }
}
