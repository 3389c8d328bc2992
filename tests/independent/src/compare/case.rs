//! Two moduli and a pair. Pairs whose congruences hold come from the finder, from conjugates of a pair and, over moduli with divisors as well, from a
//! linear change of the variable; pairs whose congruences fail come from these by one changed word, from maps that preserve sums only, and from two
//! isomorphisms that do not undo each other.

use super::sizes;
use crate::document::held::{Held, Pair};
use crate::document::{self, model::Model, polynomial};
use crate::random::Random;

#[derive(Clone)]
pub struct Case {
    pub p: u32,
    pub n: u32,
    pub t1: Vec<u32>,
    pub t2: Vec<u32>,
    pub s: Vec<u32>,
    pub r: Vec<u32>,
}

impl Case {
    /// What a session holds that is paired with it.
    pub fn held(&self) -> Held {
        let Case { p, n, t1, t2, s, r } = self.clone();
        Held::Paired(Pair { p, n, t1, t2, s, r })
    }
}

/// T2 is T1(aX + b) up to a factor, with S = aX + b and R = (X − b)/a: the congruences hold whether T1 has divisors or not.
pub fn changed_variable(random: &mut Random, p: u32, n: u32, t1: Vec<u32>) -> Case {
    let a = 1 + random.below(u64::from(p) - 1);
    let b = random.below(p.into());
    let inverse = polynomial::power(p.into(), a, u64::from(p) - 2);
    // T2 = a^(−n)·T1(aX + b), worked out without a modulus: by Horner's rule, on polynomials of growing degree
    let prime = u64::from(p);
    let mut f = vec![1u64];
    for &c in t1.iter().rev() {
        let mut next = vec![0; f.len() + 1];
        for (i, &x) in f.iter().enumerate() {
            next[i] = (next[i] + x * b) % prime;
            next[i + 1] = (next[i + 1] + x * a) % prime;
        }
        next[0] = (next[0] + u64::from(c)) % prime;
        f = next;
    }
    let scale = polynomial::power(prime, inverse, n.into());
    let t2: Vec<u32> = f[..n as usize].iter().map(|&x| (x * scale % prime) as u32).collect();
    // the forward map sends X to aX + b, the backward map X to (X − b)/a
    let linear = |model: &Model, factor: u64, constant: u64| model.sum(&model.scaled(factor, &model.x()), &model.constant(constant));
    let s = linear(&Model::new(p, &t2), a, b);
    let r = linear(&Model::new(p, &t1), inverse, (prime - b) % prime * inverse % prime);
    Case { p, n, t1, t2, s, r }
}

fn found(p: u32, n: u32, t1: Vec<u32>, t2: Vec<u32>) -> Case {
    let (number, s, r) = document::find(p, n, &t1, &t2, &vec![0; n as usize], &vec![0; n as usize]);
    assert_eq!(number, 0);
    Case { p, n, t1, t2, s, r }
}

/// S^p, which is the forward map followed by the p-th power, and the R that undoes it in a field: R^(p^(n−1)).
pub fn conjugate(case: &mut Case) {
    let (k1, k2) = (Model::new(case.p, &case.t1), Model::new(case.p, &case.t2));
    case.s = k2.power(&case.s, case.p.into());
    let mut inverse = case.r.clone();
    for _ in 1..case.n {
        inverse = k1.power(&inverse, case.p.into());
    }
    case.r = inverse;
}

pub fn damage(random: &mut Random, case: &mut Case) {
    let n = case.n as usize;
    let place = random.below(n as u64) as usize;
    let p = u64::from(case.p);
    match random.below(7) {
        0 => case.s[place] = random.below(p) as u32,
        1 => case.r[place] = random.below(p) as u32,
        2 if random.once_in(2) => case.t1[place] = random.below(p) as u32,
        2 => case.t2[place] = random.below(p) as u32,
        // a map that preserves sums only
        3 => case.s = Model::new(case.p, &case.t2).scaled(random.below(p), &case.s),
        4 => std::mem::swap(&mut case.s, &mut case.r),
        5 => {
            // a list of another length
            let lists = [&mut case.t1, &mut case.t2, &mut case.s, &mut case.r];
            let list = lists.into_iter().nth(random.below(4) as usize).unwrap();
            if random.once_in(2) {
                list.push(0);
            } else {
                list.pop();
            }
        }
        _ => {
            // a word at or above p
            let lists = [&mut case.t1, &mut case.t2, &mut case.s, &mut case.r];
            let list = lists.into_iter().nth(random.below(4) as usize).unwrap();
            list[place] = random.large_word(case.p);
        }
    }
}

/// S^p with the old R: one map after the other is then the p-th power, which fixes the constants but, in a field with n > 1, not X.
pub fn half_conjugate(case: &mut Case) {
    case.s = Model::new(case.p, &case.t2).power(&case.s, case.p.into());
}

pub fn draw(random: &mut Random) -> Case {
    let p = random.prime();
    if random.once_in(3) {
        let n = 1 + random.below(16) as u32;
        let divisors = n > 1 && random.once_in(2);
        let t1 = random.modulus(p, n, divisors);
        return changed_variable(random, p, n, t1);
    }
    let n = sizes::degree(random, p);
    let (t1, t2) = (random.modulus(p, n, false), random.modulus(p, n, false));
    found(p, n, t1, t2)
}
