//! Product, power and substitution.

use super::Tally;
use crate::document::{model::Model, number};
use crate::library;
use crate::random::Random;
use yokebean::{power, product, substitute, Size};

type Answer = (u32, Vec<u32>);

fn expected(number: u32, computed: impl FnOnce() -> Vec<u32>, lent: &[u32]) -> Answer {
    (number, if number == 0 { computed() } else { lent.to_vec() })
}

fn called(lent: &[u32], call: impl FnOnce(&mut [u32]) -> u32) -> Answer {
    let mut list = lent.to_vec();
    let number = call(&mut list);
    (number, list)
}

pub fn run(rounds: u64, tally: &mut Tally) {
    let random = &mut Random::new(0x9e37_79b9_7f4a_7c15);
    for _ in 0..rounds {
        let (p, n) = (random.modulus_number(), random.degree());
        let damaged = random.once_in(3);
        let [t, u, v, lent] = [0; 4].map(|_| random.words(p, n, damaged));
        let k = if random.once_in(2) { random.below(20) } else { random.next() };
        let model = Model::new(p, &t);

        let refusal = number(p, n, &[&t, &u, &v], &[&lent]);
        let want = expected(refusal, || model.product(&u, &v), &lent);
        let got = called(&lent, |out| library::number(product(Size { p, n }, &t, &u, &v, out)));
        tally.compare("product", refusal, &(p, n, &t, &u, &v), &got, &want);
        let want = expected(refusal, || model.substitute(&u, &v), &lent);
        let got = called(&lent, |out| library::number(substitute(Size { p, n }, &t, &u, &v, out)));
        tally.compare("substitute", refusal, &(p, n, &t, &u, &v), &got, &want);

        let refusal = number(p, n, &[&t, &u], &[&lent]);
        let want = expected(refusal, || model.power(&u, k), &lent);
        let got = called(&lent, |out| library::number(power(Size { p, n }, &t, &u, k, out)));
        tally.compare("power", refusal, &(p, n, &t, &u, k), &got, &want);
    }
}
