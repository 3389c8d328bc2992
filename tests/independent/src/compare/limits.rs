//! The limits of p and of the words, for every call. All numbers are known beforehand.

use super::Tally;
use crate::document::card::card_length;
use crate::library::{self, number};
use yokebean::{
    check, count_models, find, irreducible, list_models, maps, matrices, matrix_convert, power, product, sheet, sheet_length, substitute,
    Card, Size,
};

/// One more than the largest p.
const END: usize = 1 << 20;

/// Whether each number below a limit is a prime: multiples are struck out.
fn sieve(limit: usize) -> Vec<bool> {
    let mut prime = vec![true; limit];
    prime[..2].fill(false);
    for d in 2..limit {
        if prime[d] {
            (d * d..limit).step_by(d).for_each(|multiple| prime[multiple] = false);
        }
    }
    prime
}

/// 1, unless p is a prime up to 1,048,575.
fn known(prime: &[bool], p: u32) -> u32 {
    let is_taken = (p as usize) < END && prime[p as usize];
    if is_taken {
        2
    } else {
        1
    }
}

type Call = fn(Size, [&[u32]; 4]) -> u32;

fn out(n: u32) -> Vec<u32> {
    vec![0; n as usize]
}

/// Each call that takes p and n, and how many lists of n words it reads, the rows of a matrix being one; the lists that it writes have their right
/// length.
const CALLS: [(&str, usize, Call); 14] = [
    ("product", 3, |size, [t, u, v, _]| number(product(size, t, u, v, &mut out(size.n)))),
    ("power", 2, |size, [t, u, ..]| number(power(size, t, u, 5, &mut out(size.n)))),
    ("substitute", 3, |size, [t, s, u, _]| number(substitute(size, t, s, u, &mut out(size.n)))),
    ("irreducible", 1, |size, [t, ..]| number(irreducible(size, t))),
    ("catalogue_count", 0, |size, _| number(count_models(size))),
    ("catalogue_list", 0, |size, _| number(list_models(size, &mut []))),
    ("check", 4, |size, [t1, t2, s, r]| number(check(size, t1, t2, s, r))),
    ("maps", 4, |size, [t1, t2, s, r]| number(maps(size, t1, t2, s, r, &mut out(size.n * size.n)))),
    ("matrices", 4, |size, [t1, t2, s, r]| number(matrices(size, t1, t2, s, r, &mut out(size.n * size.n), &mut out(size.n * size.n)))),
    ("matrix_convert", 2, |size, [row, u, ..]| number(matrix_convert(size, &row.repeat(size.n as usize), u, &mut out(size.n)))),
    ("sheet", 4, |size, [t1, t2, s, r]| number(sheet(size, t1, t2, s, r, &mut vec![0; sheet_length(size.n)]))),
    ("find", 2, |size, [t1, t2, ..]| number(find(size, t1, t2, &mut out(size.n), &mut out(size.n)))),
    ("session_load", 2, |size, [t1, t2, ..]| library::load(library::new(), size.p, size.n, t1, t2).number),
    ("card_write", 2, |size, [t1, t2, ..]| {
        let length = if size.n == 0 { 0 } else { card_length(size.p, size.n, 1) };
        number(Card { size, kind: 1 }.write(&[t1, t2].concat(), &mut vec![0; length]))
    }),
];

/// A degree of 0 is refused with 2 where p is not refused with 1: every p to well above the end by one call, and those about the ends by each.
fn primes(tally: &mut Tally) {
    let prime = sieve(END + (1 << 14));
    for p in 0..prime.len() as u32 {
        let want = known(&prime, p);
        tally.compare("every_p", want, &p, &number(irreducible(Size { p, n: 0 }, &[])), &want);
    }
    let ends = [0, 1 << 16, 1_021 * 1_021, 1 << 20, 1_031 * 1_031, 1 << 24, 1 << 31].map(|p: u32| p.saturating_sub(20)..p + 20);
    for p in ends.into_iter().flatten().chain([u32::MAX]) {
        for (name, _, call) in CALLS {
            let want = known(&prime, p);
            tally.compare(name, want, &p, &call(Size { p, n: 0 }, [&[]; 4]), &want);
        }
    }
    let [case_j, new_end] = [[65_521, 65_535, 65_537], [1_048_573, 1_048_575, 1_048_583]].map(|list| list.map(|p| known(&prime, p)));
    assert_eq!([case_j, new_end], [[2, 1, 2], [2, 1, 1]]);
}

/// 4 for every word from p on, in the first and the last place of each list.
fn words(tally: &mut Tally) {
    for (p, n) in [(2, 2), (251, 3), (65_521, 16), (65_537, 2), (1_048_573, 1), (1_048_573, 16)] {
        let list = vec![0; n as usize];
        for (name, count, call) in CALLS {
            for (k, place) in (0..count).flat_map(|k| [(k, 0), (k, n as usize - 1)]) {
                for word in [p, p + 1, p + (1 << 16), 1 << 20, p + (1 << 20), 1 << 31, u32::MAX] {
                    let mut large = list.clone();
                    large[place] = word;
                    let mut lists: [&[u32]; 4] = [&list; 4];
                    lists[k] = &large;
                    tally.compare(name, 4, &(p, lists), &call(Size { p, n }, lists), &4);
                }
            }
        }
    }
}

pub fn run(_: u64, tally: &mut Tally) {
    primes(tally);
    words(tally);
}
