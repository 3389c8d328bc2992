//! All the maps: of accepted pairs for every n, and of pairs and output lists that are refused. Apart from the comparison, what is written must be
//! right by itself: n roots in ascending order are all that there are, each belongs to a pair that the checker accepts, and from each of these pairs
//! the same is written.

use super::case::{damage, draw, half_conjugate, Case};
use super::known::draw_all;
use super::Tally;
use crate::document::{congruences, is_prime, maps as document, model::Model};
use crate::library;
use crate::random::Random;
use yokebean::{check, maps, Size};

/// The number, and what the output list holds after the call.
fn called(case: &Case, lent: &[u32]) -> (u32, Vec<u32>) {
    let Case { p, n, t1, t2, s, r } = case;
    let mut out = lent.to_vec();
    let number = library::number(maps(Size { p: *p, n: *n }, t1, t2, s, r, &mut out));
    (number, out)
}

fn assert_right(case: &Case, out: &[u32]) {
    let Case { p, n, t1, t2, s, r } = case;
    let (input, model) = ((p, n, t1, t2, s, r), Model::new(*p, t2));
    let maps: Vec<&[u32]> = out.chunks(*n as usize).collect();
    let ascending = maps.windows(2).all(|two| two[0].iter().rev().lt(two[1].iter().rev()));
    assert!(ascending, "{maps:?} of {input:?} are not in ascending order");
    for map in &maps {
        assert_eq!(model.modulus_at(t1, map), model.constant(0), "{map:?} of {input:?} is not a root");
    }
    for (s, r) in document::pairs(*p, t1, t2, s, r) {
        assert!(maps.contains(&&s[..]), "{maps:?} of {input:?} leave out {s:?}");
        assert_eq!(check(Size { p: *p, n: *n }, t1, t2, &s, &r), Ok(()), "the checker refuses {s:?} and {r:?} of {input:?}");
        let other = Case { s, r, ..case.clone() };
        assert_eq!(called(&other, &vec![0; out.len()]), (0, out.to_vec()), "from {:?}, beside {input:?}", other.s);
    }
}

/// The number on which both sides agree.
fn compare_maps(case: &Case, length: usize, tally: &mut Tally) -> u32 {
    let Case { p, n, t1, t2, s, r } = case;
    let lists: [&[u32]; 4] = [t1, t2, s, r];
    let lent: Vec<u32> = (40_000..).take(length).collect();
    let got = called(case, &lent);
    if got.0 == 0 {
        assert_right(case, &got.1);
    }
    tally.compare("maps", got.0, &(p, n, lists, length), &got, &document::maps(*p, *n, lists, &lent));
    got.0
}

fn exact(n: u32) -> usize {
    n.min(32).pow(2) as usize
}

fn wrong_lengths(n: u32) -> Vec<usize> {
    let square = exact(n);
    let lengths = [0, n.min(32) as usize, square.saturating_sub(1), square + 1, 2 * square, 256];
    lengths.into_iter().filter(|&length| length != square).collect()
}

fn any_length(random: &mut Random, n: u32) -> usize {
    let wrong = wrong_lengths(n);
    if random.once_in(4) {
        wrong[random.below(wrong.len() as u64) as usize]
    } else {
        exact(n)
    }
}

/// Each number with those after it in the order applying as well.
fn in_order(tally: &mut Tally) {
    let calls: [(u32, u32, [&[u32]; 4], usize, u32); 16] = [
        (9, 17, [&[9], &[], &[], &[]], 3, 1),
        (1_048_583, 0, [&[]; 4], 1, 1),
        (65_537, 0, [&[]; 4], 1, 2),
        (3, 17, [&[3], &[], &[], &[]], 3, 2),
        (3, 0, [&[]; 4], 0, 2),
        (3, 2, [&[3, 0], &[0, 0], &[0, 0], &[0, 0]], 3, 3),
        (3, 2, [&[0, 0], &[0, 0], &[0, 0], &[0, 0]], 5, 3),
        (3, 2, [&[3], &[0, 0], &[0, 0], &[0, 0]], 4, 3),
        (3, 2, [&[3, 0], &[0, 0], &[0, 0], &[0, 0, 0]], 4, 3),
        (3, 2, [&[0, 3], &[0, 0], &[0, 0], &[0, 0]], 4, 4),
        (3, 2, [&[0, 0], &[0, 0], &[0, 0], &[0, 3]], 4, 4),
        (3, 2, [&[0, 0], &[0, 0], &[0, 0], &[0, 0]], 4, 6),
        (3, 2, [&[1, 0], &[2, 0], &[0, 0], &[0, 0]], 4, 7),
        (3, 2, [&[1, 0], &[2, 1], &[2, 1], &[1, 2]], 4, 8),
        (3, 2, [&[1, 0], &[2, 1], &[2, 1], &[1, 2]], 0, 3),
        (3, 2, [&[1, 0], &[2, 1], &[2, 1], &[1, 1]], 4, 0),
    ];
    for (p, n, lists, length, known) in calls {
        let [t1, t2, s, r] = lists.map(<[u32]>::to_vec);
        assert_eq!(compare_maps(&Case { p, n, t1, t2, s, r }, length, tally), known);
    }
}

/// For every p up to 64 and n with p^n up to 4,096: two moduli, each drawn for itself, and S and R found by trying all residues.
fn small(random: &mut Random, tally: &mut Tally) {
    for p in (2..=64).filter(|&p| is_prime(p)) {
        for n in (1..).take_while(|&n| u64::from(p).pow(n) <= document::TRIALS) {
            let [t1, t2] = [0; 2].map(|_| random.modulus(p, n, false));
            let all = document::by_trial(p, &t1, &t2);
            let s = all[random.below(n.into()) as usize].clone();
            assert_eq!(document::by_conjugates(p, &t2, &s), all, "p = {p}, T1 = {t1:?}, T2 = {t2:?}, S = {s:?}");
            let r = document::by_trial(p, &t2, &t1).into_iter().find(|r| congruences(p, &t1, &t2, &s, r)).unwrap();
            assert_eq!(compare_maps(&Case { p, n, t1, t2, s, r }, exact(n), tally), 0);
        }
    }
}

pub fn run(rounds: u64, tally: &mut Tally) {
    let random = &mut Random::new(0xbf58_476d_1ce4_e5b9);
    in_order(tally);
    small(random, tally);
    for known in draw_all(random) {
        assert_eq!(compare_maps(&known.case, exact(known.case.n), tally), known.number);
        for length in wrong_lengths(known.case.n) {
            assert_eq!(compare_maps(&known.case, length, tally), 3);
        }
    }
    for _ in 0..rounds {
        let mut case = draw(random);
        compare_maps(&case, exact(case.n), tally);
        if random.once_in(2) {
            half_conjugate(&mut case);
        } else {
            damage(random, &mut case);
        }
        compare_maps(&case, any_length(random, case.n), tally);

        // anything at all
        let (p, n) = (random.modulus_number(), random.degree());
        let [t1, t2, s, r] = [0; 4].map(|_| random.words(p, n, true));
        compare_maps(&Case { p, n, t1, t2, s, r }, any_length(random, n), tally);
    }
}
