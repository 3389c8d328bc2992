//! The catalogue: both calls for every size that has one, each list whole, and for sizes and lengths that are refused. Apart from the comparison, what
//! is written must be right by itself: in ascending order, and of moduli that no call refuses with 6 or 7.

use super::order::{assert_order, wrong_length, Refusal};
use super::sizes::is_findable;
use super::Tally;
use crate::document::{catalogue as document, divisor, is_prime};
use crate::library::{self, number};
use crate::random::Random;
use yokebean::{count_models, find, irreducible, list_models, models, Size};

/// The smallest p that is too large, for degrees 1 to 7 and 11.
const TOO_LARGE: [(u32, u32); 8] = [(65_537, 1), (257, 2), (41, 3), (17, 4), (11, 5), (7, 6), (5, 7), (3, 11)];

/// A size, and how long the output list is.
#[derive(Clone, Copy)]
struct Input {
    p: u32,
    n: u32,
    length: usize,
}

impl Input {
    /// With an output list of the right length, also where 29 applies.
    fn whole(p: u32, n: u32) -> Self {
        Input { p, n, length: (n * document::gauss(p, n)) as usize }
    }

    /// Becomes another size; the output list is longer or shorter than the right one by as much as it was.
    fn resize(&mut self, p: u32, n: u32) {
        let right = Input::whole(p, n).length;
        self.length = (right + self.length).saturating_sub(Input::whole(self.p, self.n).length);
        (self.p, self.n) = (p, n);
    }
}

/// The number on which both sides agree.
fn compare_count(p: u32, n: u32, tally: &mut Tally) -> u32 {
    let got = library::catalogue_count(p, n);
    tally.compare("catalogue_count", got.0, &(p, n), &got, &document::count(p, n));
    assert_eq!(count_models(Size { p, n }).map_or_else(|refusal| (refusal.number(), 0), |count| (0, count as u32)), got);
    got.0
}

/// The number on which both sides agree, and what the output list holds after the call.
fn compare_list(Input { p, n, length }: Input, tally: &mut Tally) -> (u32, Vec<u32>) {
    let mut out: Vec<u32> = (40_000..).take(length).collect();
    let want = document::list(p, n, &out);
    let got = (number(list_models(Size { p, n }, &mut out)), out);
    tally.compare("catalogue_list", got.0, &(p, n, length), &got, &want);
    got
}

/// The order of a list, and what the calls on moduli say of some that are in it.
fn assert_right(random: &mut Random, p: u32, n: u32, out: &[u32]) {
    let (size, moduli): (_, Vec<&[u32]>) = (Size { p, n }, out.chunks(n as usize).collect());
    let ascending = moduli.windows(2).all(|two| two[0].iter().rev().lt(two[1].iter().rev()));
    assert!(ascending, "the list of {size:?} is not in ascending order");
    assert!(models(size).unwrap().eq(moduli.iter().map(|t| t.to_vec())), "{size:?}");
    for _ in 0..4 {
        let [t1, t2] = [0; 2].map(|_| moduli[random.below(moduli.len() as u64) as usize]);
        assert_eq!(irreducible(size, t1), Ok(()), "{size:?}, T = {t1:?}");
        let found = number(find(size, t1, t2, &mut vec![0; n as usize], &mut vec![0; n as usize]));
        assert_eq!(found, if is_findable(p, n) { 0 } else { 5 }, "{size:?}, T1 = {t1:?}, T2 = {t2:?}");
    }
}

/// All p and n with p^n up to 65,536.
fn sizes() -> impl Iterator<Item = (u32, u32)> {
    let degrees = |p: u32| (1..).take_while(move |&n| u64::from(p).pow(n) <= 65_536);
    (2..=65_536).filter(|&p| is_prime(p)).flat_map(move |p| degrees(p).map(move |n| (p, n)))
}

/// The list and the count of each size; and what else there is to test, in degree 1 only for the smaller p.
fn every_size(random: &mut Random, tally: &mut Tally) {
    for (p, n) in sizes() {
        let right = Input::whole(p, n);
        let (number, out) = compare_list(right, tally);
        assert_eq!((number, compare_count(p, n, tally)), (0, 0));
        if n > 1 || p <= document::TRIALS {
            assert_right(random, p, n, &out);
            for length in [0, right.length - 1, right.length + 1, n as usize, out.len() / n as usize, 65_536] {
                let known = if length == right.length { 0 } else { 3 };
                assert_eq!(compare_list(Input { length, ..right }, tally).0, known);
            }
        }
    }
}

/// The methods of `document` agree, and its formula with the length of its list.
fn methods() {
    for (p, n) in sizes().filter(|&(p, n)| p.pow(n) <= document::TRIALS) {
        let all = document::by_test(p, n, divisor::by_trial);
        assert_eq!(all.len() as u32, n * document::gauss(p, n));
        assert_eq!(document::by_test(p, n, divisor::by_common_divisors), all);
        assert!(n != 2 || p == 2 || document::by_discriminant(p) == all);
    }
}

/// The count of every p to above the end of degree 1, and of all n for the p to above that of degree 2.
fn every_p(tally: &mut Tally) {
    for p in 0..=65_600 {
        let known = match p {
            _ if !is_prime(p) => 1,
            0..=65_536 => 0,
            _ => 29,
        };
        assert_eq!(compare_count(p, 1, tally), known);
    }
    for (p, n) in (0..=260).flat_map(|p| (0..=18).map(move |n| (p, n))) {
        compare_count(p, n, tally);
    }
}

/// Numbers that are known beforehand, those after them in the order applying as well.
fn known(tally: &mut Tally) {
    let calls: [(u32, u32, usize, u32); 20] = [
        (9, 17, 3, 1),
        (0, 0, 0, 1),
        (65_536, 1, 65_536, 1),
        (1_048_575, 16, 0, 1),
        (1_048_583, 1, 1, 1),
        (u32::MAX, u32::MAX, 0, 1),
        (2, 0, 0, 2),
        (2, 17, 131_070, 2),
        (65_537, 0, 0, 2),
        (65_537, 17, 1, 2),
        (1_048_573, u32::MAX, 16, 2),
        (65_537, 1, 65_537, 29),
        (65_537, 1, 65_536, 29),
        (257, 2, 65_792, 29),
        (3, 11, 177_144, 29),
        (3, 16, 0, 29),
        (1_048_573, 1, 1_048_573, 29),
        (1_048_573, 16, 0, 29),
        (65_521, 1, 65_520, 3),
        (65_521, 1, 65_522, 3),
    ];
    for (p, n, length, known) in calls {
        assert_eq!(compare_list(Input { p, n, length }, tally).0, known);
        assert_eq!(compare_count(p, n, tally), if known == 3 { 0 } else { known });
    }
}

fn not_prime(random: &mut Random, input: &mut Input) {
    input.p = [0, 1, 4, 65_536, 1_048_575, 1_048_576, 1_048_583, 2_147_483_647, u32::MAX][random.below(9) as usize];
}

fn not_a_degree(random: &mut Random, input: &mut Input) {
    input.n = [0, 17, 18, 32, 65_536, u32::MAX][random.below(6) as usize];
}

fn too_large(random: &mut Random, input: &mut Input) {
    let (p, n) = TOO_LARGE[random.below(TOO_LARGE.len() as u64) as usize];
    input.resize(p, n);
}

fn another_length(random: &mut Random, input: &mut Input) {
    input.length = wrong_length(random, input.length);
}

fn in_order(random: &mut Random, p: u32, n: u32, tally: &mut Tally) {
    let order: [Refusal<Input>; 4] = [(1, not_prime), (2, not_a_degree), (29, too_large), (3, another_length)];
    let right = Input::whole(p, n);
    assert_order(random, &right, &order, |input| compare_list(*input, tally).0);
    assert_order(random, &right, &order[..3], |input| compare_count(input.p, input.n, tally));
    // all four at last
    let mut input = right;
    for (known, refuse) in order.iter().rev() {
        refuse(random, &mut input);
        assert_eq!(compare_list(input, tally).0, *known);
    }
}

/// Anything at all.
fn drawn(random: &mut Random, tally: &mut Tally) {
    let (p, n) = (random.modulus_number(), random.degree());
    compare_count(p, n, tally);
    let length = [0, n.min(17), p.min(65_537)][random.below(3) as usize] as usize;
    compare_list(Input { p, n, length }, tally);
}

pub fn run(rounds: u64, tally: &mut Tally) {
    let random = &mut Random::new(0xc2b2_ae3d_27d4_eb4f);
    assert_eq!(sizes().count(), 6_542 + 93); // 6,542 primes are below 65,536
    methods();
    every_size(random, tally);
    every_p(tally);
    known(tally);
    for (p, n) in sizes().filter(|&(p, n)| n > 1 || p < 100) {
        in_order(random, p, n, tally);
    }
    for _ in 0..rounds {
        drawn(random, tally);
    }
}
