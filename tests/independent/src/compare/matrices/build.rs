//! The call that builds the two matrices.

use super::{identity, place, transposed, NO_PRIMES};
use crate::compare::case::{damage, draw, half_conjugate, Case};
use crate::compare::known::changed_word;
use crate::compare::order::{assert_order, wrong_length, Refusal};
use crate::compare::Tally;
use crate::document::{matrix as document, model::Model};
use crate::library;
use crate::random::Random;
use yokebean::{matrices, Size};

/// A pair, and how long the two output lists are.
#[derive(Clone)]
struct Input {
    case: Case,
    lengths: [usize; 2],
}

fn lent([first, second]: [usize; 2]) -> [Vec<u32>; 2] {
    [(40_000..).take(first).collect(), (50_000..).take(second).collect()]
}

/// The number, and what the output lists hold after the call.
fn called(Input { case, lengths }: &Input) -> (u32, [Vec<u32>; 2]) {
    let Case { p, n, t1, t2, s, r } = case;
    let [mut forward, mut back] = lent(*lengths);
    let number = library::number(matrices(Size { p: *p, n: *n }, t1, t2, s, r, &mut forward, &mut back));
    (number, [forward, back])
}

/// With output lists of the right length.
fn whole(case: &Case) -> Input {
    Input { case: case.clone(), lengths: [case.n.min(32).pow(2) as usize; 2] }
}

/// The matrices of an accepted pair.
pub fn built(case: &Case) -> [Vec<u32>; 2] {
    called(&whole(case)).1
}

/// The images of 1, X, …, X^(n−1), one after the other.
fn images_of_powers(p: u32, t: &[u32], s: &[u32]) -> Vec<u32> {
    identity(t.len() as u32).chunks(t.len()).flat_map(|power| Model::new(p, t).substitute(s, power)).collect()
}

fn assert_right(case: &Case, [forward, back]: &[Vec<u32>; 2]) {
    let Case { p, n, t1, t2, s, r } = case;
    let input = (p, t1, t2, s, r);
    assert_eq!(transposed(*n, forward), images_of_powers(*p, t2, s), "forward of {input:?}");
    assert_eq!(transposed(*n, back), images_of_powers(*p, t1, r), "back of {input:?}");
    for (a, b) in [(forward, back), (back, forward)] {
        // a times b has the images of b's columns for its columns
        assert_eq!(document::images(*p, *n, a, &transposed(*n, b)), identity(*n), "{a:?} times {b:?} of {input:?}");
    }
}

/// The number on which both sides agree.
fn compare(input: &Input, tally: &mut Tally) -> u32 {
    let Case { p, n, t1, t2, s, r } = &input.case;
    let (lists, [forward, back]): ([&[u32]; 4], _) = ([t1, t2, s, r], lent(input.lengths));
    let got = called(input);
    if got.0 == 0 {
        assert_right(&input.case, &got.1);
    }
    tally.compare("matrices", got.0, &(p, n, lists, input.lengths), &got, &document::matrices(*p, *n, lists, [&forward, &back]));
    got.0
}

/// A case with its number; and 3 for every wrong length of either output list.
pub fn known(case: &Case, number: u32, tally: &mut Tally) {
    assert_eq!(compare(&whole(case), tally), number);
    let (n, square) = (case.n as usize, whole(case).lengths[0]);
    for wrong in [0, n, square - 1, square + 1, 2 * square, 256].into_iter().filter(|&length| length != square) {
        for lengths in [[wrong, square], [square, wrong], [wrong, wrong]] {
            assert_eq!(compare(&Input { case: case.clone(), lengths }, tally), 3);
        }
    }
}

fn any_list<'a>(random: &mut Random, case: &'a mut Case) -> &'a mut Vec<u32> {
    [&mut case.t1, &mut case.t2, &mut case.s, &mut case.r].into_iter().nth(random.below(4) as usize).unwrap()
}

fn not_prime(random: &mut Random, input: &mut Input) {
    input.case.p = NO_PRIMES[random.below(5) as usize];
}

/// 17, and all lists with it, or 0.
fn not_a_degree(random: &mut Random, Input { case, lengths }: &mut Input) {
    if random.once_in(3) {
        case.n = 0;
        return;
    }
    let more = 17 - case.n as usize;
    *lengths = lengths.map(|length| length + more * (17 + case.n as usize));
    case.n = 17;
    for list in [&mut case.t1, &mut case.t2, &mut case.s, &mut case.r] {
        list.extend(vec![0; more]);
    }
}

/// One of the six lists.
fn another_length(random: &mut Random, Input { case, lengths }: &mut Input) {
    if random.once_in(2) {
        let length = &mut lengths[random.below(2) as usize];
        *length = wrong_length(random, *length);
    } else {
        let list = any_list(random, case);
        list.resize(wrong_length(random, list.len()), 0);
    }
}

fn large_word(random: &mut Random, Input { case, .. }: &mut Input) {
    let (p, list) = (case.p, any_list(random, case));
    let place = place(random, list);
    list[place] = random.large_word(p);
}

/// Every number that this n has: in degree 1 no modulus has divisors.
pub fn in_order(random: &mut Random, case: &Case, tally: &mut Tally) {
    let order: [Refusal<Input>; 7] = [
        (1, not_prime),
        (2, not_a_degree),
        (3, another_length),
        (4, large_word),
        (6, |random, Input { case, .. }| case.t1 = random.modulus(case.p, case.n, true)),
        (7, |random, Input { case, .. }| case.t2 = random.modulus(case.p, case.n, true)),
        (8, |random, Input { case, .. }| *case = changed_word(random, case)),
    ];
    let order: Vec<_> = order.into_iter().filter(|(number, _)| case.n > 1 || ![6, 7].contains(number)).collect();
    assert_order(random, &whole(case), &order, |input| compare(input, tally));
}

/// Pairs of every sort, damaged, and anything at all.
pub fn drawn(random: &mut Random, tally: &mut Tally) {
    let mut case = draw(random);
    compare(&whole(&case), tally);
    if random.once_in(2) {
        half_conjugate(&mut case);
    } else {
        damage(random, &mut case);
    }
    compare(&whole(&case), tally);
    let (p, n) = (random.modulus_number(), random.degree());
    let [t1, t2, s, r] = [0; 4].map(|_| random.words(p, n, true));
    let mut any = whole(&Case { p, n, t1, t2, s, r });
    if random.once_in(4) {
        another_length(random, &mut any);
    }
    compare(&any, tally);
}
