//! The call that converts a table by a matrix.

use super::build::built;
use super::{identity, place, NO_PRIMES};
use crate::compare::case::Case;
use crate::compare::order::{assert_order, no_table_length, wrong_length, Refusal};
use crate::compare::Tally;
use crate::document::matrix as document;
use crate::library::{self, number};
use crate::random::Random;
use yokebean::{matrix_convert, Size};

/// A matrix, a table, and how long the output list is.
#[derive(Clone)]
struct Input {
    p: u32,
    n: u32,
    matrix: Vec<u32>,
    table: Vec<u32>,
    length: usize,
}

impl Input {
    /// With an output list of the right length.
    fn whole(p: u32, n: u32, matrix: &[u32], table: &[u32]) -> Self {
        Input { p, n, matrix: matrix.to_vec(), table: table.to_vec(), length: table.len() }
    }

    fn drawn(random: &mut Random, p: u32, n: u32, residues: u32) -> Self {
        Input::whole(p, n, &random.uniform(p, n * n), &random.uniform(p, n * residues))
    }

    /// The table becomes another; the output list is longer or shorter than it by as much as it was.
    fn resize(&mut self, length: usize) {
        self.length = self.length + length - self.table.len();
        self.table.resize(length, 0);
    }
}

/// The number on which both sides agree, and what the output list holds after the call.
fn compare(Input { p, n, matrix, table, length }: &Input, tally: &mut Tally) -> (u32, Vec<u32>) {
    let mut out: Vec<u32> = (40_000..).take(*length).collect();
    let want = document::convert(*p, *n, matrix, table, &out);
    let got = (number(matrix_convert(Size { p: *p, n: *n }, matrix, table, &mut out)), out);
    tally.compare("matrix_convert", got.0, &(p, n, matrix, table, length), &got, &want);
    got
}

/// Forward and back, a full table, one residue and none: the list that a session writes; and one after the other gives the table again.
pub fn as_session(random: &mut Random, case: &Case, tally: &mut Tally) {
    let Case { p, n, t1, t2, s, r } = case;
    let loaded = library::load(library::new(), *p, *n, t1, t2).session;
    let paired = library::propose(loaded, s, r).session;
    let [forward, back] = built(case);
    for residues in [16_384 / n, 1, 0] {
        let table = random.uniform(*p, residues * n);
        for (is_forward, matrix, inverse) in [(true, &forward, &back), (false, &back, &forward)] {
            let mut image = vec![0; table.len()];
            assert_eq!(library::convert(paired, is_forward, &table, &mut image).number, 0);
            let got = compare(&Input::whole(*p, *n, matrix, &table), tally);
            tally.compare("matrix_as_session", 0, &(case.held(), is_forward, &table), &got, &(0, image.clone()));
            assert_eq!(compare(&Input::whole(*p, *n, inverse, &image), tally), (0, table.clone()));
        }
    }
}

fn not_prime(random: &mut Random, input: &mut Input) {
    input.p = NO_PRIMES[random.below(5) as usize];
}

/// 17, and matrix and table with it, or another that is none.
fn not_a_degree(random: &mut Random, input: &mut Input) {
    if random.once_in(3) {
        input.n = [0, 18, u32::MAX][random.below(3) as usize];
        return;
    }
    let n = input.n as usize;
    input.matrix.extend(vec![0; 17 * 17 - n * n]);
    input.resize(input.table.len() / n * 17 + input.table.len() % n);
    input.n = 17;
}

/// In the matrix or in the table.
fn large_word(random: &mut Random, input: &mut Input) {
    let list = if random.once_in(2) { &mut input.matrix } else { &mut input.table };
    let place = place(random, list);
    list[place] = random.large_word(input.p);
}

pub fn in_order(random: &mut Random, p: u32, n: u32, tally: &mut Tally) {
    let order: [Refusal<Input>; 6] = [
        (1, not_prime),
        (2, not_a_degree),
        (3, |random, input| input.matrix.resize(wrong_length(random, input.matrix.len()), 0)),
        (9, |random, input| input.resize(no_table_length(random, input.n, input.table.len()))),
        (10, |random, input| input.length = wrong_length(random, input.length)),
        (4, large_word),
    ];
    let right = Input::drawn(random, p, n, 5);
    assert_order(random, &right, &order, |input| compare(input, tally).0);
    // an empty table
    let mut empty = Input::whole(p, n, &right.matrix, &[]);
    assert_eq!(compare(&empty, tally), (0, vec![]));
    for word in [p, u32::MAX] {
        let place = place(random, &empty.matrix);
        empty.matrix[place] = word;
        assert_eq!(compare(&empty, tally).0, 4);
    }
    empty.length = n as usize;
    assert_eq!(compare(&empty, tally).0, 10);
    empty.matrix.pop();
    assert_eq!(compare(&empty, tally).0, 3);
}

/// 9 above 16,384 words and where n does not divide their number, also where 10 and 4 apply.
pub fn lengths(random: &mut Random, p: u32, n: u32, tally: &mut Tally) {
    let matrix = random.uniform(p, n * n);
    let most = 16_384 / n * n;
    for length in [n, most, most + n, 16_383, 16_384, 16_385, 32_768] {
        let known = if length > 16_384 || length % n != 0 { 9 } else { 0 };
        let mut input = Input::whole(p, n, &matrix, &random.uniform(p, length));
        assert_eq!(compare(&input, tally).0, known);
        *input.table.last_mut().unwrap() = p;
        assert_eq!(compare(&input, tally).0, if known == 0 { 4 } else { 9 });
        input.length += 1;
        assert_eq!(compare(&input, tally).0, if known == 0 { 10 } else { 9 });
    }
}

/// Rows that are multiples of one row.
fn of_rank_one(random: &mut Random, p: u32, n: u32) -> Vec<u32> {
    let [row, factors] = [0; 2].map(|_| random.uniform(p, n));
    let times = |a: u32, b: u32| (u64::from(a) * u64::from(b) % u64::from(p)) as u32;
    factors.iter().flat_map(|&factor| row.iter().map(move |&word| times(factor, word))).collect()
}

/// Matrices of every sort, singular ones too: none, one and all of the words p − 1; of two equal rows; of rank one; of one word that is not 0.
pub fn matrices(random: &mut Random, p: u32, n: u32, tally: &mut Tally) {
    let square = (n * n) as usize;
    let tables = [random.uniform(p, 7 * n), vec![p - 1; 7 * n as usize]];
    let mut twice = random.uniform(p, n * n);
    twice.copy_within(..n as usize, square - n as usize);
    let mut one_word = vec![0; square];
    one_word[random.below(square as u64) as usize] = p - 1;
    let all = [vec![0; square], vec![p - 1; square], twice, of_rank_one(random, p, n), one_word, random.uniform(p, n * n)];
    for table in &tables {
        for matrix in &all {
            assert_eq!(compare(&Input::whole(p, n, matrix, table), tally).0, 0);
        }
        assert_eq!(compare(&Input::whole(p, n, &identity(n), table), tally), (0, table.clone()));
        assert_eq!(compare(&Input::whole(p, n, &all[0], table), tally), (0, vec![0; table.len()]));
    }
}

/// 4 for every word from p on, in every place of the matrix and of the table.
pub fn words(random: &mut Random, p: u32, n: u32, tally: &mut Tally) {
    let right = Input::drawn(random, p, n, 3);
    for word in [p, p + 1, p + (1 << 16), 1 << 20, p + (1 << 20), 1 << 31, u32::MAX] {
        for place in 0..right.matrix.len() {
            let mut input = right.clone();
            input.matrix[place] = word;
            assert_eq!(compare(&input, tally).0, 4);
        }
        for place in 0..right.table.len() {
            let mut input = right.clone();
            input.table[place] = word;
            assert_eq!(compare(&input, tally).0, 4);
        }
    }
}

/// Anything at all.
pub fn drawn(random: &mut Random, tally: &mut Tally) {
    let (p, n) = (random.modulus_number(), random.degree());
    let rows = n.min(18);
    let matrix: Vec<u32> = (0..rows).flat_map(|_| random.words(p, rows, false)).collect();
    let table: Vec<u32> = (0..random.below(6)).flat_map(|_| random.words(p, rows, false)).collect();
    let mut input = Input::whole(p, n, &matrix, &table);
    match random.below(12) {
        0 => input.matrix.resize(wrong_length(random, matrix.len()), 0),
        1 => input.length = wrong_length(random, table.len()),
        2 if !table.is_empty() => large_word(random, &mut input),
        _ => {}
    }
    compare(&input, tally);
}
