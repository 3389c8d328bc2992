//! Tables as differences: both calls for every n, with words of every sort and lengths about the limits. Apart from the comparison, what is written
//! must be right by itself: each call undoes the other, and a restored word is the sum of those at its place and n, 2n, … places before.

use super::order::{assert_order, no_table_length, wrong_length, Refusal};
use super::Tally;
use crate::document::differences as document;
use crate::library::number;
use crate::random::Random;

struct Call {
    name: &'static str,
    library: fn(u32, &[u32], &mut [u32]) -> Result<(), yokebean::Refusal>,
    document: fn(u32, &[u32], &[u32]) -> (u32, Vec<u32>),
}

const DIFFERENCES: Call = Call { name: "differences", library: yokebean::differences, document: document::differences };
const RESTORE: Call = Call { name: "restore", library: yokebean::restore, document: document::restore };

/// A table, and how long the output list is.
#[derive(Clone)]
struct Input {
    n: u32,
    table: Vec<u32>,
    length: usize,
}

impl Input {
    /// With an output list of the right length.
    fn whole(n: u32, table: &[u32]) -> Self {
        Input { n, table: table.to_vec(), length: table.len() }
    }

    /// The table becomes a longer one; the output list is longer or shorter than it by as much as it was.
    fn resize(&mut self, length: usize) {
        self.length = self.length + length - self.table.len();
        self.table.resize(length, 0);
    }
}

/// The number on which both sides agree, and what the output list holds after the call.
fn compare(call: &Call, Input { n, table, length }: &Input, tally: &mut Tally) -> (u32, Vec<u32>) {
    let mut out: Vec<u32> = (40_000..).take(*length).collect();
    let want = (call.document)(*n, table, &out);
    let got = (number((call.library)(*n, table, &mut out)), out);
    tally.compare(call.name, got.0, &(n, table, length), &got, &want);
    got
}

/// For both calls.
fn assert_number(input: &Input, known: u32, tally: &mut Tally) {
    for call in [DIFFERENCES, RESTORE] {
        assert_eq!(compare(&call, input, tally).0, known, "{}", call.name);
    }
}

fn any_word(random: &mut Random) -> u32 {
    random.next() as u32
}

/// One call after the other, in both orders.
fn both_ways(random: &mut Random, n: u32, table: &[u32], tally: &mut Tally) {
    for (call, inverse) in [(DIFFERENCES, RESTORE), (RESTORE, DIFFERENCES)] {
        let (number, written) = compare(&call, &Input::whole(n, table), tally);
        assert_eq!((number, compare(&inverse, &Input::whole(n, &written), tally)), (0, (0, table.to_vec())));
    }
    if !table.is_empty() {
        let k = random.below(table.len() as u64) as usize;
        let sum = table[..=k].iter().rev().step_by(n as usize).fold(0, |sum: u32, &word| sum.wrapping_add(word));
        assert_eq!(compare(&RESTORE, &Input::whole(n, table), tally).1[k], sum, "word {k}, n = {n}, of {table:?}");
    }
}

/// Words of one sort: equal, of the ends, below a p, any, and those that change by at most 3 from one group to the next.
fn words(random: &mut Random, sort: u64, n: u32, length: usize) -> Vec<u32> {
    let n = n as usize;
    let mut table: Vec<u32> = Vec::with_capacity(length);
    for k in 0..length {
        let word = match sort {
            0 => 0,
            1 => 1,
            2 => 1 << 31,
            3 => u32::MAX,
            4 => [0, 1, 1 << 31, u32::MAX][random.below(4) as usize],
            5 => random.below(65_521) as u32,
            6 => any_word(random),
            _ if k < n => [0, 1 << 31, u32::MAX][k % 3],
            _ => table[k - n].wrapping_add(random.below(7) as u32).wrapping_sub(3),
        };
        table.push(word);
    }
    table
}

const SORTS: u64 = 8;

/// None, one group, a few and as many as there may be.
fn sorts(random: &mut Random, n: u32, tally: &mut Tally) {
    for (sort, groups) in (0..SORTS).flat_map(|sort| [0, 1, 2, 7, 16_384 / n].map(|groups| (sort, groups))) {
        let table = words(random, sort, n, (groups * n) as usize);
        both_ways(random, n, &table, tally);
    }
}

/// 9 above 16,384 words and where n does not divide their number, also where 10 applies.
fn lengths(random: &mut Random, n: u32, tally: &mut Tally) {
    let most = 16_384 / n * n;
    for length in [0, 1, n - 1, n, n + 1, 2 * n, most - 1, most, most + 1, most + n, 16_383, 16_384, 16_385, 32_768] {
        let known = if length > 16_384 || length % n != 0 { 9 } else { 0 };
        let mut input = Input::whole(n, &words(random, 6, n, length as usize));
        assert_number(&input, known, tally);
        for wrong in [0, length - length.min(1), length + 1, length + n].into_iter().filter(|&wrong| wrong != length) {
            input.length = wrong as usize;
            assert_number(&input, if known == 0 { 10 } else { 9 }, tally);
        }
    }
}

/// 17, and the table with it, or another that is none.
fn not_a_degree(random: &mut Random, input: &mut Input) {
    if random.once_in(3) {
        input.n = [0, 18, u32::MAX][random.below(3) as usize];
        return;
    }
    let n = input.n as usize;
    input.resize(input.table.len() / n * 17 + input.table.len() % n);
    input.n = 17;
}

fn in_order(random: &mut Random, n: u32, tally: &mut Tally) {
    let order: [Refusal<Input>; 3] = [
        (2, not_a_degree),
        (9, |random, input| input.resize(no_table_length(random, input.n, input.table.len()))),
        (10, |random, input| input.length = wrong_length(random, input.length)),
    ];
    let right = Input::whole(n, &words(random, 6, n, 5 * n as usize));
    for call in [DIFFERENCES, RESTORE] {
        assert_order(random, &right, &order, |input| compare(&call, input, tally).0);
    }
    // all three at last
    let mut input = right;
    for (known, refuse) in order.iter().rev() {
        refuse(random, &mut input);
        assert_number(&input, *known, tally);
    }
}

/// 2 for every n that is not 1 to 16, whatever the lengths are.
fn degrees(random: &mut Random, tally: &mut Tally) {
    for n in [0, 17, 18, 32, 256, 65_536, 65_537, 1 << 31, u32::MAX] {
        for length in [0, 1, 16, 17, 34, 16_384, 16_385] {
            let mut input = Input::whole(n, &words(random, 6, n, length));
            assert_number(&input, 2, tally);
            input.length += 1;
            assert_number(&input, 2, tally);
        }
    }
}

/// Anything at all.
fn drawn(random: &mut Random, tally: &mut Tally) {
    let (n, sort) = (random.degree(), random.below(SORTS));
    let length = random.below(40) as usize * n.min(18) as usize;
    let mut input = Input::whole(n, &words(random, sort, n, length));
    if (1..=16).contains(&n) {
        both_ways(random, n, &input.table, tally);
    }
    match random.below(4) {
        0 => input.length = wrong_length(random, length),
        1 => input.resize(length + random.below(17) as usize),
        _ => {}
    }
    compare(&DIFFERENCES, &input, tally);
    compare(&RESTORE, &input, tally);
}

pub fn run(rounds: u64, tally: &mut Tally) {
    let random = &mut Random::new(0xd1b5_4a32_d192_ed03);
    for n in 1..=16 {
        sorts(random, n, tally);
        lengths(random, n, tally);
        in_order(random, n, tally);
    }
    degrees(random, tally);
    for _ in 0..rounds {
        drawn(random, tally);
    }
}
