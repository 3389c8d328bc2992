//! Tables and parts of 16,384 words, which is the most that a conversion takes, and of lengths about that; and words of p or more in them. All numbers
//! are known beforehand.

use super::Calls;
use crate::compare::case::changed_variable;
use crate::compare::Tally;
use crate::random::Random;

/// A paired session, with a table open or not.
fn paired(random: &mut Random, p: u32, n: u32, open: bool, tally: &mut Tally) -> Calls {
    let t1 = random.modulus(p, n, false);
    let case = changed_variable(random, p, n, t1);
    let mut calls = Calls::new(tally);
    assert_eq!(calls.load(p, n, &case.t1, &case.t2, tally), 0);
    assert_eq!(calls.propose(&case.s, &case.r, tally), 0);
    if open {
        assert_eq!(calls.begin(random.once_in(2), tally), 0);
    }
    calls
}

/// A conversion, or a feed where a table is open: the output list has the table's length, or one word more.
fn convert(calls: &mut Calls, random: &mut Random, table: &[u32], longer: bool, tally: &mut Tally) -> u32 {
    let lent = vec![7; table.len() + usize::from(longer)];
    if calls.is_open() {
        calls.feed(table, lent, tally).0
    } else {
        calls.convert(random.once_in(2), table, lent, tally).0
    }
}

/// 9 above 16,384 words and where n does not divide their number, also where 10 and 4 apply.
fn lengths(random: &mut Random, p: u32, n: u32, open: bool, tally: &mut Tally) {
    let mut calls = paired(random, p, n, open, tally);
    let most = 16_384 / n * n;
    for length in [0, n, most, most + n, 16_383, 16_384, 16_385, 16_400, 32_768, 65_536] {
        let known = if length > 16_384 || length % n != 0 { 9 } else { 0 };
        let mut table = random.uniform(p, length);
        assert_eq!(convert(&mut calls, random, &table, false, tally), known);
        assert_eq!(convert(&mut calls, random, &table, true, tally), if known == 0 { 10 } else { 9 });
        if let Some(last) = table.last_mut() {
            *last = p;
            assert_eq!(convert(&mut calls, random, &table, false, tally), if known == 0 { 4 } else { 9 });
        }
    }
}

/// 4 for every word from p on, at either end.
fn words(random: &mut Random, p: u32, n: u32, open: bool, tally: &mut Tally) {
    let mut calls = paired(random, p, n, open, tally);
    for word in [p, p + 1, p + (1 << 16), 1 << 20, p + (1 << 20), 1 << 31, u32::MAX] {
        for place in [0, 3 * n as usize - 1] {
            let mut table = random.uniform(p, 3 * n);
            table[place] = word;
            assert_eq!(convert(&mut calls, random, &table, false, tally), 4);
        }
    }
}

pub fn run(tally: &mut Tally) {
    let random = &mut Random::new(0xff51_afd7_ed55_8ccd);
    for (p, n) in [(3, 2), (65_521, 16), (65_537, 1), (1_048_573, 3), (1_048_573, 16)] {
        for open in [false, true] {
            lengths(random, p, n, open, tally);
            words(random, p, n, open, tally);
        }
    }
}
