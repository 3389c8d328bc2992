//! The printed sheet: of pairs that are accepted, with words around p/2, and of pairs and output lists that are not.

use super::case::{changed_variable, damage, draw, Case};
use super::known::draw_all;
use super::Tally;
use crate::document::{divisor::has_divisor, sheet as document};
use crate::library;
use crate::random::Random;
use yokebean::{sheet, sheet_length, Size};

/// The number on which both sides agree.
fn compare_sheet(case: &Case, length: usize, tally: &mut Tally) -> u32 {
    let Case { p, n, t1, t2, s, r } = case;
    let lists: [&[u32]; 4] = [t1, t2, s, r];
    let lent = vec![b'#'; length];
    let want = document::sheet(*p, *n, lists, &lent);
    let mut out = lent;
    let number = library::number(sheet(Size { p: *p, n: *n }, t1, t2, s, r, &mut out));
    if number == 0 {
        assert_eq!(document::read(*p, *n, &out), lists.map(<[u32]>::to_vec), "the sheet shows other lists");
    }
    tally.compare("sheet", want.0, &(p, n, lists, length), &(number, out), &want);
    number
}

/// An irreducible modulus whose words lie around p/2 and at the ends.
fn around_half(random: &mut Random, p: u32, n: u32) -> Vec<u32> {
    let words = [p / 2, p / 2 + 1, p / 2 + 2, (p / 2).saturating_sub(1), 0, 1, p - 1];
    loop {
        let t: Vec<u32> = (0..n).map(|_| words[random.below(7) as usize] % p).collect();
        if !has_divisor(p, &t) {
            return t;
        }
    }
}

fn wrong_length(random: &mut Random, length: usize) -> usize {
    [0, length - 1, length + 1, 240, 480, 720, length / 2][random.below(7) as usize]
}

pub fn run(rounds: u64, tally: &mut Tally) {
    let random = &mut Random::new(0x9e37_79b9_7f4a_7c15);
    for p in [2, 3, 65_521, 1_048_573] {
        for n in 1..=16 {
            for _ in 0..rounds / 100 {
                let t1 = around_half(random, p, n);
                let case = changed_variable(random, p, n, t1);
                compare_sheet(&case, sheet_length(n), tally);
                compare_sheet(&case, wrong_length(random, sheet_length(n)), tally);
            }
        }
    }
    for known in draw_all(random) {
        assert_eq!(compare_sheet(&known.case, sheet_length(known.case.n), tally), known.number);
    }
    for _ in 0..rounds {
        let mut case = draw(random);
        compare_sheet(&case, sheet_length(case.n), tally);
        damage(random, &mut case);
        let length = sheet_length(case.n);
        compare_sheet(&case, if random.once_in(3) { wrong_length(random, length) } else { length }, tally);

        // anything at all
        let (p, n) = (random.modulus_number(), random.degree());
        let [t1, t2, s, r] = [0; 4].map(|_| random.words(p, n, true));
        let length = sheet_length(n).min(1000);
        compare_sheet(&Case { p, n, t1, t2, s, r }, length, tally);
    }
}
