//! Conversion by matrix: the matrices of pairs for every n, and tables converted by them and by any other matrix. Apart from the comparison, what is
//! written must be right by itself: the columns are the images of the powers of X, the two matrices multiply to the identity both ways, and tables
//! are converted as by a session.

mod build;
mod convert;

use super::known::{draw_size, Known};
use super::Tally;
use crate::random::Random;

const PRIMES: [u32; 8] = [2, 3, 5, 7, 251, 65_521, 65_537, 1_048_573];

/// Numbers that 1 is for, above every word of a list that was right before.
const NO_PRIMES: [u32; 5] = [1_048_575, 1_048_576, 1_048_583, 2_147_483_647, u32::MAX];

fn place(random: &mut Random, list: &[u32]) -> usize {
    random.below(list.len() as u64) as usize
}

fn identity(n: u32) -> Vec<u32> {
    (0..n * n).map(|place| u32::from(place / n == place % n)).collect()
}

/// Row after row becomes column after column.
fn transposed(n: u32, matrix: &[u32]) -> Vec<u32> {
    (0..n as usize).flat_map(|j| matrix.iter().skip(j).step_by(n as usize).copied()).collect()
}

pub fn run(rounds: u64, tally: &mut Tally) {
    let random = &mut Random::new(0x94d0_49bb_1331_11eb);
    for (p, n) in PRIMES.into_iter().flat_map(|p| (1..=16).map(move |n| (p, n))) {
        for Known { case, number, .. } in draw_size(random, p, n) {
            build::known(&case, number, tally);
            if number == 0 {
                build::in_order(random, &case, tally);
                convert::as_session(random, &case, tally);
            }
        }
        convert::in_order(random, p, n, tally);
        convert::lengths(random, p, n, tally);
        convert::matrices(random, p, n, tally);
    }
    for (p, n) in [(2, 2), (251, 3), (65_521, 16), (1_048_573, 1), (1_048_573, 5)] {
        convert::words(random, p, n, tally);
    }
    for _ in 0..rounds {
        build::drawn(random, tally);
        convert::drawn(random, tally);
    }
}
