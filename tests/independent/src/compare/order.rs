//! Each refusal of a call alone, and each two of them at a time, of which the first in the call's order wins; and lengths that are refused.

use crate::random::Random;

/// A number, and what changes an input so that it applies; the numbers behind it in the order that applied still do.
pub type Refusal<I> = (u32, fn(&mut Random, &mut I));

/// `order` has the refusals of a call in their order; `number` gives the number on which both sides agree for an input.
pub fn assert_order<I: Clone>(random: &mut Random, right: &I, order: &[Refusal<I>], mut number: impl FnMut(&I) -> u32) {
    for (k, (known, refuse)) in order.iter().enumerate() {
        for later in k..order.len() {
            let mut input = right.clone();
            if later > k {
                order[later].1(random, &mut input);
            }
            refuse(random, &mut input);
            assert_eq!(number(&input), *known, "the numbers {known} and {} apply", order[later].0);
        }
    }
}

/// One word less or more, none, or twice as many and one.
pub fn wrong_length(random: &mut Random, length: usize) -> usize {
    let wrong = [length + 1, 2 * length + 1, length.saturating_sub(1), 0];
    wrong[random.below(if length == 0 { 2 } else { 4 }) as usize]
}

/// In the place of the length of a table, one above 16,384 or, where n is not 1, one that is not a multiple of n.
pub fn no_table_length(random: &mut Random, n: u32, length: usize) -> usize {
    let n = n as usize;
    if n == 1 || random.once_in(3) {
        (16_384 / n + 1) * n
    } else {
        length + 1 + random.below(n as u64 - 1) as usize
    }
}
