//! Propose on known cases, so also over moduli with divisors, which it refuses; and values made otherwise that hold the same pairs, which count as
//! paired and convert.

use super::held::written;
use super::value::{with_current, NEW};
use super::Calls;
use crate::compare::case::Case;
use crate::compare::known::{draw_all, Known};
use crate::compare::Tally;
use crate::random::Random;

fn propose(known: &Known, tally: &mut Tally) {
    let Case { p, n, t1, t2, s, r } = &known.case;
    let mut calls = Calls::new(tally);
    calls.load(*p, *n, t1, t2, tally);
    assert_eq!(calls.propose(s, r, tally), known.number);
}

/// There and back gives the table again where the congruences hold.
fn convert(random: &mut Random, known: &Known, tally: &mut Tally) {
    let Case { p, n, s, r, .. } = &known.case;
    let (table, lent) = (random.uniform(*p, 3 * n), vec![7; 3 * *n as usize]);
    let mut calls = Calls::new(tally);
    calls.forge(with_current(&NEW, written(&known.case.held())));
    let (_, image) = calls.convert(true, &table, lent.clone(), tally);
    let (_, again) = calls.convert(false, &image, lent, tally);
    if known.congruent() {
        assert_eq!(again, table);
    }
    assert_eq!(calls.current.records, 2);
    assert_eq!(calls.propose(s, r, tally), 24);
}

pub fn run(tally: &mut Tally) {
    let random = &mut Random::new(0xd6e8_feb8_6659_fd93);
    for known in draw_all(random) {
        propose(&known, tally);
        convert(random, &known, tally);
    }
}
