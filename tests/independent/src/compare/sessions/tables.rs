//! Tables in parts, with the next pair prepared between the parts, on known cases: the parts together are what one conversion of the whole table
//! writes under the pair that was current at begin; then end and clear leave what they must.

use super::held::written;
use super::value::{current, with_current, NEW};
use super::Calls;
use crate::compare::case::Case;
use crate::compare::known::draw_all;
use crate::compare::Tally;
use crate::library::{Record, Session as Value};
use crate::random::Random;

/// How far the waiting session comes while the table is open.
#[derive(Clone, Copy, PartialEq)]
enum Waiting {
    Empty,
    Loaded,
    Paired,
}

fn paired(case: &Case, tally: &mut Tally) -> Calls {
    let mut calls = Calls::new(tally);
    assert_eq!(calls.load(case.p, case.n, &case.t1, &case.t2, tally), 0);
    assert_eq!(calls.propose(&case.s, &case.r, tally), 0);
    calls
}

/// Five residues in four parts, one of them empty; between the parts the waiting session goes on, and calls are refused. What the parts wrote.
fn feed_all(calls: &mut Calls, whole: &[u32], forward: bool, next: &Case, waiting: Waiting, tally: &mut Tally) -> Vec<u32> {
    let n = whole.len() / 5;
    let mut images = Vec::new();
    assert_eq!(calls.begin(forward, tally), 0);
    for (k, part) in [&whole[..n], &[], &whole[n..3 * n], &whole[3 * n..]].into_iter().enumerate() {
        let (number, image) = calls.feed(part, vec![7; part.len()], tally);
        assert_eq!(number, 0);
        images.extend(image);
        assert_eq!(calls.convert(forward, part, vec![7; part.len()], tally), (27, vec![7; part.len()]));
        assert_eq!(calls.begin(!forward, tally), 27);
        if k == 0 && waiting != Waiting::Empty {
            assert_eq!(calls.load(next.p, next.n, &next.t1, &next.t2, tally), 0);
        }
        if k == 1 && waiting == Waiting::Paired {
            assert_eq!(calls.propose(&next.s, &next.r, tally), 0);
        }
    }
    images
}

fn table(random: &mut Random, case: &Case, next: &Case, forward: bool, waiting: Waiting, tally: &mut Tally) -> Calls {
    let mut calls = paired(case, tally);
    let whole = random.uniform(case.p, 5 * case.n);
    let (_, image) = calls.convert(forward, &whole, vec![0; whole.len()], tally);
    assert_eq!(feed_all(&mut calls, &whole, forward, next, waiting, tally), image);
    assert_eq!(calls.current.records, 1);
    calls
}

/// One record with all residues, and the next pair if there is one, else the old one.
fn ended(random: &mut Random, case: &Case, next: &Case, forward: bool, waiting: Waiting, tally: &mut Tally) {
    let mut calls = table(random, case, next, forward, waiting, tally);
    assert_eq!(calls.end(tally), 0);
    assert_eq!((calls.current.records, calls.current.ledger[1]), (2, Record { direction: u32::from(!forward), residues: 5 }));
    let case = if waiting == Waiting::Paired { next } else { case };
    assert_eq!(current(&calls.current), written(&case.held()));
    let whole = random.uniform(case.p, case.n);
    assert_eq!(calls.convert(forward, &whole, vec![0; whole.len()], tally).0, 0);
    assert_eq!([calls.feed(&[], Vec::new(), tally).0, calls.end(tally)], [26, 26]);
    calls.report(tally);
}

/// No record, no pair and no table.
fn dropped(random: &mut Random, case: &Case, next: &Case, forward: bool, waiting: Waiting, tally: &mut Tally) {
    let mut calls = table(random, case, next, forward, waiting, tally);
    let Value { records, ledger, .. } = calls.current;
    calls.clear(tally);
    assert_eq!(calls.current, Value { records, ledger, ..NEW });
    assert_eq!([calls.feed(&[], Vec::new(), tally).0, calls.end(tally)], [26, 26]);
    calls.report(tally);
}

/// The same models on both sides of an end, with another pair: nothing but S and R tells which one converts.
fn same_models(tally: &mut Tally) {
    let mut calls = Calls::new(tally);
    calls.load(3, 2, &[1, 0], &[2, 1], tally);
    calls.propose(&[1, 2], &[1, 2], tally);
    calls.begin(true, tally);
    calls.load(3, 2, &[1, 0], &[2, 1], tally);
    calls.propose(&[2, 1], &[1, 1], tally);
    assert_eq!(calls.feed(&[0, 1], vec![0; 2], tally), (0, vec![1, 2]));
    calls.end(tally);
    assert_eq!(calls.convert(true, &[0, 1], vec![0; 2], tally), (0, vec![2, 1]));
    assert_eq!(calls.report(tally), b"F 1\nF 1\n2\n0\n");
}

/// A value made otherwise: also words past n, which do not count, go from the waiting session to the current one.
fn as_it_stands(case: &Case, tally: &mut Tally) {
    let mut calls = paired(case, tally);
    let mut waiting = current(&calls.current);
    for list in [&mut waiting.t1, &mut waiting.t2, &mut waiting.s, &mut waiting.r] {
        list[case.n as usize..].fill(u32::MAX);
    }
    calls.begin(false, tally);
    calls.forge(Value { waiting, ..calls.current });
    let taken = calls.current;
    assert_eq!(calls.end(tally), 0);
    let ledger = calls.current.ledger;
    assert_eq!(calls.current, Value { records: 1, ledger, open: 0, waiting: NEW.waiting, ..with_current(&taken, waiting) });
}

pub fn run(tally: &mut Tally) {
    same_models(tally);
    let random = &mut Random::new(0xa076_1d64_78bd_642f);
    let cases: Vec<Case> = draw_all(random).into_iter().filter(|known| known.number == 0).map(|known| known.case).collect();
    for (k, case) in cases.iter().enumerate() {
        let next = &cases[(k + 1) % cases.len()];
        as_it_stands(case, tally);
        for waiting in [Waiting::Empty, Waiting::Loaded, Waiting::Paired] {
            for forward in [true, false] {
                ended(random, case, next, forward, waiting, tally);
                dropped(random, case, next, forward, waiting, tally);
            }
        }
    }
}
