//! The limit of 4,294,967,295 residues. Calls alone would take too long to bring a table there, so values made otherwise have tables that are almost
//! as long.

use super::Calls;
use crate::compare::Tally;
use crate::library::{Record, Session as Value};

/// Example A with a table open, and room in it for three residues more.
fn almost(forward: bool, tally: &mut Tally) -> Calls {
    let mut calls = Calls::new(tally);
    calls.load(3, 2, &[1, 0], &[2, 1], tally);
    calls.find(tally);
    calls.begin(forward, tally);
    calls.forge(Value { fed: u32::MAX - 3, ..calls.current });
    calls
}

/// Each part, the length of the list lent for it, and the number: the limit comes before what 10 and 4 are for.
const PARTS: [(&[u32], usize, u32); 9] = [
    (&[], 0, 0),
    (&[1, 1], 2, 0),
    (&[1; 6], 6, 0),
    (&[1; 8], 8, 9),
    (&[1; 8], 6, 9),
    (&[3; 8], 8, 9),
    (&[1; 5], 5, 9),
    (&[1; 6], 8, 10),
    (&[3; 6], 6, 4),
];

/// As long as it can be, a table takes nothing but empty parts, and ends as one record.
fn reached(forward: bool, tally: &mut Tally) {
    let mut calls = almost(forward, tally);
    for (residues, number) in [(2, 0), (2, 9), (1, 0), (1, 9), (0, 0)] {
        assert_eq!(calls.feed(&vec![1; 2 * residues], vec![0; 2 * residues], tally).0, number);
    }
    assert_eq!((calls.current.fed, calls.end(tally)), (u32::MAX, 0));
    assert_eq!(calls.current.ledger[0], Record { direction: u32::from(!forward), residues: u32::MAX });
    calls.convert(forward, &[1, 1], vec![0; 2], tally);
    let text = if forward { "F 4294967295\nF 1\n4294967296\n0\n" } else { "B 4294967295\nB 1\n0\n4294967296\n" };
    assert_eq!(calls.report(tally), text.as_bytes());
}

pub fn run(tally: &mut Tally) {
    for forward in [true, false] {
        for (part, lent, number) in PARTS {
            assert_eq!(almost(forward, tally).feed(part, vec![0; lent], tally).0, number);
        }
        reached(forward, tally);
    }
}
