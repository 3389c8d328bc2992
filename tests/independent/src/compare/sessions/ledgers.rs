//! Ledgers with as many records, and with as many residues, as there can be.

use super::Calls;
use crate::compare::Tally;
use crate::library::{self, Record, Session as Value, Step};

/// Example A with more conversions than the ledger takes, refused ones and tables in parts among them, and one pair after the other.
fn full(tally: &mut Tally) {
    let mut calls = Calls::new(tally);
    for k in 0..800 {
        if k % 100 == 0 {
            calls.clear(tally);
            calls.load(3, 2, &[1, 0], &[2, 1], tally);
            if k % 200 == 0 {
                calls.find(tally);
            } else {
                calls.propose(&[2, 1], &[1, 1], tally);
            }
        }
        let length = k % 7 * 2 + usize::from(k % 11 == 0); // 9
        let word = if k % 13 == 0 { 3 } else { 2 }; // 4
        let lent = length + usize::from(k % 17 == 0); // 10
        let (table, lent) = (vec![word; length], vec![7; lent]);
        if k % 5 == 0 {
            calls.begin(k % 3 == 0, tally);
            calls.feed(&table, lent.clone(), tally);
            calls.feed(&table, lent, tally);
            calls.end(tally);
        } else {
            calls.convert(k % 3 == 0, &table, lent, tally);
        }
    }
    assert_eq!(calls.current.records, 512);
    let full = calls.current;
    let refused: [(&[u32], usize, u32); 5] = [(&[], 0, 25), (&[1, 1], 2, 25), (&[3, 1], 2, 4), (&[1, 1], 3, 10), (&[1], 1, 9)];
    for (table, lent, number) in refused {
        assert_eq!(library::convert(full, true, table, &mut vec![0; lent]), Step { number, session: full });
        calls.convert(true, table, vec![0; lent], tally);
    }
    assert_eq!([true, false].map(|forward| calls.begin(forward, tally)), [25, 25]);
    calls.report(tally);
    calls.clear(tally);
    calls.report(tally);
}

/// The last record is that of a table: begin leaves room for it.
fn last_record(tally: &mut Tally) {
    let mut calls = Calls::new(tally);
    calls.load(3, 2, &[1, 0], &[2, 1], tally);
    calls.find(tally);
    calls.forge(Value { records: 511, ..calls.current });
    assert_eq!(calls.begin(false, tally), 0);
    assert_eq!(calls.feed(&[2, 2], vec![0; 2], tally).0, 0);
    assert_eq!(calls.end(tally), 0);
    assert_eq!((calls.current.records, calls.current.ledger[511]), (512, Record { direction: 1, residues: 1 }));
    assert_eq!(calls.begin(false, tally), 25);
    calls.report(tally);
}

/// The most residues that a ledger can hold, which only a value made otherwise does.
fn largest_total(tally: &mut Tally) {
    let mut calls = Calls::new(tally);
    calls.forge(Value { records: 512, ledger: [Record { direction: 0, residues: u32::MAX }; 512], ..calls.current });
    assert_eq!(String::from_utf8(calls.report(tally)).unwrap(), "F 4294967295\n".repeat(512) + "2199023255040\n0\n");
}

pub fn run(tally: &mut Tally) {
    full(tally);
    last_record(tally);
    largest_total(tally);
}
