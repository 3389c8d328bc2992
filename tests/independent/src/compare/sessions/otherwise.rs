//! Values made otherwise, with a table open: those that count as new, and those that do not, since what is wrong with them is not looked at.

use super::held::EMPTY;
use super::value::{current, NEW};
use super::Calls;
use crate::compare::Tally;
use crate::library::{Held, Record, Session as Value};

/// Example A with one record and a table open that has a part, where example D waits, paired.
fn open(tally: &mut Tally) -> Value {
    let mut calls = Calls::new(tally);
    calls.load(3, 2, &[1, 0], &[2, 1], tally);
    calls.find(tally);
    calls.convert(false, &[2, 2], vec![0; 2], tally);
    calls.begin(true, tally);
    calls.feed(&[1, 1], vec![0; 2], tally);
    calls.load(7, 3, &[5, 0, 0], &[4, 0, 0], tally);
    calls.find(tally);
    calls.current
}

/// What waits, with one word changed at a place.
fn changed(waiting: Held, list: usize, place: usize, word: u32) -> Held {
    let mut waiting = waiting;
    [&mut waiting.t1, &mut waiting.t2, &mut waiting.s, &mut waiting.r][list][place] = word;
    waiting
}

/// A direction that there is not, a table open over no pair or over 512 records, and a waiting session that is not one.
fn counting_as_new(value: Value) -> Vec<Value> {
    let waiting = value.waiting;
    let mut values = vec![
        Value { open: 3, ..value },
        Value { open: u32::MAX, ..value },
        Value { state: 0, ..value },
        Value { state: 1, ..value },
        Value { state: 0, waiting: EMPTY, ..value },
        Value { records: 512, ..value },
        Value { records: 512, open: 2, waiting: EMPTY, ..value },
    ];
    let mut bad = vec![
        Held { state: 3, ..waiting },
        Held { state: u32::MAX, ..waiting },
        Held { p: 0, ..waiting },
        Held { p: 9, ..waiting },
        Held { p: 65_535, ..waiting },
        Held { p: 1_048_583, ..waiting },
        Held { n: 0, ..waiting },
        Held { n: 17, ..waiting },
        Held { state: 1, p: 4, ..waiting },
        Held { state: 1, n: 17, ..waiting },
    ];
    bad.extend((0..4).map(|list| changed(waiting, list, 2, 7)));
    bad.extend((0..2).map(|list| changed(Held { state: 1, ..waiting }, list, 0, u32::MAX)));
    values.extend(bad.into_iter().map(|waiting| Value { waiting, ..value }));
    values
}

/// The value counts as new in every call.
fn counts_as_new(value: Value, tally: &mut Tally) {
    let mut calls = Calls::new(tally);
    calls.forge(value);
    assert!(!calls.is_open());
    assert_eq!([calls.feed(&[1], Vec::new(), tally).0, calls.end(tally)], [26, 26]);
    assert_eq!([true, false].map(|forward| calls.begin(forward, tally)), [21, 21]);
    assert_eq!([true, false].map(|forward| calls.convert(forward, &[1, 1], vec![0; 2], tally).0), [21, 21]);
    assert_eq!([calls.propose(&[1, 2], &[1, 2], tally), calls.find(tally)], [21, 21]);
    assert_eq!(calls.report(tally), b"0\n0\n");
    assert_eq!(calls.current, value);
    calls.clear(tally);
    assert_eq!(calls.current, Value { ledger: value.ledger, ..NEW });
    calls.forge(value);
    assert_eq!(calls.load(2, 1, &[1], &[0], tally), 0);
    let mut loaded = Value { state: 1, p: 2, n: 1, ledger: value.ledger, ..NEW };
    loaded.t1[0] = 1;
    assert_eq!(calls.current, loaded);
}

/// Without an open table, whatever stands for one: the value counts as what it is, and the calls that make another put zeros there.
fn closed(value: Value, tally: &mut Tally) {
    let garbage = Held { state: 7, p: 9, n: 99, t1: [u32::MAX; 16], ..value.waiting };
    for waiting in [garbage, value.waiting, EMPTY] {
        let forged = Value { open: 0, fed: u32::MAX, waiting, ..value };
        let made: [fn(&mut Calls, &mut Tally) -> u32; 3] = [
            |calls, tally| calls.convert(true, &[1, 1], vec![0; 2], tally).0,
            |calls, tally| calls.convert(false, &[], Vec::new(), tally).0,
            |calls, tally| {
                calls.clear(tally);
                calls.load(3, 2, &[1, 0], &[2, 1], tally)
            },
        ];
        for call in made {
            let mut calls = Calls::new(tally);
            calls.forge(forged);
            assert_eq!([calls.feed(&[], Vec::new(), tally).0, calls.end(tally), calls.find(tally)], [26, 26, 24]);
            assert_eq!(calls.report(tally), b"B 1\n0\n1\n");
            assert_eq!(calls.current, forged);
            assert_eq!(call(&mut calls, tally), 0);
            assert_eq!((calls.current.open, calls.current.fed, calls.current.waiting), (0, 0, EMPTY));
        }
        let mut calls = Calls::new(tally);
        calls.forge(forged);
        assert_eq!(calls.begin(false, tally), 0);
        assert_eq!(calls.current, Value { open: 2, fed: 0, waiting: EMPTY, ..value });
    }
}

/// With a table open, what the state of the waiting session does not have: it stays until load, propose or find write the waiting session anew.
fn not_looked_at(value: Value, tally: &mut Tally) {
    let empty = Held { state: 0, p: 9, n: 99, ..value.waiting };
    let loaded = Held { state: 1, s: [u32::MAX; 16], r: [u32::MAX; 16], ..changed(value.waiting, 0, 3, u32::MAX) };
    let mut calls = Calls::new(tally);
    calls.forge(Value { waiting: empty, ..value });
    assert_eq!(calls.find(tally), 21);
    assert_eq!(calls.feed(&[1, 1], vec![0; 2], tally), (0, vec![2, 2]));
    assert_eq!(calls.current.waiting, empty);
    assert_eq!(calls.load(7, 3, &[5, 0, 0], &[4, 0, 0], tally), 0);
    assert_eq!(calls.current.waiting, Held { state: 1, s: [0; 16], r: [0; 16], ..value.waiting });
    calls.forge(Value { waiting: loaded, ..value });
    assert_eq!(calls.load(7, 3, &[5, 0, 0], &[4, 0, 0], tally), 23);
    assert_eq!(calls.find(tally), 0);
    assert_eq!(calls.current.waiting, value.waiting);
    for waiting in [empty, loaded] {
        calls.forge(Value { waiting, ..value });
        assert_eq!(calls.end(tally), 0);
        assert_eq!(current(&calls.current), current(&value));
        assert_eq!((calls.current.records, calls.current.ledger[1]), (2, Record { direction: 0, residues: 1 }));
    }
}

pub fn run(tally: &mut Tally) {
    let value = open(tally);
    for forged in counting_as_new(value) {
        counts_as_new(forged, tally);
    }
    closed(value, tally);
    not_looked_at(value, tally);
}
