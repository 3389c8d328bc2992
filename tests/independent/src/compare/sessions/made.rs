//! The values that calls make of the one that they took, where they answer 0 and the session is the next: what they do not change stays as it is,
//! byte for byte, also what does not count.

use super::held::written;
use super::value::{closed, current, with_current, with_ledger, with_table};
use crate::document::session::Session as Document;
use crate::library::Session as Value;

pub type Made = fn(&Value, &Document) -> Value;

/// By load, propose, find and clear, which write what they change anew: the waiting session of an open table, or the current one.
pub fn by_holding(taken: &Value, next: &Document) -> Value {
    match &next.open {
        Some(table) => Value { waiting: written(&table.waiting), ..*taken },
        None => closed(&with_ledger(&with_current(taken, written(&next.held)), next)),
    }
}

/// By a single conversion, which adds a record.
pub fn by_converting(taken: &Value, next: &Document) -> Value {
    closed(&with_ledger(taken, next))
}

pub fn by_begin(taken: &Value, next: &Document) -> Value {
    with_table(taken, next.open.as_ref().unwrap().forward)
}

pub fn by_feed(taken: &Value, next: &Document) -> Value {
    Value { fed: next.open.as_ref().unwrap().fed, ..*taken }
}

/// A paired waiting session becomes the current one as it stands.
pub fn by_end(taken: &Value, next: &Document) -> Value {
    let held = if taken.waiting.state == 2 { taken.waiting } else { current(taken) };
    closed(&with_ledger(&with_current(taken, held), next))
}
