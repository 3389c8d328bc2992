//! Sessions as C has them: the parts of a value, and what a value counts as.

use super::held::{held, EMPTY};
use crate::document::session::{OpenTable, Session as Document};
use crate::library::{Held, Record, Session as Value};

const NONE: Record = Record { direction: 0, residues: 0 };

/// A new session.
pub const NEW: Value = Value {
    state: 0,
    p: 0,
    n: 0,
    t1: [0; 16],
    t2: [0; 16],
    s: [0; 16],
    r: [0; 16],
    records: 0,
    ledger: [NONE; 512],
    open: 0,
    fed: 0,
    waiting: EMPTY,
};

/// What the current session holds.
pub fn current(value: &Value) -> Held {
    let Value { state, p, n, t1, t2, s, r, .. } = *value;
    Held { state, p, n, t1, t2, s, r }
}

/// A value whose current session holds something else.
pub fn with_current(value: &Value, held: Held) -> Value {
    let Held { state, p, n, t1, t2, s, r } = held;
    Value { state, p, n, t1, t2, s, r, ..*value }
}

/// A value with the records of a session in it; what stands past them stays.
pub fn with_ledger(value: &Value, session: &Document) -> Value {
    let mut ledger = value.ledger;
    for (place, &(forward, residues)) in ledger.iter_mut().zip(&session.ledger) {
        *place = Record { direction: u32::from(!forward), residues };
    }
    Value { records: session.ledger.len() as u32, ledger, ..*value }
}

/// A value with an open table of one direction, without residues and with an empty waiting session.
pub fn with_table(value: &Value, forward: bool) -> Value {
    Value { open: if forward { 1 } else { 2 }, fed: 0, waiting: EMPTY, ..*value }
}

/// A value without an open table.
pub fn closed(value: &Value) -> Value {
    Value { open: 0, fed: 0, waiting: EMPTY, ..*value }
}

/// The records that count, unless they are more than 512 or one has no direction.
fn ledger(value: &Value) -> Option<Vec<(bool, u32)>> {
    let record = |record: &Record| match record.direction {
        0 => Some((true, record.residues)),
        1 => Some((false, record.residues)),
        _ => None,
    };
    value.ledger.get(..value.records as usize)?.iter().map(record).collect()
}

/// The open table, if there is one; nothing at all where it has no direction, or what its waiting session holds is not sound.
fn open(value: &Value) -> Option<Option<OpenTable>> {
    let forward = match value.open {
        0 => return Some(None),
        1 => true,
        2 => false,
        _ => return None,
    };
    Some(Some(OpenTable { forward, fed: value.fed, waiting: held(&value.waiting)? }))
}

/// The session of a value in which every part is sound, and a table open over a pair and a ledger with room for a record, if it is open.
fn sound(value: &Value) -> Option<Document> {
    let session = Document { held: held(&current(value))?, ledger: ledger(value)?, open: open(value)? };
    let may_be_open = session.held.pair().is_ok() && session.ledger.len() < 512;
    (session.open.is_none() || may_be_open).then_some(session)
}

/// What a value counts as: one made otherwise, as a new session.
pub fn counts_as(value: &Value) -> Document {
    sound(value).unwrap_or_else(Document::new)
}
