//! What a session holds, as C has it: the value that calls write of it, and what a value holds.

use crate::document::held::{Held, Pair};
use crate::document::is_prime;
use crate::library::Held as Value;

pub const EMPTY: Value = Value { state: 0, p: 0, n: 0, t1: [0; 16], t2: [0; 16], s: [0; 16], r: [0; 16] };

fn padded(words: &[u32]) -> [u32; 16] {
    let mut array = [0; 16];
    array[..words.len()].copy_from_slice(words);
    array
}

/// Words past n, and lists that the state does not have, are 0.
pub fn written(held: &Held) -> Value {
    match held {
        Held::Empty => EMPTY,
        Held::Loaded { p, n, t1, t2 } => Value { state: 1, p: *p, n: *n, t1: padded(t1), t2: padded(t2), ..EMPTY },
        Held::Paired(Pair { p, n, t1, t2, s, r }) => {
            Value { state: 2, p: *p, n: *n, t1: padded(t1), t2: padded(t2), s: padded(s), r: padded(r) }
        }
    }
}

/// What is held, unless the state is not one or 1, 2 or 4 refuses one of its parts.
pub fn held(value: &Value) -> Option<Held> {
    let Value { state, p, n, .. } = *value;
    if state == 0 {
        return Some(Held::Empty);
    }
    if state > 2 || !is_prime(p) || !(1..=16).contains(&n) {
        return None;
    }
    let part = |array: &[u32; 16]| array[..n as usize].to_vec();
    let [t1, t2, s, r] = [&value.t1, &value.t2, &value.s, &value.r].map(part);
    let below = |list: &Vec<u32>| list.iter().all(|&word| word < p);
    match state {
        1 if below(&t1) && below(&t2) => Some(Held::Loaded { p, n, t1, t2 }),
        2 if below(&t1) && below(&t2) && below(&s) && below(&r) => Some(Held::Paired(Pair { p, n, t1, t2, s, r })),
        _ => None,
    }
}
