//! Tables as differences, of request S-11, in integers that do not wrap: each word is reduced modulo 2³² by itself.

use super::{degree_number, first, table_number};

const MODULUS: i64 = 1 << 32;

/// "The first n words stay; each later word becomes itself minus the word n places before."
fn difference(n: usize, table: &[u32], k: usize) -> u32 {
    let before = if k < n { 0 } else { table[k - n] };
    (i64::from(table[k]) - i64::from(before)).rem_euclid(MODULUS) as u32
}

/// The first n words stay; each later word becomes itself plus the restored word n places before. From the first word on.
fn restored(n: usize, table: &[u32]) -> Vec<u32> {
    let mut out: Vec<u32> = Vec::with_capacity(table.len());
    for (k, &word) in table.iter().enumerate() {
        let before = if k < n { 0 } else { out[k - n] };
        out.push(((i64::from(word) + i64::from(before)) % MODULUS) as u32);
    }
    out
}

fn number(n: u32, table: &[u32], out: &[u32]) -> u32 {
    first(&[&|| degree_number(n), &|| table_number(n, table, out)])
}

/// The number, and what the output list holds after the call.
pub fn differences(n: u32, table: &[u32], out: &[u32]) -> (u32, Vec<u32>) {
    match number(n, table, out) {
        0 => (0, (0..table.len()).map(|k| difference(n as usize, table, k)).collect()),
        refusal => (refusal, out.to_vec()),
    }
}

/// The number, and what the output list holds after the call.
pub fn restore(n: u32, table: &[u32], out: &[u32]) -> (u32, Vec<u32>) {
    match number(n, table, out) {
        0 => (0, restored(n as usize, table)),
        refusal => (refusal, out.to_vec()),
    }
}
