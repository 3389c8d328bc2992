//! Conversion by matrix of request S-10: a column is a power by itself, and every word of an image is worked out from a row, reduced after each term.

use super::model::Model;
use super::{check_with_squares, first, model_number, square_number, table_number};

/// "Its columns being the powers of S modulo T2", row after row.
fn of_powers(p: u32, t: &[u32], s: &[u32]) -> Vec<u32> {
    let (n, model) = (t.len(), Model::new(p, t));
    let columns: Vec<_> = (0..n as u64).map(|j| model.power(s, j)).collect();
    (0..n * n).map(|place| columns[place % n][place / n]).collect()
}

/// The number, and what the two output lists hold after the call.
pub fn matrices(p: u32, n: u32, lists: [&[u32]; 4], lent: [&[u32]; 2]) -> (u32, [Vec<u32>; 2]) {
    let [t1, t2, s, r] = lists;
    match check_with_squares(p, n, lists, &lent) {
        0 => (0, [of_powers(p, t2, s), of_powers(p, t1, r)]),
        refusal => (refusal, lent.map(<[u32]>::to_vec)),
    }
}

/// Matrix times group: word i is the sum over j of word (i, j) of the matrix times word j of the group.
fn image(p: u32, matrix: &[u32], group: &[u32]) -> Vec<u32> {
    let term = |(&a, &b): (&u32, &u32)| u64::from(a) * u64::from(b);
    matrix.chunks(group.len()).map(|row| row.iter().zip(group).map(term).fold(0, |sum, x| (sum + x) % u64::from(p)) as u32).collect()
}

/// The images of a table of whole groups.
pub fn images(p: u32, n: u32, matrix: &[u32], table: &[u32]) -> Vec<u32> {
    table.chunks(n as usize).flat_map(|group| image(p, matrix, group)).collect()
}

/// The number, and what the output list holds after the call.
pub fn convert(p: u32, n: u32, matrix: &[u32], table: &[u32], out: &[u32]) -> (u32, Vec<u32>) {
    let large_word = || u32::from(matrix.iter().chain(table).any(|&word| word >= p)) * 4;
    match first(&[&|| model_number(p, n), &|| square_number(n, &[matrix]), &|| table_number(n, table, out), &large_word]) {
        0 => (0, images(p, n, matrix, table)),
        refusal => (refusal, out.to_vec()),
    }
}
