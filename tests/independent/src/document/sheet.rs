//! The printed sheet of request S-1, written with Rust's own formatting, and read back by its columns.

use super::{first, model_number, pair_number};

const NAMES: [&str; 4] = ["T1", "T2", "S", "R"];

/// "A word v prints as v if v is at most p/2 rounded down, else as v − p."
fn centred(p: u32, v: u32) -> i64 {
    let v = i64::from(v);
    if v <= i64::from(p / 2) {
        v
    } else {
        v - i64::from(p)
    }
}

fn text(p: u32, lists: [&[u32]; 4]) -> String {
    let mut sheet = String::new();
    for (name, list) in NAMES.iter().zip(lists) {
        for (row, words) in list.chunks(8).enumerate() {
            let mut line = format!("{:<3}", if row == 0 { name } else { "" });
            for &v in words {
                line += &format!("{:>7}", centred(p, v));
            }
            sheet += &format!("{line:<59}\n");
        }
    }
    sheet
}

/// The number, and what the output list holds after the call.
pub fn sheet(p: u32, n: u32, lists: [&[u32]; 4], out: &[u8]) -> (u32, Vec<u8>) {
    let lines = 4 * ((n as usize + 7) / 8);
    let wrong_length = || u32::from(out.len() != 60 * lines || lists.iter().any(|list| list.len() != n as usize)) * 3;
    let large_word = || u32::from(lists.iter().any(|list| list.iter().any(|&v| v >= p))) * 4;
    let no_pair = || pair_number(p, lists[0], lists[1], lists[2], lists[3]);
    match first(&[&|| model_number(p, n), &wrong_length, &large_word, &no_pair]) {
        0 => (0, text(p, lists).into_bytes()),
        refusal => (refusal, out.to_vec()),
    }
}

/// The four lists that a sheet shows, with p and n known: the numbers in its columns, taken modulo p.
pub fn read(p: u32, n: u32, sheet: &[u8]) -> [Vec<u32>; 4] {
    let lines: Vec<&[u8]> = sheet.chunks(60).collect();
    let rows = lines.len() / 4;
    [0, 1, 2, 3].map(|k| {
        let columns = lines[k * rows..(k + 1) * rows].iter().flat_map(|line| line[3..59].chunks(7));
        let number = |column: &[u8]| std::str::from_utf8(column).unwrap().trim_start().parse::<i64>().unwrap();
        columns.take(n as usize).map(|column| number(column).rem_euclid(p.into()) as u32).collect()
    })
}
