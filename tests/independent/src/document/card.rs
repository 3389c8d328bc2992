//! Field cards as strings of bits.

use super::{congruences, field_number, finder, finder_number, first, is_prime, list_number, model_number};

/// The number of binary digits of p − 1.
fn width(p: u32) -> usize {
    format!("{:b}", p - 1).len()
}

fn word_count(n: u32, kind: u32) -> usize {
    (if kind == 1 { 2 } else { 4 }) * n as usize
}

/// "The writer uses it exactly when p is over 65,535."
fn is_wide(p: u32) -> bool {
    p > 65_535
}

/// The bits before the coefficients: "A wide card starts with 16 zero bits, then p in 20 bits, n − 1 in 4, kind in 4 and 4 zero bits".
fn header(wide: bool, p: u32, n: u32, kind: u32) -> String {
    if wide {
        format!("{}{p:020b}{:04b}{kind:04b}0000", "0".repeat(16), n - 1)
    } else {
        format!("{p:016b}{:04b}{kind:04b}", n - 1)
    }
}

/// Where the coefficients begin.
fn header_length(wide: bool) -> usize {
    header(wide, 2, 1, 1).len()
}

pub fn card_length(p: u32, n: u32, kind: u32) -> usize {
    (header_length(is_wide(p)) + word_count(n, kind) * width(p) + 7) / 8
}

/// A card in one of the two forms, whether p is for it or not.
pub fn card_in_form(wide: bool, p: u32, n: u32, kind: u32, words: &[u32]) -> Vec<u8> {
    let w = width(p);
    let coefficients: String = words.iter().map(|word| format!("{word:0w$b}")).collect();
    let mut bits = header(wide, p, n, kind) + &coefficients;
    while bits.len() % 8 != 0 {
        bits.push('0');
    }
    (0..bits.len() / 8).map(|k| u8::from_str_radix(&bits[8 * k..8 * k + 8], 2).unwrap()).collect()
}

pub fn card(p: u32, n: u32, kind: u32, words: &[u32]) -> Vec<u8> {
    card_in_form(is_wide(p), p, n, kind, words)
}

pub fn write(p: u32, n: u32, kind: u32, words: &[u32], lent: &[u8]) -> (u32, Vec<u8>) {
    let number = first(&[
        &|| model_number(p, n),
        &|| if kind == 1 || kind == 2 { 0 } else { 12 },
        &|| if words.len() == word_count(n, kind) && lent.len() == card_length(p, n, kind) { 0 } else { 3 },
        &|| list_number(p, words.len() as u32, &[words], &[]),
    ]);
    (number, if number == 0 { card(p, n, kind, words) } else { lent.to_vec() })
}

/// What the reader gives for a card that it takes.
#[derive(Debug, PartialEq)]
pub struct Card {
    pub p: u32,
    pub n: u32,
    pub kind: u32,
    pub words: Vec<u32>,
}

/// "A card under 6 bytes that begins with two zero bytes is 11, tested with the first 11"; "28 for a wide card with a p below 65,536, after 1".
pub fn read(card: &[u8], lent: usize) -> Result<Card, u32> {
    if lent != 64 {
        return Err(3);
    }
    let wide = card.starts_with(&[0, 0]);
    if card.len() < if wide { 6 } else { 3 } {
        return Err(11);
    }
    let bits: String = card.iter().map(|byte| format!("{byte:08b}")).collect();
    let field = |from: usize, count: usize| u32::from_str_radix(&bits[from..from + count], 2).unwrap();
    let (p, n, kind) = if wide { (field(16, 20), field(36, 4) + 1, field(40, 4)) } else { (field(0, 16), field(16, 4) + 1, field(20, 4)) };
    if !is_prime(p) {
        return Err(1);
    }
    if wide && p < 65_536 {
        return Err(28);
    }
    if kind != 1 && kind != 2 {
        return Err(12);
    }
    if card.len() != card_length(p, n, kind) {
        return Err(11);
    }
    let (start, w, count) = (header_length(wide), width(p), word_count(n, kind));
    if bits[start + count * w..].contains('1') || wide && field(44, 4) != 0 {
        return Err(13);
    }
    let words: Vec<u32> = (0..count).map(|k| field(start + k * w, w)).collect();
    if words.iter().any(|&word| word >= p) {
        return Err(4);
    }
    Ok(Card { p, n, kind, words })
}

fn job_answer(p: u32, n: u32, t1: &[u32], t2: &[u32]) -> Result<String, u32> {
    match finder_number(p, n, t1, t2) {
        0 => {
            let pair = finder::pair(p, t1, t2);
            let bytes = card(p, n, 2, &[t1, t2, &pair.s, &pair.r].concat());
            Ok(format!("PAIR {}", bytes.iter().map(|byte| format!("{byte:02X}")).collect::<String>()))
        }
        refusal => Err(refusal),
    }
}

/// Of cards over moduli with divisors "the program prints `RING` and a newline for one whose four congruences hold, and refuses with 6 or 7 otherwise".
fn pair_answer(p: u32, t1: &[u32], t2: &[u32], s: &[u32], r: &[u32]) -> Result<String, u32> {
    match (field_number(p, t1, t2), congruences(p, t1, t2, s, r)) {
        (0, true) => Ok("VALID".to_string()),
        (0, false) => Err(8),
        (_, true) => Ok("RING".to_string()),
        (refusal, false) => Err(refusal),
    }
}

/// What the program `fieldcard` prints for its standard input.
pub fn fieldcard(input: &[u8]) -> String {
    let answer = read(input, 64).and_then(|Card { p, n, words, .. }| {
        let lists: Vec<&[u32]> = words.chunks(n as usize).collect();
        match lists[..] {
            [t1, t2] => job_answer(p, n, t1, t2),
            [t1, t2, s, r] => pair_answer(p, t1, t2, s, r),
            _ => unreachable!("a card has two lists or four"),
        }
    });
    answer.unwrap_or_else(|number| format!("REFUSED {number}")) + "\n"
}
