//! Reader and writer: valid cards of every n and many p, every change of a single bit in some of them, lengths one off, random bytes; and wide cards
//! whose numbers are known beforehand.

mod wide;

use super::Tally;
use crate::document::card;
use crate::library;
use crate::random::Random;
use yokebean::{raw, Card, Size};

/// The number on which both sides agree.
fn compare_read(bytes: &[u8], lent: Vec<u32>, tally: &mut Tally) -> u32 {
    let (number, fields, list) = match card::read(bytes, lent.len()) {
        Ok(found) => {
            let mut words = found.words;
            words.resize(64, 0);
            (0, (found.p, found.n, found.kind), words)
        }
        Err(number) => (number, (0, 0, 0), lent.clone()),
    };
    let mut words = lent;
    let got = unsafe { raw::yokebean_card_read(bytes.as_ptr(), bytes.len(), words.as_mut_ptr(), words.len()) };
    tally.compare("card_read", number, &bytes, &((got.number, (got.p, got.n, got.kind)), words), &((number, fields), list));
    number
}

/// The same.
fn compare_write(p: u32, n: u32, kind: u32, words: &[u32], lent: Vec<u8>, tally: &mut Tally) -> u32 {
    let want = card::write(p, n, kind, words, &lent);
    let mut bytes = lent;
    let number = library::number(Card { size: Size { p, n }, kind }.write(words, &mut bytes));
    tally.compare("card_write", want.0, &(p, n, kind, words), &(number, bytes), &want);
    number
}

fn bytes(random: &mut Random, count: usize) -> Vec<u8> {
    (0..count).map(|_| random.next() as u8).collect()
}

pub fn run(rounds: u64, tally: &mut Tally) {
    let random = &mut Random::new(0xd1b5_4a32_d192_ed03);
    wide::run(random, tally);
    for round in 0..rounds {
        let (p, n, kind) = (random.prime(), 1 + random.below(16) as u32, 1 + random.below(2) as u32);
        let words = random.words(p, 2 * kind * n, false);
        let valid = card::card(p, n, kind, &words);
        let words_lent = if random.once_in(16) { 60 + random.below(8) as usize } else { 64 };
        compare_read(&valid, vec![7; words_lent], tally);

        let mut damaged = valid.clone();
        match random.below(5) {
            0 => damaged.push(random.next() as u8),
            1 => {
                damaged.pop();
            }
            2 => {
                damaged = bytes(random, valid.len());
                if random.once_in(2) {
                    damaged[..2].fill(0);
                }
            }
            3 => damaged.truncate(random.below(7) as usize),
            _ => {
                let place = random.below(damaged.len() as u64) as usize;
                damaged[place] ^= 1 << random.below(8);
            }
        }
        compare_read(&damaged, vec![9; 64], tally);
        if round % 500 == 0 {
            for bit in 0..8 * valid.len() {
                let mut changed = valid.clone();
                changed[bit / 8] ^= 1 << (bit % 8);
                compare_read(&changed, vec![3; 64], tally);
            }
        }

        compare_write(p, n, kind, &words, bytes(random, valid.len()), tally);
        let (p, n) = (if random.once_in(3) { random.modulus_number() } else { p }, if random.once_in(3) { random.degree() } else { n });
        let kind = if random.once_in(4) { [0, 3, 15, 16, 17, 18, u32::MAX][random.below(7) as usize] } else { kind };
        let words = if random.once_in(3) { random.words(p, 2 * n.min(16), true) } else { words };
        let length = (valid.len() + 1 - random.below(3) as usize).max(1);
        compare_write(p, n, kind, &words, bytes(random, length), tally);
    }
}
