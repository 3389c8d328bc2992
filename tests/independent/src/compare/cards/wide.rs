//! Wide cards: every n and both kinds for several p, and each refusal alone and with those after it in the order applying as well.

use super::{bytes, compare_read, compare_write, Tally};
use crate::document::card::{card, card_in_form};
use crate::random::Random;

/// Primes for which the writer takes the wide form: the smallest, the largest, and one of each width between.
const PRIMES: [u32; 7] = [65_537, 65_539, 131_071, 262_139, 524_287, 982_801, 1_048_573];

/// Numbers that 1 is for, of 20 bits.
const COMPOSITE: [u32; 9] = [0, 1, 4, 251 * 251, 65_535, 65_536, 1_019 * 1_021, 1_021 * 1_021, 1_048_575];

fn read(card: &[u8], tally: &mut Tally) -> u32 {
    compare_read(card, vec![7; 64], tally)
}

/// The card with a number of some bits in place of what stood there.
fn with_field(card: &[u8], from: usize, count: usize, number: u32) -> Vec<u8> {
    let mut card = card.to_vec();
    for k in 0..count {
        let (place, mask) = ((from + k) / 8, 0x80 >> ((from + k) % 8));
        card[place] &= !mask;
        if number >> (count - 1 - k) & 1 == 1 {
            card[place] |= mask;
        }
    }
    card
}

fn with_prime(card: &[u8], p: u32) -> Vec<u8> {
    with_field(card, 16, 20, p)
}

fn with_kind(card: &[u8], kind: u32) -> Vec<u8> {
    with_field(card, 40, 4, kind)
}

/// The four zero bits of the header.
fn with_zeros(card: &[u8], bits: u32) -> Vec<u8> {
    with_field(card, 44, 4, bits)
}

/// The valid card, and every change that is refused for one reason.
fn one_reason(p: u32, card: &[u8], bits: usize, tally: &mut Tally) {
    assert_eq!(read(card, tally), 0);
    for length in 0..card.len() {
        assert_eq!(read(&card[..length], tally), 11);
    }
    assert_eq!(read(&[card, &[0]].concat(), tally), 11);
    for composite in COMPOSITE {
        assert_eq!(read(&with_prime(card, composite), tally), 1);
    }
    for small in [2, 3, 251, 65_519, 65_521] {
        assert_eq!(read(&with_prime(card, small), tally), 28);
    }
    for kind in [0].into_iter().chain(3..16) {
        assert_eq!(read(&with_kind(card, kind), tally), 12);
    }
    for zeros in 1..16 {
        assert_eq!(read(&with_zeros(card, zeros), tally), 13);
    }
    for fill in bits..8 * card.len() {
        assert_eq!(read(&with_field(card, fill, 1, 1), tally), 13);
    }
    let w = 32 - (p - 1).leading_zeros() as usize;
    for from in [48, bits - w] {
        for word in [p, (1 << w) - 1] {
            assert_eq!(read(&with_field(card, from, w, word), tally), 4);
        }
    }
}

/// Each number with those after it in the order applying as well.
fn in_order(p: u32, card: &[u8], tally: &mut Tally) {
    let w = 32 - (p - 1).leading_zeros() as usize;
    let mut faulty = with_field(card, 48, w, p); // 4
    for (zeros, known) in [(0, 4), (1, 13)] {
        faulty = with_zeros(&faulty, zeros);
        assert_eq!(read(&faulty, tally), known);
    }
    faulty.push(0xFF);
    assert_eq!(read(&faulty, tally), 11);
    faulty = with_kind(&faulty, 3);
    assert_eq!(read(&faulty, tally), 12);
    faulty = with_prime(&faulty, 65_521);
    assert_eq!(read(&faulty, tally), 28);
    faulty = with_prime(&faulty, 65_535);
    assert_eq!(read(&faulty, tally), 1);
    for length in 0..6 {
        assert_eq!(read(&faulty[..length], tally), 11);
    }
    assert_eq!(read(&faulty[..6], tally), 1);
    assert_eq!(compare_read(&faulty[..5], vec![7; 63], tally), 3);
    assert_eq!(compare_read(&faulty, vec![7; 65], tally), 3);
}

/// Exactly its own length is right for what the writer writes, not that of a card that is not wide.
fn written(random: &mut Random, p: u32, n: u32, kind: u32, words: &[u32], tally: &mut Tally) {
    let length = card(p, n, kind, words).len();
    assert_eq!(compare_write(p, n, kind, words, bytes(random, length), tally), 0);
    for wrong in [0, length - 3, length - 1, length + 1] {
        assert_eq!(compare_write(p, n, kind, words, bytes(random, wrong), tally), 3);
    }
    for word in [p, p + 1, 1 << 20, 1 << 31, u32::MAX] {
        let mut large = words.to_vec();
        *large.last_mut().unwrap() = word;
        assert_eq!(compare_write(p, n, kind, &large, bytes(random, length), tally), 4);
    }
}

/// Whole cards of small p in both forms.
fn both_forms(random: &mut Random, tally: &mut Tally) {
    for p in [2, 3, 251, 257, 65_519, 65_521] {
        for n in 1..=16 {
            for kind in 1..=2 {
                let words = random.uniform(p, 2 * kind * n);
                assert_eq!(read(&card_in_form(true, p, n, kind, &words), tally), 28);
                assert_eq!(read(&card_in_form(false, p, n, kind, &words), tally), 0);
            }
        }
    }
}

/// Inputs of up to six bytes that begin with two zero bytes, and two that do not.
fn short(tally: &mut Tally) {
    for third in 0..=255 {
        let card = [0, 0, third, third, third];
        for length in 0..=5 {
            assert_eq!(read(&card[..length], tally), 11);
        }
    }
    assert_eq!([read(&[0, 1, 0x01], tally), read(&[1, 0, 0x01], tally)], [1, 1]);
    assert_eq!([read(&[0, 0, 0, 0, 0, 0], tally), read(&[0, 0, 0, 0, 0x20, 0x10], tally)], [1, 28]);
}

pub fn run(random: &mut Random, tally: &mut Tally) {
    short(tally);
    both_forms(random, tally);
    for p in PRIMES {
        for n in 1..=16 {
            for kind in 1..=2 {
                let words = random.words(p, 2 * kind * n, false);
                let valid = card(p, n, kind, &words);
                let width = format!("{:b}", p - 1).len();
                one_reason(p, &valid, 48 + words.len() * width, tally);
                in_order(p, &valid, tally);
                written(random, p, n, kind, &words, tally);
            }
        }
    }
    assert_eq!(card(1_048_573, 16, 2, &[0; 64]).len(), 166);
}
