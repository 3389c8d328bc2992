//! The program `fieldcard`, run on cards of both kinds, damaged ones, pairs over moduli with divisors, jobs in degrees that are powers of p, wide cards,
//! refusals of each number that it can give, the longest cards, no input, a closed input, input in parts and input that is too long.

use super::known::{draw_all, Known};
use super::sizes::{self, POWERS};
use super::Tally;
use crate::document::card;
use crate::random::Random;
use std::io::Write;
use std::process::{Command, Stdio};
use std::thread::sleep;
use std::time::Duration;

const PROGRAM: &str = concat!(env!("CARGO_MANIFEST_DIR"), "/../../crates/fieldcard/out/fieldcard");

/// What the program prints when its input comes in these parts, one after the other, so that reads fall short.
fn printed(parts: &[&[u8]]) -> String {
    let mut child = Command::new(PROGRAM).stdin(Stdio::piped()).stdout(Stdio::piped()).spawn().expect("the program fieldcard");
    let mut input = child.stdin.take().unwrap();
    for (k, part) in parts.iter().enumerate() {
        if k > 0 {
            sleep(Duration::from_millis(30));
        }
        // a program that has read enough may close its input first
        let _ = input.write_all(part);
    }
    drop(input);
    String::from_utf8(child.wait_with_output().unwrap().stdout).unwrap()
}

/// What it prints when its standard input is closed.
fn printed_without_input() -> String {
    let shell = Command::new("sh").args(["-c", "exec \"$0\" <&-", PROGRAM]).output().expect("a shell");
    String::from_utf8(shell.stdout).unwrap()
}

/// The number on which both sides agree.
fn compare(input: &[u8], tally: &mut Tally) -> u32 {
    let want = card::fieldcard(input);
    let number = want.strip_prefix("REFUSED ").map_or(0, |word| word.trim().parse().unwrap());
    let call = if want == "RING\n" { "fieldcard_ring" } else { "fieldcard" };
    tally.compare(call, number, &input, &printed(&[input]), &want);
    number
}

fn compare_known(known: &Known, tally: &mut Tally) {
    let case = &known.case;
    let bytes = card::card(case.p, case.n, 2, &[&case.t1[..], &case.t2, &case.s, &case.r].concat());
    assert_eq!(card::fieldcard(&bytes), format!("{}\n", known.line));
    compare(&bytes, tally);
}

/// The pair card in an answer to a job, if it has one.
fn pair_card(answer: &str) -> Option<Vec<u8>> {
    let digits = answer.trim().strip_prefix("PAIR ")?;
    Some((0..digits.len() / 2).map(|k| u8::from_str_radix(&digits[2 * k..2 * k + 2], 16).unwrap()).collect())
}

/// Jobs and the pair found in a degree that is a power of p, and jobs in degrees that the finder does not take.
fn compare_powers(random: &mut Random, tally: &mut Tally) {
    for (p, n) in POWERS {
        let [field, other] = [0; 2].map(|_| random.modulus(p, n, false));
        let ring = random.modulus(p, n, true);
        let job = |t1: &[u32], t2: &[u32]| card::card(p, n, 1, &[t1, t2].concat());
        let jobs = [job(&field, &other), job(&ring, &field), job(&field, &ring)];
        assert_eq!(jobs.clone().map(|job| compare(&job, tally)), [0, 6, 7]);
        assert_eq!(compare(&pair_card(&card::fieldcard(&jobs[0])).unwrap(), tally), 0);
    }
    for (p, n) in [(2, 3), (2, 6), (2, 12), (3, 6), (3, 12), (5, 10), (7, 14), (11, 4)] {
        let t = random.modulus(p, n, false);
        assert_eq!(compare(&card::card(p, n, 1, &[&t[..], &t].concat()), tally), 5);
    }
}

/// Wide jobs and the pairs found for them: for the largest p, for the smallest, and with the longest answer, for the largest p for which 16 divides
/// p − 1. Each is refused when it is cut short, has a small p or a fill bit in its header.
fn compare_wide(random: &mut Random, tally: &mut Tally) {
    for (p, n, longest) in [(1_048_573, 14, 298), (65_537, 16, 290), (1_048_433, 16, 338)] {
        let [t1, t2] = [0; 2].map(|_| random.modulus(p, n, false));
        let job = card::card(p, n, 1, &[t1, t2].concat());
        let answer = card::fieldcard(&job);
        assert_eq!(answer.len(), longest);
        for card in [job, pair_card(&answer).unwrap()] {
            let (mut small, mut fill) = (card.clone(), card.clone());
            small[2..5].copy_from_slice(&[0x0F, 0xFF, 0x10 | card[4] & 0x0F]); // 65,521
            fill[5] |= 1;
            let cards = [&card, &card[..5], &small, &fill];
            assert_eq!(cards.map(|card| compare(card, tally)), [0, 11, 28, 13]);
        }
    }
}

fn random_card(random: &mut Random) -> Vec<u8> {
    let p = random.prime();
    let n = if random.once_in(5) { 1 + random.below(16) as u32 } else { sizes::degree(random, p) };
    let job = card::card(p, n, 1, &random.words(p, 2 * n, false));
    let mut bytes = match pair_card(&card::fieldcard(&job)) {
        Some(pair) if random.once_in(2) => pair,
        _ => job,
    };
    match random.below(6) {
        0 => bytes.push(0),
        1 => {
            bytes.pop();
        }
        2 => {
            let place = random.below(bytes.len() as u64) as usize;
            bytes[place] ^= 1 << random.below(8);
        }
        _ => {}
    }
    bytes
}

pub fn run(rounds: u64, tally: &mut Tally) {
    let random = &mut Random::new(0xbf58_476d_1ce4_e5b9);
    compare(&[], tally);
    tally.compare("fieldcard", 11, &"closed input", &printed_without_input(), &card::fieldcard(&[]));
    let parts: [&[u8]; 3] = [&[0x00], &[0x03, 0x11], &[0x49]];
    tally.compare("fieldcard", 0, &"short reads", &printed(&parts), &card::fieldcard(&parts.concat()));
    compare(&[0x00, 0x03, 0x11, 0x49], tally);
    compare(&[0x00, 0x03, 0x12, 0x49, 0x66], tally);
    compare(&card::card(7, 3, 1, &[5, 0, 0, 4, 0, 0]), tally);
    compare(&card::card(7, 3, 2, &[5, 0, 0, 4, 0, 0, 0, 0, 1, 0, 0, 5]), tally); // found before request S-6
    compare(&[0x00, 0x04, 0x11, 0x49], tally); // 1
    compare(&[0x00, 0x03, 0x13, 0x49], tally); // 12
    compare(&[0x00, 0x03, 0x11, 0x4B], tally); // 4
    compare(&[0x00, 0x07, 0x21, 0xA0, 0x40, 0x01], tally); // 13
    for p in [65_521, 1_048_573] {
        compare(&card::card(p, 16, 2, &[1; 64]), tally);
        for length in [130, 131, 132, 133, 165, 166, 167, 168, 5000, 1 << 20] {
            let mut long = card::card(p, 16, 2, &[0; 64]);
            long.resize(length, 0);
            compare(&long, tally);
        }
    }
    compare_wide(random, tally);
    for known in draw_all(random) {
        compare_known(&known, tally);
    }
    compare_powers(random, tally);
    for _ in 0..rounds {
        let bytes = random_card(random);
        compare(&bytes, tally);
    }
}
