//! Inputs: a fixed sequence of pseudo-random numbers (xorshift), and lists of words and moduli drawn from it, extremes and damaged ones included.

use crate::document::{divisor::has_divisor, is_prime};

pub struct Random(u64);

impl Random {
    pub fn new(seed: u64) -> Self {
        Random(seed)
    }

    pub fn next(&mut self) -> u64 {
        self.0 ^= self.0 << 13;
        self.0 ^= self.0 >> 7;
        self.0 ^= self.0 << 17;
        self.0
    }

    pub fn below(&mut self, limit: u64) -> u64 {
        (self.next() >> 11) % limit
    }

    /// Whether an event of one chance in so many occurs.
    pub fn once_in(&mut self, chances: u64) -> bool {
        self.below(chances) == 0
    }

    fn one_of(&mut self, choices: &[u32]) -> u32 {
        choices[self.below(choices.len() as u64) as usize]
    }

    /// A prime, small, large or between; one in five is above 65,535.
    pub fn prime(&mut self) -> u32 {
        if self.once_in(2) {
            let small = [2, 3, 5, 7, 11, 13, 17, 251, 257, 1009, 32_749, 65_519, 65_521];
            return self.one_of(&[&small[..], &[65_537, 65_539, 982_801, 1_048_433, 1_048_573]].concat());
        }
        let limit = if self.once_in(8) { 1 << 20 } else { 1 << 16 };
        loop {
            let p = self.below(limit) as u32;
            if is_prime(p) {
                return p;
            }
        }
    }

    /// Mostly a prime; sometimes a number that refusal 1 is for.
    pub fn modulus_number(&mut self) -> u32 {
        if self.once_in(12) {
            let (squares, products) = ([63_001, 1_042_441], [253 * 257, 1_009 * 1_021, 1_019 * 1_021]);
            let around = [0, 1, 4, 6, 65_535, 65_536, 1_048_575, 1_048_576, 1_048_577, 1_048_583, 2_147_483_647, u32::MAX];
            self.one_of(&[&squares[..], &products, &around].concat())
        } else {
            self.prime()
        }
    }

    /// Mostly 1 to 16; sometimes a number that refusal 2 is for.
    pub fn degree(&mut self) -> u32 {
        if self.once_in(16) {
            self.one_of(&[0, 17, 18, 32, 65_536, u32::MAX])
        } else {
            1 + self.below(16) as u32
        }
    }

    /// A word that 4 is for, the lowest bits of some being those of smaller words.
    pub fn large_word(&mut self, p: u32) -> u32 {
        let word = self.one_of(&[p, p.saturating_add(1), 1 << 16, 1 << 20, 1 << 31, u32::MAX]);
        word.max(p)
    }

    /// A list of n words, each below p with equal chances.
    pub fn uniform(&mut self, p: u32, n: u32) -> Vec<u32> {
        (0..n).map(|_| self.below(p.into()) as u32).collect()
    }

    /// A modulus that has divisors or has none, as asked; a modulus of degree 1 has none.
    pub fn modulus(&mut self, p: u32, n: u32, divisors: bool) -> Vec<u32> {
        let mut t = self.words(p, n, false);
        if self.once_in(5) {
            t[1..].fill(0); // X^n + t0
        }
        while has_divisor(p, &t) != divisors {
            t = self.uniform(p, n);
        }
        t
    }

    /// A list of n words below p; where `damaged` says so, of another length or with a word of p or more once in a while.
    pub fn words(&mut self, p: u32, n: u32, damaged: bool) -> Vec<u32> {
        let mut length = n.min(64) as usize;
        if damaged && self.once_in(12) {
            length = self.one_of(&[0, n.min(64).saturating_sub(1), n.min(64) + 1, 16, 17]) as usize;
        }
        let top = p.max(1) - 1;
        let style = self.below(6);
        let mut list: Vec<u32> = (0..length)
            .map(|_| match style {
                0 => 0,
                1 => top,
                2 => self.below(2) as u32 * top,
                _ => self.below(u64::from(top) + 1) as u32,
            })
            .collect();
        if damaged && length > 0 && self.once_in(12) {
            let place = self.below(length as u64) as usize;
            list[place] = self.large_word(p);
        }
        list
    }
}
