//! Found maps compose: the map found from A to B and then that from B to C is that from A to C, forward and back, as polynomials and on tables that
//! sessions convert; and exchanged models have the exchanged pair. For each size, A, B and C each run through three models, so that equal ones occur.

use super::pairs::compare_find;
use super::sessions::Calls;
use super::sizes::{divisors, POWERS};
use super::Tally;
use crate::document::model::{Model, Residue};
use crate::random::Random;

/// Three moduli, and the pairs and the sessions that the library finds from each to each.
struct Found {
    p: u32,
    n: u32,
    moduli: [Vec<u32>; 3],
    pairs: [[(Residue, Residue); 3]; 3],
    sessions: [[Calls; 3]; 3],
}

fn pair(p: u32, n: u32, t1: &[u32], t2: &[u32], tally: &mut Tally) -> (Residue, Residue) {
    let (_, s, r) = compare_find(p, n, t1, t2, [0; 2].map(|_| vec![0; n as usize]), tally);
    (s, r)
}

fn session(p: u32, n: u32, t1: &[u32], t2: &[u32], tally: &mut Tally) -> Calls {
    let mut calls = Calls::new(tally);
    calls.load(p, n, t1, t2, tally);
    calls.find(tally);
    calls
}

impl Found {
    fn new(p: u32, n: u32, moduli: [Vec<u32>; 3], tally: &mut Tally) -> Self {
        let pairs = [0, 1, 2].map(|a| [0, 1, 2].map(|b| pair(p, n, &moduli[a], &moduli[b], tally)));
        let sessions = [0, 1, 2].map(|a| [0, 1, 2].map(|b| session(p, n, &moduli[a], &moduli[b], tally)));
        Found { p, n, moduli, pairs, sessions }
    }

    /// S_AB = R_BA and R_AB = S_BA.
    fn compare_exchanged(&self, [a, b]: [usize; 2], tally: &mut Tally) {
        let (s, r) = self.pairs[b][a].clone();
        tally.compare("exchanged", 0, &(self.p, &self.moduli[a], &self.moduli[b]), &self.pairs[a][b], &(r, s));
    }

    /// S_AC = S_AB(S_BC) modulo C, and R_AC = R_BC(R_AB) modulo A.
    fn compare_pairs(&self, [a, b, c]: [usize; 3], tally: &mut Tally) {
        let (s1, r1) = &self.pairs[a][b];
        let (s2, r2) = &self.pairs[b][c];
        let composed = (Model::new(self.p, &self.moduli[c]).substitute(s2, s1), Model::new(self.p, &self.moduli[a]).substitute(r1, r2));
        let input = (self.p, [a, b, c].map(|k| &self.moduli[k]));
        tally.compare("triangle", 0, &input, &self.pairs[a][c], &composed);
    }

    /// A table goes by way of B and directly, from A to C and from C to A.
    fn compare_tables(&mut self, random: &mut Random, [a, b, c]: [usize; 3], tally: &mut Tally) {
        let table = random.uniform(self.p, 3 * self.n);
        let sessions = &mut self.sessions;
        let mut convert = |forward: bool, [from, to]: [usize; 2], table: &[u32]| {
            sessions[from][to].convert(forward, table, vec![0; table.len()], tally).1
        };
        let (halfway, halfway_back) = (convert(true, [a, b], &table), convert(false, [b, c], &table));
        let composed = (convert(true, [b, c], &halfway), convert(false, [a, b], &halfway_back));
        let direct = (convert(true, [a, c], &table), convert(false, [a, c], &table));
        let input = (self.p, [a, b, c].map(|k| &self.moduli[k]), &table);
        tally.compare("triangle_tables", 0, &input, &direct, &composed);
    }
}

fn compare(random: &mut Random, p: u32, n: u32, moduli: [Vec<u32>; 3], tally: &mut Tally) {
    let mut found = Found::new(p, n, moduli, tally);
    for code in 0..27 {
        let [a, b, c] = [code / 9, code / 3 % 3, code % 3];
        found.compare_pairs([a, b, c], tally);
        found.compare_tables(random, [a, b, c], tally);
        if c == 0 {
            found.compare_exchanged([a, b], tally);
        }
    }
}

pub fn run(rounds: u64, tally: &mut Tally) {
    let random = &mut Random::new(0xc2b2_ae3d_27d4_eb4f);
    compare(random, 2, 4, [vec![1, 1, 0, 0], vec![1, 0, 0, 1], vec![1, 1, 1, 1]], tally); // all that there are
    for _ in 0..rounds {
        for (p, n) in divisors(random).into_iter().chain(POWERS) {
            let moduli = [0; 3].map(|_| random.modulus(p, n, false));
            compare(random, p, n, moduli, tally);
        }
    }
}
