//! Nothing outside the catalogue of pairs, for every two models of each size with up to 27 residues: the checker is asked for every S and R. The forward
//! maps of the pairs that it accepts, by which sessions convert all residues, are the isomorphisms that a search finds, each once; and from each
//! of these pairs the list of all maps is written as the list of their S.

use super::Tally;
use crate::document::divisor::has_divisor;
use crate::document::is_prime;
use crate::document::isomorphisms::by_search;
use crate::document::model::Residue;
use crate::document::polynomial::all_lists;
use yokebean::{check, maps, Session, Size};

const RESIDUES: u32 = 27;

/// Two models, and the pairs that the checker accepts, in the order of `all_lists`.
struct Accepted {
    size: Size,
    t1: Vec<u32>,
    t2: Vec<u32>,
    pairs: Vec<(Residue, Residue)>,
}

impl Accepted {
    fn new(size: Size, t1: Vec<u32>, t2: Vec<u32>) -> Self {
        let all = || all_lists(size.p, size.n);
        let every = all().flat_map(|s| all().map(move |r| (s.clone(), r)));
        let pairs = every.filter(|(s, r)| check(size, &t1, &t2, s, r).is_ok()).collect();
        Accepted { size, t1, t2, pairs }
    }

    /// The images of all residues by the forward map of each pair.
    fn forward_maps(&self) -> Vec<Vec<u32>> {
        let residues: Vec<u32> = all_lists(self.size.p, self.size.n).flatten().collect();
        let image = |(s, r): &(Residue, Residue)| {
            let mut out = vec![0; residues.len()];
            let session = Session::new().load(self.size, &self.t1, &self.t2).and_then(|session| session.propose(s, r));
            session.and_then(|session| session.forward(&residues, &mut out)).unwrap();
            out
        };
        self.pairs.iter().map(image).collect()
    }

    fn compare(&self, tally: &mut Tally) {
        let Accepted { size, t1, t2, pairs } = self;
        let [mut accepted, mut found] = [self.forward_maps(), by_search(size.p, t1, t2)];
        accepted.sort();
        found.sort();
        tally.compare("isomorphisms", 0, &(size, t1, t2), &accepted, &found);
        let all: Vec<u32> = pairs.iter().flat_map(|(s, _)| s.clone()).collect();
        for (s, r) in pairs {
            let mut out = vec![0; all.len()];
            assert_eq!(maps(*size, t1, t2, s, r, &mut out), Ok(()), "{size:?}, T1 = {t1:?}, T2 = {t2:?}");
            tally.compare("isomorphisms_listed", 0, &(size, t1, t2, s, r), &out, &all);
        }
    }
}

pub fn run(_: u64, tally: &mut Tally) {
    let degrees = |p: u32| (1..).take_while(move |&n| p.pow(n) <= RESIDUES).map(move |n| Size { p, n });
    for size in (2..=RESIDUES).filter(|&p| is_prime(p)).flat_map(degrees) {
        let moduli: Vec<Vec<u32>> = all_lists(size.p, size.n).filter(|t| !has_divisor(size.p, t)).collect();
        for (t1, t2) in moduli.iter().flat_map(|t1| moduli.iter().map(move |t2| (t1.clone(), t2.clone()))) {
            Accepted::new(size, t1, t2).compare(tally);
        }
    }
}
