//! What a session holds, with the models and the pair in vectors: load, propose and find take it and give what is held next, and a pair converts.

use super::{check, finder, finder_number, first, list_number, model::Model, model_number};

#[derive(Clone, Debug, PartialEq)]
pub enum Held {
    Empty,
    Loaded { p: u32, n: u32, t1: Vec<u32>, t2: Vec<u32> },
    Paired(Pair),
}

#[derive(Clone, Debug, PartialEq)]
pub struct Pair {
    pub p: u32,
    pub n: u32,
    pub t1: Vec<u32>,
    pub t2: Vec<u32>,
    pub s: Vec<u32>,
    pub r: Vec<u32>,
}

/// A number becomes a refusal, unless it is 0.
pub fn accepted(number: u32) -> Result<(), u32> {
    if number == 0 {
        Ok(())
    } else {
        Err(number)
    }
}

impl Held {
    pub fn load(&self, p: u32, n: u32, t1: &[u32], t2: &[u32]) -> Result<Held, u32> {
        if *self != Held::Empty {
            return Err(23);
        }
        accepted(first(&[&|| model_number(p, n), &|| list_number(p, n, &[t1, t2], &[])]))?;
        Ok(Held::Loaded { p, n, t1: t1.to_vec(), t2: t2.to_vec() })
    }

    /// 21 or 24, unless it is loaded and the call may give it a pair.
    fn loaded(&self) -> Result<(u32, u32, Vec<u32>, Vec<u32>), u32> {
        match self.clone() {
            Held::Empty => Err(21),
            Held::Paired(_) => Err(24),
            Held::Loaded { p, n, t1, t2 } => Ok((p, n, t1, t2)),
        }
    }

    pub fn propose(&self, s: &[u32], r: &[u32]) -> Result<Held, u32> {
        let (p, n, t1, t2) = self.loaded()?;
        accepted(check(p, n, &t1, &t2, s, r))?;
        Ok(Held::Paired(Pair { p, n, t1, t2, s: s.to_vec(), r: r.to_vec() }))
    }

    pub fn find(&self) -> Result<Held, u32> {
        let (p, n, t1, t2) = self.loaded()?;
        accepted(finder_number(p, n, &t1, &t2))?;
        let found = finder::pair(p, &t1, &t2);
        Ok(Held::Paired(Pair { p, n, t1, t2, s: found.s, r: found.r }))
    }

    /// 21 or 22, unless there is a pair.
    pub fn pair(&self) -> Result<&Pair, u32> {
        match self {
            Held::Empty => Err(21),
            Held::Loaded { .. } => Err(22),
            Held::Paired(pair) => Ok(pair),
        }
    }
}

impl Pair {
    pub fn residues(&self, table: &[u32]) -> usize {
        table.len() / self.n as usize
    }

    /// Refusal 9, 10 or 4, or 0: of a table to convert, where there is room for so many residues.
    pub fn table_number(&self, table: &[u32], lent: usize, room: u32) -> u32 {
        if table.len() > 16_384 || table.len() % self.n as usize != 0 || self.residues(table) > room as usize {
            9
        } else if lent != table.len() {
            10
        } else if table.iter().any(|&word| word >= self.p) {
            4
        } else {
            0
        }
    }

    /// "The k-th group of n words in the output is the image of the k-th group of the input."
    pub fn images(&self, forward: bool, table: &[u32]) -> Vec<u32> {
        let (modulus, image) = if forward { (&self.t2, &self.s) } else { (&self.t1, &self.r) };
        let model = Model::new(self.p, modulus);
        table.chunks(self.n as usize).flat_map(|group| model.substitute(image, group)).collect()
    }
}
