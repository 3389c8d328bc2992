//! Residues modulo a monic polynomial: products are multiplied out and divided, highest coefficient first; powers go through the
//! exponent's bits from the top; a substitution is a sum of powers.

/// A model: p and the lower words of a monic modulus.
pub struct Model<'a> {
    pub p: u64,
    pub modulus: &'a [u32],
}

pub type Residue = Vec<u32>;

impl<'a> Model<'a> {
    pub fn new(p: u32, modulus: &'a [u32]) -> Self {
        Model { p: p.into(), modulus }
    }

    /// The remainder of a polynomial of any degree. Each coefficient is reduced modulo p once, when it is read: up to 16 products of words are added.
    fn remainder(&self, mut f: Vec<u64>) -> Residue {
        let n = self.modulus.len();
        for k in (n..f.len()).rev() {
            let factor = self.p - f[k] % self.p;
            for (c, &t) in f[k - n..k].iter_mut().zip(self.modulus) {
                *c += factor * u64::from(t);
            }
        }
        f.resize(n, 0);
        f.iter().map(|c| (c % self.p) as u32).collect()
    }

    pub fn product(&self, u: &[u32], v: &[u32]) -> Residue {
        let mut f = vec![0; u.len() + v.len()];
        for (i, &a) in u.iter().enumerate() {
            for (j, &b) in v.iter().enumerate() {
                f[i + j] += u64::from(a) * u64::from(b);
            }
        }
        self.remainder(f)
    }

    pub fn constant(&self, c: u64) -> Residue {
        self.remainder(vec![c])
    }

    /// The residue of X; for n = 1 a constant.
    pub fn x(&self) -> Residue {
        self.remainder(vec![0, 1])
    }

    pub fn sum(&self, u: &[u32], v: &[u32]) -> Residue {
        u.iter().zip(v).map(|(&a, &b)| ((u64::from(a) + u64::from(b)) % self.p) as u32).collect()
    }

    pub fn scaled(&self, c: u64, u: &[u32]) -> Residue {
        u.iter().map(|&a| (c * u64::from(a) % self.p) as u32).collect()
    }

    pub fn power(&self, u: &[u32], k: u64) -> Residue {
        (0..64 - k.leading_zeros()).rev().fold(self.constant(1), |value, bit| {
            let square = self.product(&value, &value);
            if k >> bit & 1 == 1 {
                self.product(&square, u)
            } else {
                square
            }
        })
    }

    /// u, u^p, …, n residues.
    pub fn conjugates(&self, u: Residue) -> Vec<Residue> {
        let mut list = vec![u];
        while list.len() < self.modulus.len() {
            list.push(self.power(list.last().unwrap(), self.p));
        }
        list
    }

    /// The word of a residue that is a constant.
    pub fn coerced(&self, u: &[u32]) -> u64 {
        assert!(u[1..].iter().all(|&word| word == 0));
        u64::from(u[0])
    }

    /// f(S) for a polynomial f of any degree: the sum of its terms.
    pub fn substitute(&self, s: &[u32], f: &[u32]) -> Residue {
        let mut power = self.constant(1);
        let mut value = self.constant(0);
        for &c in f {
            value = self.sum(&value, &self.scaled(c.into(), &power));
            power = self.product(&power, s);
        }
        value
    }

    /// M(S) for the monic polynomial M with the lower words m.
    pub fn modulus_at(&self, m: &[u32], s: &[u32]) -> Residue {
        let monic: Vec<u32> = m.iter().copied().chain([1]).collect();
        self.substitute(s, &monic)
    }
}
