//! Polynomials modulo p as vectors of coefficients, constant first, without zeros at the end.

pub type Polynomial = Vec<u64>;

fn trimmed(mut f: Polynomial) -> Polynomial {
    while f.last() == Some(&0) {
        f.pop();
    }
    f
}

/// a^k modulo p, for a word a.
pub fn power(p: u64, a: u64, k: u64) -> u64 {
    (0..64 - k.leading_zeros()).rev().fold(1 % p, |value, bit| {
        let square = value * value % p;
        if k >> bit & 1 == 1 {
            square * a % p
        } else {
            square
        }
    })
}

/// The remainder of f on division by g, which is not zero.
pub fn remainder(p: u64, f: &[u64], g: &[u64]) -> Polynomial {
    let mut f = trimmed(f.to_vec());
    let inverse = power(p, *g.last().unwrap(), p - 2);
    while f.len() >= g.len() {
        let (shift, factor) = (f.len() - g.len(), f.last().unwrap() * inverse % p);
        for (i, &c) in g.iter().enumerate() {
            f[shift + i] = (f[shift + i] + (p - factor) * c) % p;
        }
        f = trimmed(f);
    }
    f
}

/// The greatest common divisor of f and g, up to a constant factor.
pub fn common_divisor(p: u64, f: &[u64], g: &[u64]) -> Polynomial {
    let (mut f, mut g) = (trimmed(f.to_vec()), trimmed(g.to_vec()));
    while !g.is_empty() {
        (f, g) = (g.clone(), remainder(p, &f, &g));
    }
    f
}

pub fn product(p: u64, f: &[u64], g: &[u64]) -> Polynomial {
    let mut h = vec![0; f.len() + g.len()];
    for (i, &a) in f.iter().enumerate() {
        for (j, &b) in g.iter().enumerate() {
            h[i + j] = (h[i + j] + a * b) % p;
        }
    }
    trimmed(h)
}

/// The monic polynomial with the lower words t.
pub fn monic(t: &[u32]) -> Polynomial {
    t.iter().map(|&c| c.into()).chain([1]).collect()
}

/// The lower words of a monic polynomial.
pub fn lower_words(f: &[u64]) -> Vec<u32> {
    f[..f.len() - 1].iter().map(|&c| c as u32).collect()
}

/// All lists of n words below p.
pub fn all_lists(p: u32, n: u32) -> impl Iterator<Item = Vec<u32>> {
    (0..p.pow(n)).map(move |code| (0..n).map(|k| code / p.pow(k) % p).collect())
}
