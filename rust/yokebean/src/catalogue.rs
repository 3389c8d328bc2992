//! The catalogue of a size: all its models, to pick a modulus from. Each call takes 260 KiB of stack.

use crate::{answer, raw, Refusal, Size};
use std::iter::FusedIterator;
use std::ops::Range;

/// How many models a size has: the monic polynomials of degree n modulo p that are irreducible, that is, have no monic divisor of degree 1 to n − 1.
/// p^n may be up to 65,536. Refusals 1, 2, 29.
///
/// ```
/// use yokebean::{count_models, Refusal, Size};
///
/// assert_eq!(count_models(Size { p: 2, n: 4 }), Ok(3));
/// assert_eq!(count_models(Size { p: 2, n: 16 }), Ok(4_080)); // p^n is 65,536
/// assert_eq!(count_models(Size { p: 65_521, n: 1 }), Ok(65_521)); // X, X + 1, …
/// assert_eq!(count_models(Size { p: 65_537, n: 1 }), Err(Refusal::CatalogueTooLarge));
/// ```
pub fn count_models(size: Size) -> Result<usize, Refusal> {
    let found = unsafe { raw::yokebean_catalogue_count(size.p, size.n) };
    answer(found.number, found.count as usize)
}

/// Writes the models of a size into `out`, each exactly once and as the n words of its modulus, in ascending order, where coefficients are compared
/// from the highest power down. `out` has n times as many words as [`count_models`] counts; [`models`] makes such a list and goes through it. Refusals
/// 1, 2, 29, 3.
///
/// ```
/// use yokebean::{list_models, Refusal, Size};
///
/// let (size, mut out) = (Size { p: 2, n: 4 }, [9; 12]);
/// assert_eq!(list_models(size, &mut out[1..]), Err(Refusal::Length));
/// assert_eq!(list_models(Size { p: 3, n: 11 }, &mut out), Err(Refusal::CatalogueTooLarge));
/// assert_eq!(out, [9; 12]);
/// list_models(size, &mut out)?;
/// assert_eq!(out, [1, 1, 0, 0, 1, 0, 0, 1, 1, 1, 1, 1]); // X⁴ + X + 1, X⁴ + X³ + 1 and X⁴ + X³ + X² + X + 1
/// # Ok::<(), Refusal>(())
/// ```
pub fn list_models(size: Size, out: &mut [u32]) -> Result<(), Refusal> {
    // the pointer comes with the length of its own slice
    let number = unsafe { raw::yokebean_catalogue_list(size.p, size.n, out.as_mut_ptr(), out.len()) };
    answer(number, ())
}

/// All models of a size, in the order of [`list_models`]. The call makes the whole list, of up to 65,536 words, and the iterator goes through it.
/// Refusals 1, 2, 29.
///
/// ```
/// use yokebean::{find, models, Refusal, Size};
///
/// // of the moduli of degree 8 modulo 2 the first with the fewest terms: X⁸ + X⁴ + X³ + X + 1, of AES
/// let size = Size { p: 2, n: 8 };
/// let fewest = models(size)?.min_by_key(|t| t.iter().filter(|&&word| word != 0).count()).expect("there are 30");
/// assert_eq!(fewest, [1, 1, 0, 1, 1, 0, 0, 0]);
///
/// // a pair with each of them: no modulus of the catalogue is refused with 6 or 7
/// let (mut s, mut r) = ([0; 8], [0; 8]);
/// for t in models(size)? {
///     find(size, &fewest, &t, &mut s, &mut r)?;
/// }
/// assert_eq!(models(Size { p: 2, n: 17 }).unwrap_err(), Refusal::Degree);
/// # Ok::<(), Refusal>(())
/// ```
pub fn models(size: Size) -> Result<Models, Refusal> {
    let count = count_models(size)?;
    let n = size.n as usize;
    let mut words = vec![0; n * count];
    list_models(size, &mut words)?;
    Ok(Models { n, words, left: 0..count })
}

/// The models of a size, from [`models`]: an iterator over their moduli, each as n words, constant first. It knows how many are left, and goes from
/// both ends.
///
/// ```
/// use yokebean::{models, Size};
///
/// let mut all = models(Size { p: 3, n: 2 })?;
/// assert_eq!(all.len(), 3);
/// assert_eq!(all.next(), Some(vec![1, 0])); // X² + 1
/// assert_eq!(all.next_back(), Some(vec![2, 2])); // X² + 2X + 2
/// assert_eq!(all.len(), 1);
/// assert_eq!(all.collect::<Vec<_>>(), [[2, 1]]); // X² + X + 2
///
/// // any of them, without those before it
/// assert_eq!(models(Size { p: 251, n: 2 })?.nth(31_374), Some(vec![244, 250])); // X² − X − 7, the last
/// # Ok::<(), yokebean::Refusal>(())
/// ```
#[derive(Clone, Debug)]
pub struct Models {
    n: usize,
    words: Vec<u32>,
    left: Range<usize>, // of the models
}

impl Models {
    /// The words of the models that are left, one modulus after the other, without a copy.
    ///
    /// ```
    /// use yokebean::{irreducible, models, Size};
    ///
    /// let size = Size { p: 5, n: 3 };
    /// let all = models(size)?;
    /// assert_eq!(all.as_words().len(), 3 * 40);
    /// for t in all.as_words().chunks_exact(3) {
    ///     irreducible(size, t)?;
    /// }
    /// # Ok::<(), yokebean::Refusal>(())
    /// ```
    pub fn as_words(&self) -> &[u32] {
        &self.words[self.left.start * self.n..self.left.end * self.n]
    }

    fn modulus(&self, k: usize) -> Vec<u32> {
        self.words[k * self.n..(k + 1) * self.n].to_vec()
    }
}

impl Iterator for Models {
    type Item = Vec<u32>;

    fn next(&mut self) -> Option<Vec<u32>> {
        self.left.next().map(|k| self.modulus(k))
    }

    fn nth(&mut self, k: usize) -> Option<Vec<u32>> {
        self.left.nth(k).map(|k| self.modulus(k))
    }

    fn size_hint(&self) -> (usize, Option<usize>) {
        self.left.size_hint()
    }
}

impl DoubleEndedIterator for Models {
    fn next_back(&mut self) -> Option<Vec<u32>> {
        self.left.next_back().map(|k| self.modulus(k))
    }
}

impl ExactSizeIterator for Models {}

impl FusedIterator for Models {}
