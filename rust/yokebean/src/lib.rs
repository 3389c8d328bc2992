//! Isomorphisms of finite fields: test a modulus, list all of a size, check a pair, list all maps, find a pair, convert tables through it, whole or in
//! parts, or by the matrix of a map; and store tables as differences. Each function passes its slices on to the proved call of the same or a like name
//! in include/yokebean.h ([`list_models`] to `yokebean_catalogue_list`); `rt lib` builds that library in crates/capi. None of them panics, and a refused
//! call leaves every slice as it was.
//!
//! A model is a prime p up to 1,048,575, a degree n from 1 to 16 and a monic modulus of degree n; its n lower words are passed, constant first.
//! A residue is n words below p, in the same order.
//!
//! ```
//! use yokebean::{Session, Size};
//!
//! # fn main() -> Result<(), yokebean::Refusal> {
//! // X² + 1 and X² + X + 2 modulo 3: two models of the field of 9 elements
//! let session = Session::new().load(Size { p: 3, n: 2 }, &[1, 0], &[2, 1])?.find()?;
//! let mut image = [0; 4];
//! session.forward(&[1, 1, 0, 2], &mut image)?;
//! assert_eq!(image, [2, 2, 2, 1]);
//! # Ok(())
//! # }
//! ```

mod catalogue;
pub mod raw;
mod refusal;
mod table;

pub use catalogue::{count_models, list_models, models, Models};
pub use refusal::Refusal;
pub use table::OpenTable;

fn answer<T>(number: u32, value: T) -> Result<T, Refusal> {
    if number == 0 {
        Ok(value)
    } else {
        Err(Refusal::of(number))
    }
}

/// A model's size: the prime p and the degree n.
#[derive(Clone, Copy, Debug, PartialEq, Eq)]
pub struct Size {
    pub p: u32,
    pub n: u32,
}

/// out := u(S) modulo T. Refusals 1 to 4.
///
/// ```
/// let mut out = [0; 2];
/// yokebean::substitute(yokebean::Size { p: 3, n: 2 }, &[2, 1], &[1, 2], &[1, 1], &mut out)?;
/// assert_eq!(out, [2, 2]); // 1 + (1 + 2X)
/// # Ok::<(), yokebean::Refusal>(())
/// ```
pub fn substitute(size: Size, t: &[u32], s: &[u32], u: &[u32], out: &mut [u32]) -> Result<(), Refusal> {
    let Size { p, n } = size;
    // each pointer comes with the length of its own slice, and no slice overlaps one that is written, here and below
    let number = unsafe {
        raw::yokebean_substitute(p, n, t.as_ptr(), t.len(), s.as_ptr(), s.len(), u.as_ptr(), u.len(), out.as_mut_ptr(), out.len())
    };
    answer(number, ())
}

/// out := u·v modulo T. Refusals 1 to 4.
///
/// ```
/// let mut out = [0; 2];
/// yokebean::product(yokebean::Size { p: 3, n: 2 }, &[1, 0], &[0, 1], &[1, 1], &mut out)?;
/// assert_eq!(out, [2, 1]); // X·(1 + X) = X + X², and X² = −1
/// # Ok::<(), yokebean::Refusal>(())
/// ```
pub fn product(size: Size, t: &[u32], u: &[u32], v: &[u32], out: &mut [u32]) -> Result<(), Refusal> {
    let Size { p, n } = size;
    let number =
        unsafe { raw::yokebean_product(p, n, t.as_ptr(), t.len(), u.as_ptr(), u.len(), v.as_ptr(), v.len(), out.as_mut_ptr(), out.len()) };
    answer(number, ())
}

/// out := u^k modulo T. Refusals 1 to 4.
///
/// ```
/// let mut out = [0; 2];
/// yokebean::power(yokebean::Size { p: 3, n: 2 }, &[1, 0], &[1, 1], 8, &mut out)?;
/// assert_eq!(out, [1, 0]); // the group of the field of 9 elements has order 8
/// # Ok::<(), yokebean::Refusal>(())
/// ```
pub fn power(size: Size, t: &[u32], u: &[u32], k: u64, out: &mut [u32]) -> Result<(), Refusal> {
    let Size { p, n } = size;
    let number = unsafe { raw::yokebean_power(p, n, t.as_ptr(), t.len(), u.as_ptr(), u.len(), k, out.as_mut_ptr(), out.len()) };
    answer(number, ())
}

/// Whether T is irreducible, that is, has no monic divisor of degree 1 to n − 1; then every residue but 0 has an inverse. Refusals 1, 2, 3, 4, 6.
///
/// ```
/// use yokebean::{irreducible, Refusal, Size};
///
/// let size = Size { p: 3, n: 2 };
/// assert_eq!(irreducible(size, &[1, 0]), Ok(())); // X² + 1
/// assert_eq!(irreducible(size, &[2, 0]), Err(Refusal::FirstModulusFactors)); // X² + 2 = (X + 1)(X + 2)
/// assert_eq!(irreducible(Size { p: 1_048_573, n: 2 }, &[2, 0]), Ok(())); // the same modulo the largest p
/// ```
pub fn irreducible(size: Size, t: &[u32]) -> Result<(), Refusal> {
    let Size { p, n } = size;
    let number = unsafe { raw::yokebean_irreducible(p, n, t.as_ptr(), t.len()) };
    answer(number, ())
}

/// The checker: whether T1 and T2 are irreducible and T1(S) = 0 mod T2, T2(R) = 0 mod T1, S(R) = X mod T1 and R(S) = X mod T2; then both models are
/// fields, and u ↦ u(S) mod T2 and u ↦ u(R) mod T1 are inverse isomorphisms. Refusals 1, 2, 3, 4, 6, 7, 8.
///
/// ```
/// use yokebean::{check, Refusal, Size};
///
/// let (size, t1, t2) = (Size { p: 3, n: 2 }, [1, 0], [2, 1]);
/// assert_eq!(check(size, &t1, &t2, &[2, 1], &[1, 1]), Ok(()));
/// assert_eq!(check(size, &t1, &t2, &[2, 1], &[1, 2]), Err(Refusal::Congruence));
/// // modulo X² the congruences hold for S = R = X, but X has no inverse
/// assert_eq!(check(size, &[0, 0], &[0, 0], &[0, 1], &[0, 1]), Err(Refusal::FirstModulusFactors));
/// ```
pub fn check(size: Size, t1: &[u32], t2: &[u32], s: &[u32], r: &[u32]) -> Result<(), Refusal> {
    let Size { p, n } = size;
    let number =
        unsafe { raw::yokebean_check(p, n, t1.as_ptr(), t1.len(), t2.as_ptr(), t2.len(), s.as_ptr(), s.len(), r.as_ptr(), r.len()) };
    answer(number, ())
}

/// All the maps: from a pair that the checker accepts, writes the n polynomials S' with T1(S') = 0 mod T2 into `out`, each exactly once and as n
/// words, in ascending order, where coefficients are compared from the highest power down. They give all the isomorphisms of the two fields: every
/// one-to-one and onto map that preserves sums, products and one is u ↦ u(S') mod T2 for exactly one of them. `out` has n·n words. Refusals 1, 2, 3,
/// 4, 6, 7, 8.
///
/// ```
/// let size = yokebean::Size { p: 3, n: 2 };
/// let mut out = [0; 4];
/// yokebean::maps(size, &[1, 0], &[2, 1], &[1, 2], &[1, 2], &mut out)?;
/// assert_eq!(out, [2, 1, 1, 2]); // 2 + X and 1 + 2X: modulo X² + X + 2 both have the square −1
/// # Ok::<(), yokebean::Refusal>(())
/// ```
pub fn maps(size: Size, t1: &[u32], t2: &[u32], s: &[u32], r: &[u32], out: &mut [u32]) -> Result<(), Refusal> {
    let Size { p, n } = size;
    let number = unsafe {
        raw::yokebean_maps(
            p,
            n,
            t1.as_ptr(),
            t1.len(),
            t2.as_ptr(),
            t2.len(),
            s.as_ptr(),
            s.len(),
            r.as_ptr(),
            r.len(),
            out.as_mut_ptr(),
            out.len(),
        )
    };
    answer(number, ())
}

/// The matrices of the two maps, from a pair that the checker accepts: `forward` gets that of u ↦ u(S) mod T2, whose columns are the powers
/// S⁰ to S^(n−1) mod T2, and `back` that of u ↦ u(R) mod T1, whose columns are the powers of R. Each has n·n words, row after row: word i·n + j is
/// coefficient i of S^j, or of R^j. They multiply to the identity modulo p both ways. The matrices of Kern and Mignotte are not these but those of
/// multiplication; include/yokebean.h has both for example A. Refusals 1, 2, 3, 4, 6, 7, 8.
///
/// ```
/// use yokebean::{matrices, Refusal, Size};
///
/// let (size, t1, t2, s, r) = (Size { p: 7, n: 3 }, [5, 0, 0], [4, 0, 0], [0, 0, 2], [0, 0, 3]);
/// let (mut forward, mut back) = ([0; 9], [0; 9]);
/// matrices(size, &t1, &t2, &s, &r, &mut forward, &mut back)?;
/// assert_eq!(forward, [1, 0, 0, 0, 0, 5, 0, 2, 0]); // the columns 1, S = 2X² and S² = 4X⁴ = 5X
/// assert_eq!(back, [1, 0, 0, 0, 0, 4, 0, 3, 0]); // the columns 1, R = 3X² and R² = 2X⁴ = 4X
///
/// // of a pair that the checker refuses, and with an output list that is too short, neither list is written
/// let (mut forward, mut back) = ([9; 9], [9; 9]);
/// assert_eq!(matrices(size, &t1, &t2, &r, &s, &mut forward, &mut back), Err(Refusal::Congruence));
/// assert_eq!(matrices(size, &t1, &t2, &s, &r, &mut forward, &mut back[..8]), Err(Refusal::Length));
/// assert_eq!((forward, back), ([9; 9], [9; 9]));
/// # Ok::<(), Refusal>(())
/// ```
pub fn matrices(size: Size, t1: &[u32], t2: &[u32], s: &[u32], r: &[u32], forward: &mut [u32], back: &mut [u32]) -> Result<(), Refusal> {
    let Size { p, n } = size;
    let number = unsafe {
        raw::yokebean_matrices(
            p,
            n,
            t1.as_ptr(),
            t1.len(),
            t2.as_ptr(),
            t2.len(),
            s.as_ptr(),
            s.len(),
            r.as_ptr(),
            r.len(),
            forward.as_mut_ptr(),
            forward.len(),
            back.as_mut_ptr(),
            back.len(),
        )
    };
    answer(number, ())
}

/// Converts a table by a matrix, group of n words by group: matrix times group, modulo p. The matrix may be any of n·n words below p, row after row.
/// By the [`matrices`] of a pair it writes what [`Session::forward`] and [`Session::back`] write for that pair; it has no ledger. With an empty
/// table too, the matrix's words must be below p. Refusals 1, 2, 3, 9, 10, 4.
///
/// ```
/// use yokebean::{find, matrices, matrix_convert, Refusal, Size};
///
/// let (size, t1, t2) = (Size { p: 7, n: 3 }, [5, 0, 0], [4, 0, 0]);
/// let (mut s, mut r, mut forward, mut back) = ([0; 3], [0; 3], [0; 9], [0; 9]);
/// find(size, &t1, &t2, &mut s, &mut r)?;
/// matrices(size, &t1, &t2, &s, &r, &mut forward, &mut back)?;
/// // the matrices are worked out once for all tables
/// for table in [[1, 2, 3, 0, 1, 0], [6, 0, 0, 0, 0, 1]] {
///     let (mut image, mut again) = ([0; 6], [0; 6]);
///     matrix_convert(size, &forward, &table, &mut image)?;
///     matrix_convert(size, &back, &image, &mut again)?;
///     assert_eq!(again, table);
/// }
///
/// // any matrix, here one with two equal rows
/// let mut image = [0; 2];
/// matrix_convert(Size { p: 3, n: 2 }, &[1, 2, 1, 2], &[2, 1], &mut image)?;
/// assert_eq!(image, [1, 1]);
/// assert_eq!(matrix_convert(Size { p: 3, n: 2 }, &[1, 2, 1, 3], &[], &mut []), Err(Refusal::Word));
/// assert_eq!(matrix_convert(Size { p: 3, n: 2 }, &[1, 2, 1], &[2, 1], &mut image), Err(Refusal::Length));
/// assert_eq!(matrix_convert(Size { p: 3, n: 2 }, &[1, 2, 1, 2], &[2], &mut image), Err(Refusal::TableLength));
/// assert_eq!(matrix_convert(Size { p: 3, n: 2 }, &[1, 2, 1, 2], &[], &mut image), Err(Refusal::OutputLength));
/// assert_eq!(image, [1, 1]);
/// # Ok::<(), Refusal>(())
/// ```
pub fn matrix_convert(size: Size, matrix: &[u32], table: &[u32], out: &mut [u32]) -> Result<(), Refusal> {
    let Size { p, n } = size;
    let number = unsafe {
        raw::yokebean_matrix_convert(p, n, matrix.as_ptr(), matrix.len(), table.as_ptr(), table.len(), out.as_mut_ptr(), out.len())
    };
    answer(number, ())
}

/// The differences of a table: the first n words stay, and each later word becomes itself minus the table's word n places before, modulo 2³².
/// There is no p: the words may have any values. [`restore`] undoes it. Refusals 2, 9, 10.
///
/// ```
/// use yokebean::{differences, Refusal};
///
/// let mut out = [0; 6];
/// differences(2, &[100, 7, 103, 6, 106, 6], &mut out)?;
/// assert_eq!(out, [100, 7, 3, u32::MAX, 3, 0]); // 6 − 7 is 2³² − 1 modulo 2³²
///
/// let mut out = [9; 3];
/// assert_eq!(differences(17, &[1, 2], &mut out), Err(Refusal::Degree));
/// assert_eq!(differences(2, &[1, 2, 3], &mut out), Err(Refusal::TableLength));
/// assert_eq!(differences(2, &[1, 2, 3, 4], &mut out), Err(Refusal::OutputLength));
/// assert_eq!(out, [9; 3]);
/// # Ok::<(), Refusal>(())
/// ```
pub fn differences(n: u32, table: &[u32], out: &mut [u32]) -> Result<(), Refusal> {
    let number = unsafe { raw::yokebean_differences(n, table.as_ptr(), table.len(), out.as_mut_ptr(), out.len()) };
    answer(number, ())
}

/// The table that has these [`differences`]: the first n words stay, and each later word becomes itself plus the restored word n places before,
/// modulo 2³². Refusals 2, 9, 10.
///
/// ```
/// use yokebean::{differences, restore, Refusal};
///
/// let table = [100, 7, 103, 6, 0, u32::MAX];
/// let (mut stored, mut again) = ([0; 6], [0; 6]);
/// differences(2, &table, &mut stored)?;
/// restore(2, &stored, &mut again)?;
/// assert_eq!(again, table);
///
/// assert_eq!(restore(0, &stored, &mut again), Err(Refusal::Degree));
/// assert_eq!(restore(4, &stored, &mut again), Err(Refusal::TableLength));
/// assert_eq!(restore(2, &stored, &mut again[..5]), Err(Refusal::OutputLength));
/// assert_eq!(again, table);
/// # Ok::<(), Refusal>(())
/// ```
pub fn restore(n: u32, differences: &[u32], out: &mut [u32]) -> Result<(), Refusal> {
    let number = unsafe { raw::yokebean_restore(n, differences.as_ptr(), differences.len(), out.as_mut_ptr(), out.len()) };
    answer(number, ())
}

/// The length of a sheet for models of degree n.
pub fn sheet_length(n: u32) -> usize {
    unsafe { raw::yokebean_sheet_length(n) }
}

/// The printed sheet of a pair that the checker accepts: T1, T2, S and R, coefficients constant first, eight to a line, each word v above half of
/// p as v − p. `out` has [`sheet_length`] bytes and receives ASCII text. Refusals 1, 2, 3, 4, 6, 7, 8.
///
/// ```
/// let size = yokebean::Size { p: 3, n: 2 };
/// let mut out = vec![0; yokebean::sheet_length(size.n)];
/// yokebean::sheet(size, &[1, 0], &[2, 1], &[1, 2], &[1, 2], &mut out)?;
/// let text = String::from_utf8(out).expect("ASCII");
/// let lines: Vec<&str> = text.lines().map(str::trim_end).collect();
/// assert_eq!(lines, ["T1       1      0", "T2      -1      1", "S        1     -1", "R        1     -1"]);
/// # Ok::<(), yokebean::Refusal>(())
/// ```
pub fn sheet(size: Size, t1: &[u32], t2: &[u32], s: &[u32], r: &[u32], out: &mut [u8]) -> Result<(), Refusal> {
    let Size { p, n } = size;
    let number = unsafe {
        raw::yokebean_sheet(
            p,
            n,
            t1.as_ptr(),
            t1.len(),
            t2.as_ptr(),
            t2.len(),
            s.as_ptr(),
            s.len(),
            r.as_ptr(),
            r.len(),
            out.as_mut_ptr(),
            out.len(),
        )
    };
    answer(number, ())
}

/// The finder, where n divides p − 1 or is p^k with k ≥ 1: writes the pair of Allombert's Algorithm 2.1 or 4.1 into s and r, which have n
/// words. Each model has an α; u ↦ u(S) takes the α of T1 to that of T2, and u ↦ u(R) takes it back. Refusals 1 to 7.
///
/// Where n divides p − 1, ζ is the smallest number from 1 to p − 1 of order n modulo p, and a the smallest with a^((p−1)/n) = ζ; α satisfies
/// α^p = ζ·α and α^n = a, and of the n residues that do, it is the one whose first coefficient that is not zero is smallest.
///
/// Where n = p^k, a and α are 1 at first; then k times a becomes a·α^(p−1), and α the one residue with α^p = α + a and constant coefficient 0.
///
/// Found maps compose: for three models A, B, C, the maps found for A and B and then those for B and C are the maps found for A and C, forward and
/// back; with the models exchanged, the found pair is exchanged. Pairs found by earlier versions stay accepted.
///
/// ```
/// use yokebean::{check, find, Size};
///
/// let (size, t1, t2) = (Size { p: 7, n: 3 }, [5, 0, 0], [4, 0, 0]);
/// let (mut s, mut r) = ([0; 3], [0; 3]);
/// find(size, &t1, &t2, &mut s, &mut r)?;
/// assert_eq!((s, r), ([0, 0, 2], [0, 0, 3]));
/// find(size, &t2, &t1, &mut s, &mut r)?;
/// assert_eq!((s, r), ([0, 0, 3], [0, 0, 2]));
/// // found by an earlier version
/// check(size, &t1, &t2, &[0, 0, 1], &[0, 0, 5])?;
///
/// // X⁴ + X + 1 and X⁴ + X³ + 1 modulo 2: the degree is a power of p
/// let (mut s, mut r) = ([0; 4], [0; 4]);
/// find(Size { p: 2, n: 4 }, &[1, 1, 0, 0], &[1, 0, 0, 1], &mut s, &mut r)?;
/// assert_eq!((s, r), ([0, 0, 1, 1], [1, 0, 0, 1]));
/// # Ok::<(), yokebean::Refusal>(())
/// ```
pub fn find(size: Size, t1: &[u32], t2: &[u32], s: &mut [u32], r: &mut [u32]) -> Result<(), Refusal> {
    let Size { p, n } = size;
    let number =
        unsafe { raw::yokebean_find(p, n, t1.as_ptr(), t1.len(), t2.as_ptr(), t2.len(), s.as_mut_ptr(), s.len(), r.as_mut_ptr(), r.len()) };
    answer(number, ())
}

/// The direction of a conversion.
///
/// ```
/// use yokebean::{Direction, Session, Size};
///
/// let paired = Session::new().load(Size { p: 3, n: 2 }, &[1, 0], &[2, 1])?.find()?;
/// let next = paired.back(&[2, 2], &mut [0; 2])?;
/// assert_eq!(next.records().last().map(|record| record.direction), Some(Direction::Back));
/// # Ok::<(), yokebean::Refusal>(())
/// ```
#[derive(Clone, Copy, Debug, PartialEq, Eq)]
pub enum Direction {
    /// From residues modulo T1 to residues modulo T2.
    Forward,
    /// From residues modulo T2 to residues modulo T1.
    Back,
}

/// A record of the ledger: a conversion that succeeded or a table that was ended, and how many residues it had.
///
/// ```
/// use yokebean::{Direction, Record, Session, Size};
///
/// let paired = Session::new().load(Size { p: 3, n: 2 }, &[1, 0], &[2, 1])?.find()?;
/// let next = paired.forward(&[1, 1, 0, 2], &mut [0; 4])?;
/// assert_eq!(next.records().last(), Some(Record { direction: Direction::Forward, residues: 2 }));
/// # Ok::<(), yokebean::Refusal>(())
/// ```
#[derive(Clone, Copy, Debug, PartialEq, Eq)]
pub struct Record {
    pub direction: Direction,
    pub residues: u32,
}

/// A session, by value: empty, loaded with two models, or paired as well; and a ledger of up to 512 records, one for each conversion that
/// succeeded and for each table that was ended. A refused call leaves the caller with the session it had.
#[derive(Clone, Copy, Debug, PartialEq, Eq)]
pub struct Session(raw::Session);

impl Default for Session {
    fn default() -> Self {
        Self::new()
    }
}

impl Session {
    /// A new session is empty and has no records.
    ///
    /// ```
    /// assert_eq!(yokebean::Session::new().find(), Err(yokebean::Refusal::SessionEmpty));
    /// ```
    pub fn new() -> Self {
        Session(unsafe { raw::yokebean_session_new() })
    }

    fn next(step: raw::Step) -> Result<Self, Refusal> {
        answer(step.number, Session(step.session))
    }

    /// Empty to loaded. Refusals 23, 1 to 4.
    ///
    /// ```
    /// use yokebean::{Refusal, Session, Size};
    ///
    /// let loaded = Session::new().load(Size { p: 3, n: 2 }, &[1, 0], &[2, 1])?;
    /// assert_eq!(loaded.load(Size { p: 3, n: 2 }, &[1, 0], &[2, 1]), Err(Refusal::SessionNotEmpty));
    /// # Ok::<(), Refusal>(())
    /// ```
    pub fn load(self, size: Size, t1: &[u32], t2: &[u32]) -> Result<Self, Refusal> {
        Self::next(unsafe { raw::yokebean_session_load(self.0, size.p, size.n, t1.as_ptr(), t1.len(), t2.as_ptr(), t2.len()) })
    }

    /// Loaded to paired, if the checker accepts. Refusals 21, 24, 3, 4, 6, 7, 8.
    ///
    /// ```
    /// use yokebean::{Refusal, Session, Size};
    ///
    /// let loaded = Session::new().load(Size { p: 3, n: 2 }, &[1, 0], &[2, 1])?;
    /// assert!(loaded.propose(&[2, 1], &[1, 1]).is_ok());
    /// assert_eq!(loaded.propose(&[2, 1], &[1, 2]), Err(Refusal::Congruence));
    /// // the second modulus X² + 2 is (X + 1)(X + 2)
    /// let loaded = Session::new().load(Size { p: 3, n: 2 }, &[1, 0], &[2, 0])?;
    /// assert_eq!(loaded.propose(&[0, 1], &[0, 1]), Err(Refusal::SecondModulusFactors));
    /// # Ok::<(), Refusal>(())
    /// ```
    pub fn propose(self, s: &[u32], r: &[u32]) -> Result<Self, Refusal> {
        Self::next(unsafe { raw::yokebean_session_propose(self.0, s.as_ptr(), s.len(), r.as_ptr(), r.len()) })
    }

    /// Loaded to paired, with the finder's pair. Refusals 21, 24, 5, 6, 7.
    ///
    /// ```
    /// use yokebean::{Refusal, Session, Size};
    ///
    /// let loaded = Session::new().load(Size { p: 3, n: 2 }, &[1, 0], &[2, 1])?;
    /// assert_eq!(loaded.find(), loaded.propose(&[1, 2], &[1, 2]));
    /// # Ok::<(), Refusal>(())
    /// ```
    pub fn find(self) -> Result<Self, Refusal> {
        Self::next(unsafe { raw::yokebean_session_find(self.0) })
    }

    /// Converts a table of residues modulo T1, group of n words by group, into residues modulo T2: u ↦ u(S). The next session has one record more,
    /// also for an empty table. Refusals 21, 22, 9, 10, 4, 25.
    ///
    /// ```
    /// use yokebean::{Session, Size};
    ///
    /// let paired = Session::new().load(Size { p: 3, n: 2 }, &[1, 0], &[2, 1])?.find()?;
    /// let mut image = [0; 2];
    /// let next = paired.forward(&[1, 1], &mut image)?;
    /// assert_eq!(image, [2, 2]);
    /// assert_eq!(next.records().count(), 1);
    /// # Ok::<(), yokebean::Refusal>(())
    /// ```
    pub fn forward(self, table: &[u32], out: &mut [u32]) -> Result<Self, Refusal> {
        Self::next(unsafe { raw::yokebean_session_forward(self.0, table.as_ptr(), table.len(), out.as_mut_ptr(), out.len()) })
    }

    /// Converts a table of residues modulo T2, group of n words by group, into residues modulo T1: u ↦ u(R). The next session has one record more,
    /// also for an empty table. Refusals 21, 22, 9, 10, 4, 25.
    ///
    /// ```
    /// use yokebean::{Session, Size};
    ///
    /// let paired = Session::new().load(Size { p: 3, n: 2 }, &[1, 0], &[2, 1])?.find()?;
    /// let mut image = [0; 2];
    /// let next = paired.back(&[2, 2], &mut image)?;
    /// assert_eq!(image, [1, 1]);
    /// assert_eq!(next.records().count(), 1);
    /// # Ok::<(), yokebean::Refusal>(())
    /// ```
    pub fn back(self, table: &[u32], out: &mut [u32]) -> Result<Self, Refusal> {
        Self::next(unsafe { raw::yokebean_session_back(self.0, table.as_ptr(), table.len(), out.as_mut_ptr(), out.len()) })
    }

    /// Opens a table that comes in parts, of residues modulo T1 forward or modulo T2 back. Refusals 21, 22, 25.
    ///
    /// ```
    /// use yokebean::{Direction, Refusal, Session, Size};
    ///
    /// let loaded = Session::new().load(Size { p: 3, n: 2 }, &[1, 0], &[2, 1])?;
    /// assert_eq!(loaded.begin(Direction::Forward), Err(Refusal::SessionWithoutPair));
    /// let (mut first, mut second) = ([0; 2], [0; 2]);
    /// let table = loaded.find()?.begin(Direction::Forward)?;
    /// let next = table.feed(&[1, 1], &mut first)?.feed(&[0, 2], &mut second)?.end();
    /// assert_eq!((first, second), ([2, 2], [2, 1]));
    /// assert_eq!(next.records().count(), 1);
    /// # Ok::<(), Refusal>(())
    /// ```
    pub fn begin(self, direction: Direction) -> Result<OpenTable, Refusal> {
        let step = match direction {
            Direction::Forward => unsafe { raw::yokebean_session_begin_forward(self.0) },
            Direction::Back => unsafe { raw::yokebean_session_begin_back(self.0) },
        };
        Self::next(step).map(OpenTable)
    }

    /// The records of the ledger, in order.
    ///
    /// ```
    /// use yokebean::{Direction, Session, Size};
    ///
    /// let paired = Session::new().load(Size { p: 3, n: 2 }, &[1, 0], &[2, 1])?.find()?;
    /// assert_eq!(paired.records().count(), 0);
    /// let next = paired.forward(&[1, 1, 0, 2], &mut [0; 4])?.back(&[], &mut [])?;
    /// let records: Vec<_> = next.records().map(|record| (record.direction, record.residues)).collect();
    /// assert_eq!(records, [(Direction::Forward, 2), (Direction::Back, 0)]);
    /// # Ok::<(), yokebean::Refusal>(())
    /// ```
    pub fn records(&self) -> impl Iterator<Item = Record> + '_ {
        self.0.ledger.iter().take(self.0.records as usize).map(|record| Record {
            direction: if record.direction == 0 { Direction::Forward } else { Direction::Back },
            residues: record.residues,
        })
    }

    /// The length of the report.
    ///
    /// ```
    /// assert_eq!(yokebean::Session::new().report_length(), "0\n0\n".len());
    /// ```
    pub fn report_length(self) -> usize {
        unsafe { raw::yokebean_session_report_length(self.0) }
    }

    /// The report, in every state: the records in order, each as `F` or `B`, a blank, the decimal number of residues and a newline; then the forward
    /// and the back total, each a decimal number and a newline. `out` has [`report_length`](Self::report_length) bytes and receives ASCII text.
    /// Refusal 3.
    ///
    /// ```
    /// use yokebean::{Session, Size};
    ///
    /// let paired = Session::new().load(Size { p: 3, n: 2 }, &[1, 0], &[2, 1])?.find()?;
    /// let next = paired.forward(&[1, 1, 0, 2], &mut [0; 4])?.back(&[2, 2], &mut [0; 2])?;
    /// let mut out = vec![0; next.report_length()];
    /// next.report(&mut out)?;
    /// assert_eq!(out, b"F 2\nB 1\n2\n1\n");
    /// # Ok::<(), yokebean::Refusal>(())
    /// ```
    pub fn report(self, out: &mut [u8]) -> Result<(), Refusal> {
        let step = unsafe { raw::yokebean_session_report(self.0, out.as_mut_ptr(), out.len()) };
        answer(step.number, ())
    }

    /// Any state to empty; keeps the ledger; never refused.
    ///
    /// ```
    /// use yokebean::{Session, Size};
    ///
    /// let loaded = Session::new().load(Size { p: 3, n: 2 }, &[1, 0], &[2, 1])?;
    /// assert_eq!(loaded.clear(), Session::new());
    /// let next = loaded.find()?.forward(&[1, 1], &mut [0; 2])?;
    /// assert!(next.clear().records().eq(next.records()));
    /// # Ok::<(), yokebean::Refusal>(())
    /// ```
    pub fn clear(self) -> Self {
        Session(unsafe { raw::yokebean_session_clear(self.0) }.session)
    }
}

/// What a card is: kind 1 a job (T1, T2), kind 2 a pair card (T1, T2, S, R).
///
/// A card has p in 16 bits, n − 1 in 4, kind in 4, then its coefficients in w bits each, where w is the number of binary digits of p − 1, then the
/// fill: zero bits up to the end of the last byte. A wide card, for p above 65,535, starts with 16 zero bits, then has p in 20, n − 1 in 4, kind in 4
/// and 4 zero bits, which count as fill; the coefficients follow as in any card. An older reader gives 1 for it. The longest card has 166 bytes.
#[derive(Clone, Copy, Debug, PartialEq, Eq)]
pub struct Card {
    pub size: Size,
    pub kind: u32,
}

impl Card {
    /// Reads a card; its coefficients go into the first places of `words`, which has 64, the rest become 0. Refusals 3, 11, 1, 28, 12, 11, 13, 4: first
    /// an 11 for under 3 bytes, or under 6 where the card begins with two zero bytes, and after 12 for another length than the card's.
    ///
    /// ```
    /// use yokebean::{Card, Refusal, Size};
    ///
    /// let mut words = [9; 64];
    /// let card = Card::read(&[0x00, 0x03, 0x12, 0x49, 0x66], &mut words)?;
    /// assert_eq!(card, Card { size: Size { p: 3, n: 2 }, kind: 2 });
    /// assert_eq!(words[..9], [1, 0, 2, 1, 1, 2, 1, 2, 0]);
    ///
    /// // a wide card: p = 65,537 and n = 1 in six bytes, T1 = X + 1 and T2 = X + 65,536 in 17 bits each
    /// let mut bytes = [0x00, 0x00, 0x10, 0x00, 0x10, 0x10, 0x00, 0x00, 0xC0, 0x00, 0x00];
    /// let card = Card::read(&bytes, &mut words)?;
    /// assert_eq!(card, Card { size: Size { p: 65_537, n: 1 }, kind: 1 });
    /// assert_eq!(words[..3], [1, 65_536, 0]);
    /// // and one with p = 17
    /// bytes[2..5].copy_from_slice(&[0x00, 0x01, 0x10]);
    /// assert_eq!(Card::read(&bytes, &mut words), Err(Refusal::CardTooWide));
    /// # Ok::<(), Refusal>(())
    /// ```
    pub fn read(bytes: &[u8], words: &mut [u32]) -> Result<Self, Refusal> {
        let found = unsafe { raw::yokebean_card_read(bytes.as_ptr(), bytes.len(), words.as_mut_ptr(), words.len()) };
        answer(found.number, Card { size: Size { p: found.p, n: found.n }, kind: found.kind })
    }

    /// Writes the card of 2n (kind 1) or 4n (kind 2) coefficients, a wide one exactly where p is above 65,535, into a list of exactly its length:
    /// (24 + 2·kind·n·w + 7) / 8 bytes, rounded down, or for a wide card (48 + 2·kind·n·w + 7) / 8. Refusals 1, 2, 12, 3, 4.
    ///
    /// ```
    /// use yokebean::{Card, Size};
    ///
    /// let mut bytes = [0; 4];
    /// Card { size: Size { p: 3, n: 2 }, kind: 1 }.write(&[1, 0, 2, 1], &mut bytes)?;
    /// assert_eq!(bytes, [0x00, 0x03, 0x11, 0x49]);
    ///
    /// let mut bytes = [0; 11];
    /// Card { size: Size { p: 65_537, n: 1 }, kind: 1 }.write(&[1, 65_536], &mut bytes)?;
    /// assert_eq!(bytes, [0x00, 0x00, 0x10, 0x00, 0x10, 0x10, 0x00, 0x00, 0xC0, 0x00, 0x00]);
    /// # Ok::<(), yokebean::Refusal>(())
    /// ```
    pub fn write(self, words: &[u32], bytes: &mut [u8]) -> Result<(), Refusal> {
        let Card { size: Size { p, n }, kind } = self;
        let number = unsafe { raw::yokebean_card_write(p, n, kind, words.as_ptr(), words.len(), bytes.as_mut_ptr(), bytes.len()) };
        answer(number, ())
    }
}
