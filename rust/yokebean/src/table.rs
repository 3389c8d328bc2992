//! A table that comes in parts, and the next pair, which is prepared meanwhile.

use crate::{raw, Direction, Record, Refusal, Session, Size};

/// An open table, by value, in the place of the session that began it. Until its end the table keeps the pair that it began with: load, propose and
/// find act on a waiting session, which starts empty. A refused call leaves the caller with the table it had.
///
/// ```
/// use yokebean::{Direction, Session, Size};
///
/// let paired = Session::new().load(Size { p: 3, n: 2 }, &[1, 0], &[2, 1])?.find()?;
/// let (mut first, mut second, mut image) = ([0; 2], [0; 2], [0; 3]);
/// let table = paired.begin(Direction::Forward)?.feed(&[1, 1], &mut first)?;
/// // the next pair, while the table is running
/// let table = table.load(Size { p: 7, n: 3 }, &[5, 0, 0], &[4, 0, 0])?.find()?;
/// let next = table.feed(&[0, 2], &mut second)?.end();
/// assert_eq!((first, second), ([2, 2], [2, 1]));
/// // one record with all residues of the table; from here on the next pair converts
/// let next = next.forward(&[0, 1, 0], &mut image)?;
/// assert_eq!(image, [0, 0, 2]);
/// let residues: Vec<u32> = next.records().map(|record| record.residues).collect();
/// assert_eq!(residues, [2, 1]);
/// # Ok::<(), yokebean::Refusal>(())
/// ```
#[derive(Clone, Copy, Debug, PartialEq, Eq)]
pub struct OpenTable(pub(crate) Session); // with a table open, as no other session of this layer has

impl OpenTable {
    /// Converts a part of the table, group of n words by group, under the pair that the table began with, as [`Session::forward`] or
    /// [`Session::back`] does. It adds no record. Refusals 9, 10, 4.
    ///
    /// ```
    /// use yokebean::{Direction, Refusal, Session, Size};
    ///
    /// let paired = Session::new().load(Size { p: 3, n: 2 }, &[1, 0], &[2, 1])?.find()?;
    /// let mut image = [0; 2];
    /// let table = paired.begin(Direction::Back)?.feed(&[2, 2], &mut image)?;
    /// assert_eq!(image, [1, 1]);
    /// assert_eq!(table.feed(&[2], &mut [0]), Err(Refusal::TableLength));
    /// # Ok::<(), Refusal>(())
    /// ```
    pub fn feed(self, part: &[u32], out: &mut [u32]) -> Result<Self, Refusal> {
        let step = unsafe { raw::yokebean_session_feed(self.0 .0, part.as_ptr(), part.len(), out.as_mut_ptr(), out.len()) };
        Session::next(step).map(OpenTable)
    }

    /// The waiting session, from empty to loaded. Refusals 23, 1 to 4.
    ///
    /// ```
    /// use yokebean::{Direction, Refusal, Session, Size};
    ///
    /// let paired = Session::new().load(Size { p: 3, n: 2 }, &[1, 0], &[2, 1])?.find()?;
    /// let table = paired.begin(Direction::Forward)?.load(Size { p: 2, n: 1 }, &[1], &[0])?;
    /// assert_eq!(table.load(Size { p: 2, n: 1 }, &[1], &[0]), Err(Refusal::SessionNotEmpty));
    /// # Ok::<(), Refusal>(())
    /// ```
    pub fn load(self, size: Size, t1: &[u32], t2: &[u32]) -> Result<Self, Refusal> {
        self.0.load(size, t1, t2).map(OpenTable)
    }

    /// The waiting session, from loaded to paired, if the checker accepts. Refusals 21, 24, 3, 4, 6, 7, 8.
    ///
    /// ```
    /// use yokebean::{Direction, Refusal, Session, Size};
    ///
    /// let paired = Session::new().load(Size { p: 3, n: 2 }, &[1, 0], &[2, 1])?.find()?;
    /// let table = paired.begin(Direction::Forward)?;
    /// assert_eq!(table.propose(&[2, 1], &[1, 1]), Err(Refusal::SessionEmpty));
    /// let table = table.load(Size { p: 3, n: 2 }, &[1, 0], &[2, 1])?.propose(&[2, 1], &[1, 1])?;
    /// let mut image = [0; 2];
    /// table.end().forward(&[0, 1], &mut image)?;
    /// assert_eq!(image, [2, 1]);
    /// # Ok::<(), Refusal>(())
    /// ```
    pub fn propose(self, s: &[u32], r: &[u32]) -> Result<Self, Refusal> {
        self.0.propose(s, r).map(OpenTable)
    }

    /// The waiting session, from loaded to paired, with the finder's pair. Refusals 21, 24, 5, 6, 7.
    ///
    /// ```
    /// use yokebean::{Direction, Refusal, Session, Size};
    ///
    /// let paired = Session::new().load(Size { p: 3, n: 2 }, &[1, 0], &[2, 1])?.find()?;
    /// let table = paired.begin(Direction::Forward)?;
    /// assert_eq!(table.find(), Err(Refusal::SessionEmpty));
    /// let table = table.load(Size { p: 3, n: 2 }, &[2, 1], &[1, 0])?;
    /// assert_eq!(table.find(), table.propose(&[1, 2], &[1, 2]));
    /// # Ok::<(), Refusal>(())
    /// ```
    pub fn find(self) -> Result<Self, Refusal> {
        self.0.find().map(OpenTable)
    }

    /// Closes the table and adds one record with all its residues, also without a feed. A paired waiting session becomes the current one; another is
    /// dropped, and the old pair stays. Never refused.
    ///
    /// ```
    /// use yokebean::{Direction, Record, Session, Size};
    ///
    /// let paired = Session::new().load(Size { p: 3, n: 2 }, &[1, 0], &[2, 1])?.find()?;
    /// let table = paired.begin(Direction::Back)?.feed(&[2, 2], &mut [0; 2])?.feed(&[0, 1, 1, 2], &mut [0; 4])?;
    /// // loaded only, so dropped
    /// let next = table.load(Size { p: 2, n: 1 }, &[1], &[0])?.end();
    /// assert_eq!(next.records().last(), Some(Record { direction: Direction::Back, residues: 3 }));
    /// let mut image = [0; 2];
    /// next.forward(&[1, 1], &mut image)?;
    /// assert_eq!(image, [2, 2]);
    /// # Ok::<(), yokebean::Refusal>(())
    /// ```
    pub fn end(self) -> Session {
        Session(unsafe { raw::yokebean_session_end(self.0 .0) }.session)
    }

    /// Drops the table, without a record, the pair and the waiting session; keeps the ledger. Never refused.
    ///
    /// ```
    /// use yokebean::{Direction, Session, Size};
    ///
    /// let paired = Session::new().load(Size { p: 3, n: 2 }, &[1, 0], &[2, 1])?.find()?;
    /// let table = paired.begin(Direction::Forward)?.feed(&[1, 1], &mut [0; 2])?;
    /// assert_eq!(table.clear(), Session::new());
    /// # Ok::<(), yokebean::Refusal>(())
    /// ```
    pub fn clear(self) -> Session {
        self.0.clear()
    }

    /// The direction of the table.
    ///
    /// ```
    /// use yokebean::{Direction, Session, Size};
    ///
    /// let paired = Session::new().load(Size { p: 3, n: 2 }, &[1, 0], &[2, 1])?.find()?;
    /// assert_eq!(paired.begin(Direction::Back)?.direction(), Direction::Back);
    /// # Ok::<(), yokebean::Refusal>(())
    /// ```
    pub fn direction(&self) -> Direction {
        if self.0 .0.open == 1 {
            Direction::Forward
        } else {
            Direction::Back
        }
    }

    /// How many residues were fed so far.
    ///
    /// ```
    /// use yokebean::{Direction, Session, Size};
    ///
    /// let paired = Session::new().load(Size { p: 3, n: 2 }, &[1, 0], &[2, 1])?.find()?;
    /// let table = paired.begin(Direction::Forward)?;
    /// assert_eq!(table.residues(), 0);
    /// let table = table.feed(&[1, 1], &mut [0; 2])?.feed(&[0, 2, 1, 0], &mut [0; 4])?;
    /// assert_eq!(table.residues(), 3);
    /// # Ok::<(), yokebean::Refusal>(())
    /// ```
    pub fn residues(&self) -> u32 {
        self.0 .0.fed
    }

    /// The records of the ledger, in order; the open table has none yet.
    ///
    /// ```
    /// use yokebean::{Direction, Session, Size};
    ///
    /// let paired = Session::new().load(Size { p: 3, n: 2 }, &[1, 0], &[2, 1])?.find()?;
    /// let table = paired.begin(Direction::Forward)?.feed(&[1, 1], &mut [0; 2])?;
    /// assert_eq!(table.records().count(), 0);
    /// assert_eq!(table.end().records().count(), 1);
    /// # Ok::<(), yokebean::Refusal>(())
    /// ```
    pub fn records(&self) -> impl Iterator<Item = Record> + '_ {
        self.0.records()
    }

    /// The length of the report.
    ///
    /// ```
    /// use yokebean::{Direction, Session, Size};
    ///
    /// let paired = Session::new().load(Size { p: 3, n: 2 }, &[1, 0], &[2, 1])?.find()?;
    /// assert_eq!(paired.begin(Direction::Forward)?.report_length(), "0\n0\n".len());
    /// # Ok::<(), yokebean::Refusal>(())
    /// ```
    pub fn report_length(self) -> usize {
        self.0.report_length()
    }

    /// The report of the ledger, as [`Session::report`] writes it. Refusal 3.
    ///
    /// ```
    /// use yokebean::{Direction, Session, Size};
    ///
    /// let paired = Session::new().load(Size { p: 3, n: 2 }, &[1, 0], &[2, 1])?.find()?;
    /// let table = paired.back(&[2, 2], &mut [0; 2])?.begin(Direction::Forward)?.feed(&[1, 1], &mut [0; 2])?;
    /// let mut out = vec![0; table.report_length()];
    /// table.report(&mut out)?;
    /// assert_eq!(out, b"B 1\n0\n1\n");
    /// # Ok::<(), yokebean::Refusal>(())
    /// ```
    pub fn report(self, out: &mut [u8]) -> Result<(), Refusal> {
        self.0.report(out)
    }
}
