//! The session as a value: what is held, the ledger of request S-2 as a list of its records, and the open table of request S-8 with the session that
//! waits meanwhile.

use super::held::{accepted, Held};

/// A record is whether the conversion was forward, and its number of residues.
#[derive(Clone, Debug, PartialEq)]
pub struct Session {
    pub held: Held,
    pub ledger: Vec<(bool, u32)>,
    pub open: Option<OpenTable>,
}

/// Its direction, the residues that were fed so far, and what the waiting session holds.
#[derive(Clone, Debug, PartialEq)]
pub struct OpenTable {
    pub forward: bool,
    pub fed: u32,
    pub waiting: Held,
}

/// A call's number, and the next session where it is 0.
pub type Step = Result<Session, u32>;

/// The same, with what a conversion writes.
pub type Conversion = Result<(Vec<u32>, Session), u32>;

impl Session {
    pub fn new() -> Self {
        Session { held: Held::Empty, ledger: Vec::new(), open: None }
    }

    /// "While a table is open, load, propose and find act on a waiting session."
    pub fn acted_on(&self) -> &Held {
        self.open.as_ref().map_or(&self.held, |table| &table.waiting)
    }

    /// What load, propose and find act on becomes another; all else stays.
    fn holding(&self, held: Held) -> Self {
        let mut next = self.clone();
        match &mut next.open {
            Some(table) => table.waiting = held,
            None => next.held = held,
        }
        next
    }

    pub fn load(&self, p: u32, n: u32, t1: &[u32], t2: &[u32]) -> Step {
        self.acted_on().load(p, n, t1, t2).map(|held| self.holding(held))
    }

    pub fn propose(&self, s: &[u32], r: &[u32]) -> Step {
        self.acted_on().propose(s, r).map(|held| self.holding(held))
    }

    pub fn find(&self) -> Step {
        self.acted_on().find().map(|held| self.holding(held))
    }

    fn unless_open(&self) -> Result<(), u32> {
        accepted(if self.open.is_some() { 27 } else { 0 })
    }

    fn unless_full(&self) -> Result<(), u32> {
        accepted(if self.ledger.len() == 512 { 25 } else { 0 })
    }

    fn recorded(&self, forward: bool, residues: u32) -> Self {
        let mut next = self.clone();
        next.ledger.push((forward, residues));
        next
    }

    /// "Every conversion that succeeds adds one record."
    pub fn convert(&self, forward: bool, table: &[u32], lent: usize) -> Conversion {
        let pair = self.held.pair()?;
        self.unless_open()?;
        accepted(pair.table_number(table, lent, u32::MAX))?;
        self.unless_full()?;
        Ok((pair.images(forward, table), self.recorded(forward, pair.residues(table) as u32)))
    }

    /// "Begin opens a table in one direction"; "a waiting session that starts empty".
    pub fn begin(&self, forward: bool) -> Step {
        self.held.pair()?;
        self.unless_open()?;
        self.unless_full()?;
        Ok(Session { open: Some(OpenTable { forward, fed: 0, waiting: Held::Empty }), ..self.clone() })
    }

    /// "A feed that would bring its table above 4,294,967,295 residues is a 9."
    pub fn feed(&self, part: &[u32], lent: usize) -> Conversion {
        let table = self.open.as_ref().ok_or(26u32)?;
        let pair = self.held.pair()?;
        accepted(pair.table_number(part, lent, u32::MAX - table.fed))?;
        let fed = table.fed + pair.residues(part) as u32;
        Ok((pair.images(table.forward, part), Session { open: Some(OpenTable { fed, ..table.clone() }), ..self.clone() }))
    }

    /// "End makes a paired waiting session the current one and drops one that is not paired."
    pub fn end(&self) -> Step {
        let table = self.open.as_ref().ok_or(26u32)?;
        let held = if table.waiting.pair().is_ok() { &table.waiting } else { &self.held };
        Ok(Session { held: held.clone(), open: None, ..self.recorded(table.forward, table.fed) })
    }

    /// "Clear keeps the ledger"; it "drops both and the open table, without a record".
    pub fn clear(&self) -> Session {
        Session { ledger: self.ledger.clone(), ..Session::new() }
    }

    /// The residues of the records of one direction.
    pub fn total(&self, forward: bool) -> u64 {
        self.ledger.iter().filter(|record| record.0 == forward).map(|record| u64::from(record.1)).sum()
    }

    fn text(&self) -> String {
        let line = |&(forward, residues): &(bool, u32)| format!("{} {residues}\n", if forward { 'F' } else { 'B' });
        let lines: String = self.ledger.iter().map(line).collect();
        format!("{lines}{}\n{}\n", self.total(true), self.total(false))
    }

    /// The report's number, and what the output list holds after the call.
    pub fn report(&self, out: &[u8]) -> (u32, Vec<u8>) {
        let text = self.text();
        if out.len() == text.len() {
            (0, text.into_bytes())
        } else {
            (3, out.to_vec())
        }
    }

    pub fn report_length(&self) -> usize {
        self.text().len()
    }
}
