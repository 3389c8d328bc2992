//! The open table as the answers of the calls tell of it: the pair that was current at begin, and the residues of the feeds since. No value of a
//! session is looked at after begin; so a feed under another pair shows here by itself.

use crate::compare::Tally;
use crate::document::held::Pair;
use crate::document::session::Session as Document;

pub struct Running {
    pair: Pair,
    pub forward: bool,
    pub residues: u64,
}

impl Running {
    /// At begin, by the session that it took.
    pub fn begun(session: &Document, forward: bool) -> Self {
        Running { pair: session.held.pair().unwrap().clone(), forward, residues: 0 }
    }

    /// Of a value made otherwise, where it has one.
    pub fn found(session: &Document) -> Option<Self> {
        session.open.as_ref().map(|table| Running { residues: table.fed.into(), ..Running::begun(session, table.forward) })
    }

    /// After a feed that answered 0: it wrote the images under the pair that was current at begin.
    pub fn fed(&mut self, part: &[u32], image: &[u32], tally: &mut Tally) {
        let call = if self.forward { "table_forward" } else { "table_back" };
        tally.compare(call, 0, &(&self.pair, part), &image, &&self.pair.images(self.forward, part)[..]);
        self.residues += self.pair.residues(part) as u64;
    }
}
