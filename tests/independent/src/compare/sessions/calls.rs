//! A list of session calls. Each is made on both sides; number, whole session and lists are compared, and the totals of each report with the
//! residues of the calls so far.

use super::made::{self, Made};
use super::running::Running;
use super::value::{counts_as, NEW};
use crate::compare::Tally;
use crate::document::session::{Conversion, Session as Document, Step as DocumentStep};
use crate::library::{self, Session as Value, Step};

/// The session that the last call gave, and, by the answers of the calls alone, the open table and the residues that a report must count, forward and
/// back: those of the single conversions that answered 0 and of the feeds of tables that were ended.
pub struct Calls {
    pub current: Value,
    running: Option<Running>,
    sums: [u64; 2],
}

/// The totals at the end of a report.
fn totals(report: &[u8]) -> [u64; 2] {
    let lines: Vec<&str> = std::str::from_utf8(report).unwrap().lines().collect();
    [2, 1].map(|back| lines[lines.len() - back].parse().unwrap())
}

impl Calls {
    pub fn new(tally: &mut Tally) -> Self {
        let current = library::new();
        tally.compare("session_new", 0, &(), &current, &NEW);
        Calls { current, running: None, sums: [0, 0] }
    }

    /// A value made otherwise begins with the open table and the totals that it counts as.
    pub fn forge(&mut self, current: Value) {
        let session = counts_as(&current);
        *self = Calls { current, running: Running::found(&session), sums: [true, false].map(|forward| session.total(forward)) };
    }

    /// By the answers of the calls.
    pub fn is_open(&self) -> bool {
        self.running.is_some()
    }

    fn count(&mut self, forward: bool, residues: u64) {
        self.sums[usize::from(!forward)] += residues;
    }

    /// What the library must answer: where it is refused, with the value that it took.
    fn wanted(&self, step: DocumentStep, made: Made) -> Step {
        match step {
            Ok(next) => {
                let session = made(&self.current, &next);
                assert_eq!(counts_as(&session), next);
                Step { number: 0, session }
            }
            Err(number) => Step { number, session: self.current },
        }
    }

    /// The number on which both sides agree.
    fn step(&mut self, call: &'static str, want: DocumentStep, made: Made, got: Step, tally: &mut Tally) -> u32 {
        let want = self.wanted(want, made);
        tally.compare(call, want.number, &self.current, &got, &want);
        self.current = got.session;
        got.number
    }

    /// The same, and what the list that was lent holds after the call.
    fn conversion(
        &mut self,
        call: &'static str,
        want: Conversion,
        made: Made,
        (table, lent): (&[u32], Vec<u32>),
        got: (Step, Vec<u32>),
        tally: &mut Tally,
    ) -> (u32, Vec<u32>) {
        let (step, image) = want.map_or_else(|number| (Err(number), lent), |(image, next)| (Ok(next), image));
        let want = (self.wanted(step, made), image);
        tally.compare(call, want.0.number, &(self.current, table), &got, &want);
        self.current = got.0.session;
        (got.0.number, got.1)
    }

    pub fn load(&mut self, p: u32, n: u32, t1: &[u32], t2: &[u32], tally: &mut Tally) -> u32 {
        let call = if self.is_open() { "waiting_load" } else { "session_load" };
        let want = counts_as(&self.current).load(p, n, t1, t2);
        self.step(call, want, made::by_holding, library::load(self.current, p, n, t1, t2), tally)
    }

    pub fn propose(&mut self, s: &[u32], r: &[u32], tally: &mut Tally) -> u32 {
        let call = if self.is_open() { "waiting_propose" } else { "session_propose" };
        let want = counts_as(&self.current).propose(s, r);
        self.step(call, want, made::by_holding, library::propose(self.current, s, r), tally)
    }

    pub fn find(&mut self, tally: &mut Tally) -> u32 {
        let call = if self.is_open() { "waiting_find" } else { "session_find" };
        self.step(call, counts_as(&self.current).find(), made::by_holding, library::find(self.current), tally)
    }

    /// The feeds of an open table then count nowhere.
    pub fn clear(&mut self, tally: &mut Tally) {
        self.step("session_clear", Ok(counts_as(&self.current).clear()), made::by_holding, library::clear(self.current), tally);
        self.running = None;
    }

    /// The number, and what the output list holds after the call.
    pub fn convert(&mut self, forward: bool, table: &[u32], lent: Vec<u32>, tally: &mut Tally) -> (u32, Vec<u32>) {
        let (taken, mut output) = (self.current, lent.clone());
        let want = counts_as(&taken).convert(forward, table, lent.len());
        let got = library::convert(taken, forward, table, &mut output);
        let call = if forward { "session_forward" } else { "session_back" };
        let (number, output) = self.conversion(call, want, made::by_converting, (table, lent), (got, output), tally);
        if number == 0 {
            self.count(forward, table.len() as u64 / u64::from(taken.n));
        }
        (number, output)
    }

    pub fn begin(&mut self, forward: bool, tally: &mut Tally) -> u32 {
        let session = counts_as(&self.current);
        let call = if forward { "session_begin_forward" } else { "session_begin_back" };
        let number = self.step(call, session.begin(forward), made::by_begin, library::begin(self.current, forward), tally);
        if number == 0 {
            self.running = Some(Running::begun(&session, forward));
        }
        number
    }

    /// The same, and what it wrote is compared with the pair that was current at begin.
    pub fn feed(&mut self, part: &[u32], lent: Vec<u32>, tally: &mut Tally) -> (u32, Vec<u32>) {
        let (taken, mut output) = (self.current, lent.clone());
        let want = counts_as(&taken).feed(part, lent.len());
        let got = library::feed(taken, part, &mut output);
        let (number, output) = self.conversion("session_feed", want, made::by_feed, (part, lent), (got, output), tally);
        if number == 0 {
            self.running.as_mut().expect("a table that began").fed(part, &output, tally);
        }
        (number, output)
    }

    pub fn end(&mut self, tally: &mut Tally) -> u32 {
        let number = self.step("session_end", counts_as(&self.current).end(), made::by_end, library::end(self.current), tally);
        if number == 0 {
            let table = self.running.take().expect("a table that began");
            self.count(table.forward, table.residues);
        }
        number
    }

    /// The report into lists of its length, one too short and one too long.
    pub fn report(&mut self, tally: &mut Tally) -> Vec<u8> {
        let taken = self.current;
        let session = counts_as(&taken);
        let length = library::report_length(taken);
        tally.compare("report_length", 0, &taken, &length, &session.report_length());
        for wrong in [length - 1, length + 1] {
            self.report_into(&session, wrong, tally);
        }
        let text = self.report_into(&session, length, tally);
        tally.compare("report_totals", 0, &taken, &totals(&text), &self.sums);
        text
    }

    fn report_into(&mut self, session: &Document, length: usize, tally: &mut Tally) -> Vec<u8> {
        let taken = self.current;
        let mut out = vec![b'#'; length];
        let (number, text) = session.report(&out);
        let got = (library::report(taken, &mut out), out);
        tally.compare("session_report", number, &taken, &got, &(Step { number, session: taken }, text));
        self.current = got.0.session;
        got.1
    }
}
