//! The proved library as the tests see it: numbers for answers, and session calls with the session that is given back.

pub use yokebean::raw::{Held, Record, Session, Step};
use yokebean::{raw, Refusal};

/// The number of an answer: 0 where it is accepted.
pub fn number<T>(answer: Result<T, Refusal>) -> u32 {
    answer.map_or_else(Refusal::number, |_| 0)
}

/// The number and the count.
pub fn catalogue_count(p: u32, n: u32) -> (u32, u32) {
    let raw::Count { number, count } = unsafe { raw::yokebean_catalogue_count(p, n) };
    (number, count)
}

pub fn new() -> Session {
    unsafe { raw::yokebean_session_new() }
}

pub fn load(session: Session, p: u32, n: u32, t1: &[u32], t2: &[u32]) -> Step {
    unsafe { raw::yokebean_session_load(session, p, n, t1.as_ptr(), t1.len(), t2.as_ptr(), t2.len()) }
}

pub fn propose(session: Session, s: &[u32], r: &[u32]) -> Step {
    unsafe { raw::yokebean_session_propose(session, s.as_ptr(), s.len(), r.as_ptr(), r.len()) }
}

pub fn find(session: Session) -> Step {
    unsafe { raw::yokebean_session_find(session) }
}

pub fn convert(session: Session, forward: bool, table: &[u32], out: &mut [u32]) -> Step {
    let call = if forward { raw::yokebean_session_forward } else { raw::yokebean_session_back };
    unsafe { call(session, table.as_ptr(), table.len(), out.as_mut_ptr(), out.len()) }
}

pub fn begin(session: Session, forward: bool) -> Step {
    let call = if forward { raw::yokebean_session_begin_forward } else { raw::yokebean_session_begin_back };
    unsafe { call(session) }
}

pub fn feed(session: Session, part: &[u32], out: &mut [u32]) -> Step {
    unsafe { raw::yokebean_session_feed(session, part.as_ptr(), part.len(), out.as_mut_ptr(), out.len()) }
}

pub fn end(session: Session) -> Step {
    unsafe { raw::yokebean_session_end(session) }
}

pub fn report(session: Session, out: &mut [u8]) -> Step {
    unsafe { raw::yokebean_session_report(session, out.as_mut_ptr(), out.len()) }
}

pub fn report_length(session: Session) -> usize {
    unsafe { raw::yokebean_session_report_length(session) }
}

pub fn clear(session: Session) -> Step {
    unsafe { raw::yokebean_session_clear(session) }
}
