//! The calls of include/yokebean.h, as C has them. Each list is a pointer and the number of its words or bytes, and must be that long; the pointer of an
//! empty list is not null and is aligned; a list that a call writes must not overlap another list of the call.

type Words = *const u32;
type Lent = *mut u32;

/// A record of the ledger: direction 0 is forward, 1 back.
#[repr(C)]
#[derive(Clone, Copy, Debug, PartialEq, Eq)]
pub struct Record {
    pub direction: u32,
    pub residues: u32,
}

/// What a session holds: state 0 is empty, 1 loaded, 2 paired; the first n words of each array count.
#[repr(C)]
#[derive(Clone, Copy, Debug, PartialEq, Eq)]
pub struct Held {
    pub state: u32,
    pub p: u32,
    pub n: u32,
    pub t1: [u32; 16],
    pub t2: [u32; 16],
    pub s: [u32; 16],
    pub r: [u32; 16],
}

/// A session's value: what the current session holds, as in [`Held`]; the ledger, of which the first `records` records count; and the open table.
/// `open` is 0 without an open table, 1 with a forward one, 2 with a back one; `fed` is the number of residues fed to it so far, and `waiting` what
/// the waiting session holds. The moduli and the pair of a paired value are not tested again for divisors and congruences.
#[repr(C)]
#[derive(Clone, Copy, Debug, PartialEq, Eq)]
pub struct Session {
    pub state: u32,
    pub p: u32,
    pub n: u32,
    pub t1: [u32; 16],
    pub t2: [u32; 16],
    pub s: [u32; 16],
    pub r: [u32; 16],
    pub records: u32,
    pub ledger: [Record; 512],
    pub open: u32,
    pub fed: u32,
    pub waiting: Held,
}

/// A session call's answer: the number and the next session; refused, the session that the call took.
#[repr(C)]
#[derive(Clone, Copy, Debug, PartialEq, Eq)]
pub struct Step {
    pub number: u32,
    pub session: Session,
}

/// The count's answer.
#[repr(C)]
#[derive(Clone, Copy, Debug, PartialEq, Eq)]
pub struct Count {
    pub number: u32,
    pub count: u32,
}

/// The reader's answer.
#[repr(C)]
#[derive(Clone, Copy, Debug, PartialEq, Eq)]
pub struct Card {
    pub number: u32,
    pub p: u32,
    pub n: u32,
    pub kind: u32,
}

#[rustfmt::skip]
extern "C" {
    pub fn yokebean_substitute(p: u32, n: u32, t: Words, t_len: usize, s: Words, s_len: usize, u: Words, u_len: usize, out: Lent, out_len: usize) -> u32;
    pub fn yokebean_product(p: u32, n: u32, t: Words, t_len: usize, u: Words, u_len: usize, v: Words, v_len: usize, out: Lent, out_len: usize) -> u32;
    pub fn yokebean_power(p: u32, n: u32, t: Words, t_len: usize, u: Words, u_len: usize, k: u64, out: Lent, out_len: usize) -> u32;
    pub fn yokebean_irreducible(p: u32, n: u32, t: Words, t_len: usize) -> u32;

    pub fn yokebean_catalogue_count(p: u32, n: u32) -> Count;
    pub fn yokebean_catalogue_list(p: u32, n: u32, out: Lent, out_len: usize) -> u32;

    pub fn yokebean_check(p: u32, n: u32, t1: Words, t1_len: usize, t2: Words, t2_len: usize, s: Words, s_len: usize, r: Words, r_len: usize) -> u32;
    pub fn yokebean_maps(p: u32, n: u32, t1: Words, t1_len: usize, t2: Words, t2_len: usize, s: Words, s_len: usize, r: Words, r_len: usize, out: Lent, out_len: usize) -> u32;
    pub fn yokebean_matrices(p: u32, n: u32, t1: Words, t1_len: usize, t2: Words, t2_len: usize, s: Words, s_len: usize, r: Words, r_len: usize, forward: Lent, forward_len: usize, back: Lent, back_len: usize) -> u32;
    pub fn yokebean_matrix_convert(p: u32, n: u32, matrix: Words, matrix_len: usize, table: Words, table_len: usize, out: Lent, out_len: usize) -> u32;
    pub fn yokebean_differences(n: u32, table: Words, table_len: usize, out: Lent, out_len: usize) -> u32;
    pub fn yokebean_restore(n: u32, differences: Words, differences_len: usize, out: Lent, out_len: usize) -> u32;
    pub fn yokebean_sheet(p: u32, n: u32, t1: Words, t1_len: usize, t2: Words, t2_len: usize, s: Words, s_len: usize, r: Words, r_len: usize, out: *mut u8, out_len: usize) -> u32;
    pub fn yokebean_sheet_length(n: u32) -> usize;
    pub fn yokebean_find(p: u32, n: u32, t1: Words, t1_len: usize, t2: Words, t2_len: usize, s: Lent, s_len: usize, r: Lent, r_len: usize) -> u32;

    pub fn yokebean_session_new() -> Session;
    pub fn yokebean_session_load(session: Session, p: u32, n: u32, t1: Words, t1_len: usize, t2: Words, t2_len: usize) -> Step;
    pub fn yokebean_session_propose(session: Session, s: Words, s_len: usize, r: Words, r_len: usize) -> Step;
    pub fn yokebean_session_find(session: Session) -> Step;
    pub fn yokebean_session_forward(session: Session, table: Words, table_len: usize, out: Lent, out_len: usize) -> Step;
    pub fn yokebean_session_back(session: Session, table: Words, table_len: usize, out: Lent, out_len: usize) -> Step;
    pub fn yokebean_session_begin_forward(session: Session) -> Step;
    pub fn yokebean_session_begin_back(session: Session) -> Step;
    pub fn yokebean_session_feed(session: Session, table: Words, table_len: usize, out: Lent, out_len: usize) -> Step;
    pub fn yokebean_session_end(session: Session) -> Step;
    pub fn yokebean_session_report(session: Session, out: *mut u8, out_len: usize) -> Step;
    pub fn yokebean_session_report_length(session: Session) -> usize;
    pub fn yokebean_session_clear(session: Session) -> Step;

    pub fn yokebean_card_read(bytes: *const u8, bytes_len: usize, words: Lent, words_len: usize) -> Card;
    pub fn yokebean_card_write(p: u32, n: u32, kind: u32, words: Words, words_len: usize, bytes: *mut u8, bytes_len: usize) -> u32;
}
