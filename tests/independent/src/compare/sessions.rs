//! Long lists of session calls, refused ones, tables in parts and forged values included; number, whole session and lists are compared after every
//! call, the parts of a table with the pair that was current at its begin, and the totals of each report with the residues of the single conversions
//! and of the tables that were ended.

mod calls;
mod draw;
mod forged;
mod held;
mod ledgers;
mod lengths;
mod limit;
mod made;
mod otherwise;
mod proposals;
mod running;
mod tables;
mod value;

use super::Tally;
use crate::random::Random;
pub use calls::Calls;
use draw::draw;
use forged::forged;

pub fn run(number: u64, tally: &mut Tally) {
    ledgers::run(tally);
    proposals::run(tally);
    tables::run(tally);
    lengths::run(tally);
    limit::run(tally);
    otherwise::run(tally);
    let random = &mut Random::new(0x94d0_49bb_1331_11eb);
    let mut calls = Calls::new(tally);
    let mut forging = true;
    for _ in 0..number {
        if random.once_in(300) {
            calls.report(tally);
            // every other list of calls has no forged values
            forging = !forging;
            calls = Calls::new(tally);
        } else if forging && random.once_in(15) {
            calls.forge(forged(random, calls.current));
        } else {
            draw(&mut calls, random, tally);
        }
    }
    calls.report(tally);
}
