//! One module for each part of the library; each draws inputs, calls both sides and compares number and lists.

pub mod cards;
mod case;
pub mod catalogue;
pub mod differences;
pub mod earlier;
pub mod isomorphisms;
mod known;
pub mod limits;
pub mod maps;
pub mod matrices;
pub mod moduli;
mod order;
pub mod pairs;
pub mod powers;
pub mod program;
pub mod residues;
pub mod sessions;
pub mod sheets;
mod sizes;
pub mod triangles;

use std::collections::BTreeMap;
use std::fmt::Debug;

/// The numbers that a call can give. Each must have occurred with it.
const NUMBERS: [(&str, &[u32]); 40] = [
    ("every_p", &[1, 2]),
    ("product", &[0, 1, 2, 3, 4]),
    ("power", &[0, 1, 2, 3, 4]),
    ("substitute", &[0, 1, 2, 3, 4]),
    ("irreducible", &[0, 1, 2, 3, 4, 6]),
    ("catalogue_count", &[0, 1, 2, 29]),
    ("catalogue_list", &[0, 1, 2, 29, 3]),
    ("check", &[0, 1, 2, 3, 4, 6, 7, 8]),
    ("maps", &[0, 1, 2, 3, 4, 6, 7, 8]),
    ("isomorphisms", &[0]),
    ("isomorphisms_listed", &[0]),
    ("matrices", &[0, 1, 2, 3, 4, 6, 7, 8]),
    ("matrix_convert", &[0, 1, 2, 3, 9, 10, 4]),
    ("matrix_as_session", &[0]),
    ("differences", &[0, 2, 9, 10]),
    ("restore", &[0, 2, 9, 10]),
    ("sheet", &[0, 1, 2, 3, 4, 6, 7, 8]),
    ("find", &[0, 1, 2, 3, 4, 5, 6, 7]),
    ("exchanged", &[0]),
    ("triangle", &[0]),
    ("triangle_tables", &[0]),
    ("session_load", &[0, 23, 1, 2, 3, 4]),
    ("session_propose", &[0, 21, 24, 3, 4, 6, 7, 8]),
    ("session_find", &[0, 21, 24, 5, 6, 7]),
    ("session_forward", &[0, 21, 22, 27, 9, 10, 4, 25]),
    ("session_back", &[0, 21, 22, 27, 9, 10, 4, 25]),
    ("session_begin_forward", &[0, 21, 22, 27, 25]),
    ("session_begin_back", &[0, 21, 22, 27, 25]),
    ("session_feed", &[0, 26, 9, 10, 4]),
    ("session_end", &[0, 26]),
    ("session_report", &[0, 3]),
    ("waiting_load", &[0, 23, 1, 2, 3, 4]),
    ("waiting_propose", &[0, 21, 24, 3, 4, 6, 7, 8]),
    ("waiting_find", &[0, 21, 24, 5, 6, 7]),
    ("table_forward", &[0]),
    ("table_back", &[0]),
    ("card_read", &[0, 3, 11, 1, 28, 12, 13, 4]),
    ("card_write", &[0, 1, 2, 12, 3, 4]),
    ("fieldcard", &[0, 11, 1, 28, 12, 13, 4, 5, 6, 7, 8]),
    ("fieldcard_ring", &[0]),
];

/// Comparisons so far, by call and by the number that the call gave.
#[derive(Default)]
pub struct Tally {
    seen: BTreeMap<(&'static str, u32), u64>,
}

impl Tally {
    /// Ends the run where the library's answer is not the document's.
    pub fn compare<A: Debug + PartialEq>(&mut self, call: &'static str, number: u32, input: &dyn Debug, library: &A, document: &A) {
        assert!(library == document, "{call} on {input:?}\n  library:  {library:?}\n  document: {document:?}");
        *self.seen.entry((call, number)).or_default() += 1;
    }

    /// Takes the comparisons of another tally too.
    pub fn join(&mut self, other: Tally) {
        for (key, count) in other.seen {
            *self.seen.entry(key).or_default() += count;
        }
    }

    /// Prints the counts.
    pub fn report(&self) {
        let mut calls: BTreeMap<&str, String> = BTreeMap::new();
        for ((call, number), count) in &self.seen {
            *calls.entry(call).or_default() += &format!(" {number}:{count}");
        }
        for (call, counts) in calls {
            println!("{call:<22}{counts}");
        }
        for (call, numbers) in NUMBERS {
            for number in numbers {
                assert!(self.seen.contains_key(&(call, *number)), "{call} never gave {number}");
            }
        }
        println!("{} calls agree with the independent implementation", self.seen.values().sum::<u64>());
    }
}
