//! Compares the proved library with `document`, call by call, on pseudo-random inputs with fixed seeds, valid and damaged.
//! Usage: independent [FACTOR]: FACTOR times as many calls. The first difference ends the run with a non-zero status.

mod compare;
mod document;
mod examples;
mod library;
mod random;

use compare::Tally;
use std::thread;

type Part = fn(u64, &mut Tally);

/// Each part, and how many inputs it draws; none waits for another, so that all processors have work.
const PARTS: [(Part, u64); 16] = [
    (compare::residues::run, 12_000),
    (compare::moduli::run, 6_000),
    (compare::catalogue::run, 2_000),
    (compare::pairs::run, 12_000),
    (compare::maps::run, 1_000),
    (compare::isomorphisms::run, 1),
    (compare::matrices::run, 1_000),
    (compare::differences::run, 2_000),
    (compare::sheets::run, 1_000),
    (compare::cards::run, 30_000),
    (compare::sessions::run, 120_000),
    (compare::powers::run, 60),
    (compare::triangles::run, 1),
    (compare::earlier::run, 1),
    (compare::program::run, 200),
    (compare::limits::run, 1),
];

fn compared(part: Part, number: u64) -> Tally {
    let mut tally = Tally::default();
    part(number, &mut tally);
    tally
}

fn main() {
    let factor: u64 = std::env::args().nth(1).map_or(1, |word| word.parse().expect("a number of times"));
    examples::hold();
    let mut tally = Tally::default();
    thread::scope(|scope| {
        let running = PARTS.map(|(part, number)| scope.spawn(move || compared(part, number * factor)));
        for part in running {
            tally.join(part.join().expect("library and document agree"));
        }
    });
    tally.report();
}
