//! Examples A to J of document 01, D as request S-6, F as request S-3 and J as request S-9 has it, the report, the sheet and the maps of A, degrees
//! that are powers of p, a table in parts under A while D waits, the matrices of A and D, a table as differences, catalogues, and wide cards, on the
//! independent implementation itself.

use crate::document::eigenvector::zeta_and_a;
use crate::document::finder::{self, method, Method};
use crate::document::{self, card, catalogue, differences, earlier, is_prime, maps, matrix, model::Model, session::Session, sheet, tower};

/// A modulus for p = 2, a and α of each round, and P.
type Tower = (&'static [u32], &'static [[&'static [u32]; 2]], &'static [u32]);

/// X² + X + 1; A, X⁴ + X + 1; B, X⁴ + X³ + 1; C, X⁴ + X³ + X² + X + 1.
const TOWERS: [Tower; 4] = [
    (&[1, 1], &[[&[1, 0], &[0, 1]]], &[0, 1]),
    (&[1, 1, 0, 0], &[[&[1, 0, 0, 0], &[0, 1, 1, 0]], [&[0, 1, 1, 0], &[0, 1, 0, 0]]], &[0, 1, 0, 0]),
    (&[1, 0, 0, 1], &[[&[1, 0, 0, 0], &[0, 1, 0, 1]], [&[0, 1, 0, 1], &[0, 0, 1, 1]]], &[1, 0, 0, 1]),
    (&[1, 1, 1, 1], &[[&[1, 0, 0, 0], &[0, 0, 1, 1]], [&[0, 0, 1, 1], &[0, 1, 0, 1]]], &[0, 0, 0, 1]),
];

/// Degrees that are powers of p, as docs/READING.md works them out by hand.
fn towers_hold() {
    for (t, rounds, expressed) in TOWERS {
        let model = Model::new(2, t);
        let listed: Vec<_> = rounds.iter().map(|[a, alpha]| (a.to_vec(), alpha.to_vec())).collect();
        assert_eq!(tower::rounds(&model, tower::solution), listed);
        assert_eq!(tower::express(&model, &listed.last().unwrap().1), expressed);
    }
    let [a, b, c] = [TOWERS[1].0, TOWERS[2].0, TOWERS[3].0];
    let found = |t1: &[u32], t2: &[u32]| document::find(2, t1.len() as u32, t1, t2, &vec![9; t1.len()], &vec![9; t1.len()]);
    assert_eq!(found(&[1, 1], &[1, 1]), (0, vec![0, 1], vec![0, 1]));
    assert_eq!(found(a, b), (0, vec![0, 0, 1, 1], vec![1, 0, 0, 1]));
    assert_eq!(found(b, c), (0, vec![1, 1, 0, 0], vec![1, 1, 0, 0]));
    assert_eq!(found(a, c), (0, vec![0, 1, 0, 1], vec![0, 0, 0, 1]));
    assert_eq!([found(&[0, 0], &[1, 1]).0, found(&[1, 1], &[0, 0]).0, found(&[1, 1, 0], &[1, 1, 0]).0], [6, 7, 5]);
    assert_eq!(
        [method(2, 1), method(3, 2), method(2, 2), method(3, 9)],
        [Method::Eigenvector, Method::Eigenvector, Method::Tower, Method::Tower].map(Some)
    );
    assert_eq!([(2, 3), (2, 6), (2, 12), (3, 6), (3, 12), (5, 10)].map(|(p, n)| method(p, n)), [None; 6]);
}

/// A table in parts under A's pair. Meanwhile D is loaded and found: it converts after the end, or, where it was only loaded, A's pair does still.
fn table_holds() {
    let paired = Session::new().load(3, 2, &[1, 0], &[2, 1]).unwrap().find().unwrap();
    assert_eq!((paired.feed(&[1, 1], 2), paired.end()), (Err(26), Err(26)));
    let (first, table) = paired.begin(true).unwrap().feed(&[1, 1], 2).unwrap();
    assert_eq!((table.find(), table.convert(true, &[1], 0), table.begin(false)), (Err(21), Err(27), Err(27)));
    let loaded = table.load(7, 3, &[5, 0, 0], &[4, 0, 0]).unwrap();
    let (second, table) = loaded.find().unwrap().feed(&[0, 2], 2).unwrap();
    assert_eq!((&first[..], &second[..]), (&[2, 2][..], &[2, 1][..]));
    let (image, session) = table.end().unwrap().convert(true, &[0, 1, 0], 3).unwrap();
    assert_eq!(image, [0, 0, 2]);
    assert_eq!(session.report(&[0; 12]), (0, b"F 2\nF 1\n3\n0\n".to_vec()));
    let (image, session) = loaded.end().unwrap().convert(true, &[1, 1], 2).unwrap();
    assert_eq!(image, [2, 2]);
    assert_eq!(session.report(&[0; 12]), (0, b"F 1\nF 1\n2\n0\n".to_vec()));
    assert_eq!(table.clear(), Session::new());
}

/// The matrices of A and of D, which convert as the sessions of A and D do.
fn matrices_hold() {
    let a = matrix::matrices(3, 2, [&[1, 0], &[2, 1], &[1, 2], &[1, 2]], [&[9; 4]; 2]);
    assert_eq!(a, (0, [vec![1, 1, 0, 2], vec![1, 1, 0, 2]]));
    assert_eq!(matrix::convert(3, 2, &a.1[0], &[1, 1, 0, 2], &[9; 4]), (0, vec![2, 2, 2, 1]));
    let d = matrix::matrices(7, 3, [&[5, 0, 0], &[4, 0, 0], &[0, 0, 2], &[0, 0, 3]], [&[9; 9]; 2]);
    assert_eq!(d, (0, [vec![1, 0, 0, 0, 0, 5, 0, 2, 0], vec![1, 0, 0, 0, 0, 4, 0, 3, 0]]));
    assert_eq!(matrix::convert(7, 3, &d.1[0], &[1, 2, 3], &[9; 3]), (0, vec![1, 1, 4]));
    assert_eq!(matrix::convert(7, 3, &d.1[1], &[1, 1, 4], &[9; 3]), (0, vec![1, 2, 3]));
    assert_eq!([&[7, 0, 0, 0][..], &[1; 3]].map(|m| matrix::convert(7, 2, m, &[], &[]).0), [4, 3]);
}

/// Three groups of two words as differences and again, one group, which stays, none, and the numbers in their order.
fn differences_hold() {
    let (table, stored) = ([100, 7, 103, 6, 0, u32::MAX], [100, 7, 3, u32::MAX, u32::MAX - 102, u32::MAX - 6]);
    assert_eq!(differences::differences(2, &table, &[9; 6]), (0, stored.to_vec()));
    assert_eq!(differences::restore(2, &stored, &[9; 6]), (0, table.to_vec()));
    assert_eq!(differences::differences(6, &table, &[9; 6]), (0, table.to_vec()));
    for call in [differences::differences, differences::restore] {
        assert_eq!(call(1, &[], &[]), (0, vec![]));
        let numbers = [(17, 16_385), (16, 16_400), (3, 16_384), (3, 16_383)].map(|(n, length)| call(n, &vec![1; length], &[9]).0);
        assert_eq!(numbers, [2, 9, 9, 10]);
        assert_eq!(call(3, &[1; 4], &[9; 3]), (9, vec![9; 3]));
    }
}

/// The models of three sizes, how many there are of two that are as large as may be, and the numbers in their order.
fn catalogues_hold() {
    assert_eq!(catalogue::list(2, 4, &[9; 12]), (0, vec![1, 1, 0, 0, 1, 0, 0, 1, 1, 1, 1, 1]));
    assert_eq!(catalogue::list(3, 2, &[9; 6]), (0, vec![1, 0, 2, 1, 2, 2]));
    assert_eq!(catalogue::list(5, 1, &[9; 5]), (0, vec![0, 1, 2, 3, 4]));
    assert_eq!([(2, 16), (65_521, 1)].map(|(p, n)| catalogue::count(p, n)), [(0, 4_080), (0, 65_521)]);
    let numbers = [(9, 17), (65_537, 17), (65_537, 1), (257, 2), (3, 11), (2, 4)].map(|(p, n)| catalogue::list(p, n, &[9; 11]));
    assert_eq!(numbers, [1, 2, 29, 29, 29, 3].map(|number| (number, vec![9; 11])));
    assert_eq!(catalogue::count(3, 11), (29, 0));
}

/// A wide card of the smallest p, with T1 = X + 1 and T2 = X + 65,536 in 17 bits each, and the same header with p = 17; what is too short for it; and
/// how long cards are.
fn wide_cards_hold() {
    let mut bytes = [0x00, 0x00, 0x10, 0x00, 0x10, 0x10, 0x00, 0x00, 0xC0, 0x00, 0x00];
    assert_eq!(card::card(65_537, 1, 1, &[1, 65_536]), bytes);
    assert_eq!(card::read(&bytes, 64), Ok(card::Card { p: 65_537, n: 1, kind: 1, words: vec![1, 65_536] }));
    bytes[2..5].copy_from_slice(&[0x00, 0x01, 0x10]);
    assert_eq!([&bytes[..], &bytes[..5], &bytes[..3]].map(|card| card::read(card, 64)), [28, 11, 11].map(Err));
    assert_eq!(card::card(1_048_573, 2, 2, &[0; 8])[..6], [0x00, 0x00, 0xFF, 0xFF, 0xD1, 0x20]);
    assert_eq!([65_521, 65_537, 1_048_573].map(|p| card::card_length(p, 16, 2)), [131, 142, 166]);
}

pub fn hold() {
    towers_hold();
    table_holds();
    matrices_hold();
    differences_hold();
    catalogues_hold();
    wide_cards_hold();
    let pair = finder::pair(3, &[1, 0], &[2, 1]);
    assert_eq!((zeta_and_a(3, 2), &pair.alpha1[..], &pair.alpha2[..]), ((2, 2), &[0, 1][..], &[1, 2][..]));
    assert_eq!((&pair.s[..], &pair.r[..]), (&[1, 2][..], &[1, 2][..]));
    assert_eq!(document::check(3, 2, &[1, 0], &[2, 1], &[2, 1], &[1, 1]), 0);
    let session = Session::new().load(3, 2, &[1, 0], &[2, 1]).unwrap().find().unwrap();
    let (image, session) = session.convert(true, &[1, 1], 2).unwrap();
    let (again, session) = session.convert(false, &image, 2).unwrap();
    assert_eq!((&image[..], &again[..]), (&[2, 2][..], &[1, 1][..]));
    assert_eq!(session.report(&[0; 12]), (0, b"F 1\nB 1\n1\n1\n".to_vec()));
    let pair = finder::pair(7, &[5, 0, 0], &[4, 0, 0]);
    assert_eq!((zeta_and_a(7, 3), &pair.alpha1[..], &pair.alpha2[..]), ((2, 3), &[0, 0, 3][..], &[0, 1, 0][..]));
    assert_eq!((&pair.s[..], &pair.r[..]), (&[0, 0, 2][..], &[0, 0, 3][..]));
    // found before request S-6, and still accepted
    assert_eq!(earlier::pair(7, &[5, 0, 0], &[4, 0, 0]), (vec![0, 0, 1], vec![0, 0, 5]));
    assert_eq!(document::check(7, 3, &[5, 0, 0], &[4, 0, 0], &[0, 0, 1], &[0, 0, 5]), 0);
    assert_eq!(card::fieldcard(&card::card(7, 3, 2, &[5, 0, 0, 4, 0, 0, 0, 0, 1, 0, 0, 5])), "VALID\n");
    let pair = finder::pair(5, &[1], &[3]);
    assert_eq!((zeta_and_a(5, 1), &pair.alpha1[..], &pair.alpha2[..]), ((1, 1), &[1][..], &[1][..]));
    assert_eq!(document::find(2, 1, &[1], &[0], &[0], &[0]), (0, vec![1], vec![0]));
    assert_eq!(document::check(3, 2, &[0, 0], &[0, 0], &[0, 1], &[0, 1]), 6);
    assert_eq!(Session::new().load(3, 2, &[0, 0], &[0, 0]).unwrap().propose(&[0, 1], &[0, 1]), Err(6));
    assert_eq!(card::fieldcard(&card::card(3, 2, 2, &[0, 0, 0, 0, 0, 1, 0, 1])), "RING\n");
    assert_eq!(document::find(3, 2, &[0, 0], &[0, 0], &[9, 9], &[9, 9]).0, 6);
    assert_eq!(document::find(3, 2, &[2, 0], &[1, 0], &[9, 9], &[9, 9]).0, 6);
    assert_eq!(document::find(3, 2, &[1, 0], &[2, 0], &[9, 9], &[9, 9]).0, 7);
    assert_eq!(document::find(5, 3, &[1, 0, 0], &[1, 0, 0], &[0; 3], &[0; 3]).0, 5);
    assert_eq!(card::card(3, 2, 2, &[1, 0, 2, 1, 1, 2, 1, 2]), [0x00, 0x03, 0x12, 0x49, 0x66]);
    assert_eq!(card::card(7, 3, 1, &[5, 0, 0, 4, 0, 0]), [0x00, 0x07, 0x21, 0xA0, 0x40, 0x00]);
    assert_eq!(card::fieldcard(&[0x00, 0x03, 0x11, 0x49]), "PAIR 0003124966\n");
    assert_eq!(card::fieldcard(&[0x00, 0x03, 0x12, 0x49, 0x66]), "VALID\n");
    assert_eq!([65_521, 65_535, 65_537, 1_048_573, 1_048_575, 1_048_583].map(is_prime), [true, false, true, true, false, false]);
    let (number, out) = sheet::sheet(3, 2, [&[1, 0], &[2, 1], &[1, 2], &[1, 2]], &[0; 240]);
    let lines: Vec<&str> = std::str::from_utf8(&out).unwrap().lines().collect();
    assert_eq!((number, lines[1]), (0, format!("T2      -1      1{}", " ".repeat(42)).as_str()));
    assert_eq!(maps::maps(3, 2, [&[1, 0], &[2, 1], &[1, 2], &[1, 2]], &[0; 4]), (0, vec![2, 1, 1, 2]));
}
