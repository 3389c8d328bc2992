//! Finds the pair of two models of the field of 343 elements (document 01, example D), checks it, sends a table there and back and
//! prints the report.

use yokebean::{check, find, Refusal, Session, Size};

fn main() -> Result<(), Refusal> {
    let (size, t1, t2) = (Size { p: 7, n: 3 }, [5, 0, 0], [4, 0, 0]);
    let (mut s, mut r) = ([0; 3], [0; 3]);
    find(size, &t1, &t2, &mut s, &mut r)?;
    check(size, &t1, &t2, &s, &r)?;
    println!("S = {s:?}, R = {r:?}");
    let session = Session::new().load(size, &t1, &t2)?.find()?;
    let table = [1, 2, 3, 0, 1, 0];
    let (mut image, mut again) = ([0; 6], [0; 6]);
    let session = session.forward(&table, &mut image)?;
    let session = session.back(&image, &mut again)?;
    println!("{table:?} -> {image:?} -> {again:?}");
    let mut report = vec![0; session.report_length()];
    session.report(&mut report)?;
    print!("{}", String::from_utf8_lossy(&report));
    Ok(())
}
