//! The matrix check of rows that are tied in none of the columns looked at first,
//! and of rows that are, so that all columns decide; and which rows are tied.

use crate::interface;
use crate::timing::{kept, shared, Table};
use service_pair_tests::fast::{matrix, tied_rows};
use service_pair_tests::matrices::{file_of, tie_to, uniform};
use service_pair_tests::random::Random;
use service_pair_tests::reference::shape::Shape;
use std::hint::black_box;

/// Adds the rows of a set: of this fit file, and of one whose last row is the first
/// one in all columns that either side looks at first, where these are not all: the
/// tie there is found last, and then all columns are looked at.
pub fn rows(random: &mut Random, shape: Shape, file: &'static [u8], table: &mut Table) {
    check(shape, file, "pair_matrix_check", table);
    let columns = 128 * (shape.digits / 128 + 1);
    if columns < shape.bits {
        let mut rows = uniform(random, shape);
        let first = rows[0][..columns].to_vec();
        rows[shape.digits - 1][..columns].copy_from_slice(&first);
        let file = shared(file_of(shape, &rows));
        check(shape, file, "pair_matrix_check, tied in first words", table);
    }
    list(random, shape, table);
}

/// The row of a fit file.
fn check(shape: Shape, file: &'static [u8], name: &str, table: &mut Table) {
    let set = shape.set;
    assert_eq!([interface::matrix_check(set, file), matrix::matrix_check(set, file)], [0, 0]);
    table.compare(
        &format!("{name}, set {set}"),
        move || kept(interface::matrix_check(set, black_box(file))),
        move || kept(matrix::matrix_check(set, black_box(file))),
    );
}

/// The row of a file whose last row is a sum of all others: what takes longest, since
/// the tie is found last and has all rows.
fn list(random: &mut Random, shape: Shape, table: &mut Table) {
    let (set, last) = (shape.set, shape.digits - 1);
    let mut rows = uniform(random, shape);
    tie_to(random, &mut rows, last, &(0..last).collect::<Vec<usize>>());
    let file = &shared(file_of(shape, &rows))[..];
    let [mut out, mut other] = [0; 2].map(|_| vec![0; shape.tie_bytes()]);
    let (mut count, mut other_count) = (0, 0);
    assert_eq!(interface::tied_rows(set, file, &mut out, &mut count), 0);
    assert_eq!(tied_rows::tied_rows(set, file, &mut other, &mut other_count), 0);
    assert_eq!([count, other_count], [shape.digits as u64; 2], "tied rows: the counts differ");
    assert_eq!(out, other, "tied rows: the lists differ");
    table.compare(
        &format!("pair_tied_rows, set {set}"),
        move || {
            let (file, out) = (black_box(file), black_box(&mut out));
            kept(interface::tied_rows(set, file, out, &mut count))
        },
        move || {
            let (file, out) = (black_box(file), black_box(&mut other));
            kept(tied_rows::tied_rows(set, file, out, &mut other_count))
        },
    );
}
