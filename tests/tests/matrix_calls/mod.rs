//! The four calls of the matrix file beside the reference, every lent byte
//! compared.

// Each test binary uses its own part of them.
#![allow(dead_code)]

use crate::interface;
use service_pair_tests::guarded::{compare, compare_counted};
use service_pair_tests::random::Random;
use service_pair_tests::reference::matrix;
use service_pair_tests::reference::numbers::Answer;
use service_pair_tests::reference::shape::{with_set, Shape};
use service_pair_tests::reference::tied_rows::tied_rows;

/// Compares check and reader on one file, and which of its rows are tied, with an
/// output slice that is long enough for those; gives the check's number back.
pub fn compare_file(random: &mut Random, set: u32, file: &[u8], room: usize) -> u32 {
    let checked = with_set(set, |shape| Answer::refused(matrix::matrix_check(shape, file)));
    compare(random, "pair_matrix_check", [file], 0, &checked, |[file], _| {
        interface::matrix_check(set, file)
    });
    let read = with_set(set, |shape| matrix::matrix_read(shape, file, room));
    compare(random, "pair_matrix_read", [file], room, &read, |[file], out| {
        interface::matrix_read(set, file, out)
    });
    let spare = random.below(40);
    compare_tie(random, set, file, Shape::named(set).map_or(0, Shape::tie_bytes) + spare);
    checked.number
}

/// `compare_file` in the shape's set, with an output slice that is just long enough.
pub fn compare_fully(random: &mut Random, shape: Shape, file: &[u8]) -> u32 {
    compare_file(random, shape.set, file, shape.row_set_bytes())
}

/// Compares the writer on one row set; gives the number back.
pub fn compare_rows(random: &mut Random, set: u32, rows: &[u8], room: usize) -> u32 {
    let written = with_set(set, |shape| matrix::matrix_write(shape, rows, room));
    compare(random, "pair_matrix_write", [rows], room, &written, |[rows], out| {
        interface::matrix_write(set, rows, out)
    });
    written.number
}

/// Compares which rows of one file are tied; gives the number back.
pub fn compare_tie(random: &mut Random, set: u32, file: &[u8], room: usize) -> u32 {
    let expected = with_set(set, |shape| tied_rows(shape, file, room));
    compare_list(random, set, file, room, &expected);
    expected.number
}

/// The same with an answer that is known besides.
pub fn compare_list(random: &mut Random, set: u32, file: &[u8], room: usize, expected: &Answer) {
    compare_counted(random, "pair_tied_rows", [file], room, expected, |[file], out, count| {
        interface::tied_rows(set, file, out, count)
    });
}
