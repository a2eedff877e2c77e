//! Compares the four calls of the matrix file with the reference on rows that are
//! tied, or nearly so, in each set. What the number must be, and which rows are tied, is
//! known by how the rows were made, besides what the reference finds.

mod columns;
#[path = "../interface/mod.rs"]
mod interface;
mod lists;
#[path = "../matrix_calls/mod.rs"]
mod matrix_calls;
mod pairs;
mod ranks;
mod refusals;
mod searches;
mod stated;

use matrix_calls::{compare_fully, compare_rows};
use service_pair_tests::matrices::{file_of, packed};
use service_pair_tests::random::{seed, Random};
use service_pair_tests::reference::shape::Shape;

/// The number of rows by check, reader and writer, which give the same; which are tied
/// is compared too.
fn judged(random: &mut Random, shape: Shape, rows: &[Vec<u8>]) -> u32 {
    let number = compare_fully(random, shape, &file_of(shape, rows));
    let written = compare_rows(random, shape.set, &packed(shape, rows), shape.file_bytes());
    assert_eq!(written, number, "SEED={}", seed());
    number
}
