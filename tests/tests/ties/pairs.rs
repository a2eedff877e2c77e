//! Every two rows: equal, one the other's negative, and their sum or difference in a
//! third row.

use crate::interface;
use crate::matrix_calls::compare_list;
use service_pair_tests::guarded::compare;
use service_pair_tests::matrices::{file_of, list_of_terms, packed_row, tie, uniform, Terms};
use service_pair_tests::random::{report, Random};
use service_pair_tests::reference::matrix::{
    block_of, block_sums, row_place, rows_of_file, BLOCK_BYTES, CHECK_AT,
};
use service_pair_tests::reference::numbers::{Answer, TIED_ROWS};
use service_pair_tests::reference::shape::{Shape, SETS};
use service_pair_tests::reference::tied_rows::listed;

/// A file with another row, and that block's check.
fn with_row(shape: Shape, fit: &[u8], i: usize, row: &[u8]) -> Vec<u8> {
    let mut file = fit.to_vec();
    let (place, number) = (row_place(shape, i), i / shape.block_rows);
    file[place..place + row.len()].copy_from_slice(row);
    let sums = block_sums(&block_of(&file, number));
    file[BLOCK_BYTES * number + CHECK_AT..][..2].copy_from_slice(&sums);
    file
}

/// The check, and the reader or the writer, refuse this file and its rows with 12. The
/// rows were made tied, so the reference need not find out.
fn refused(random: &mut Random, shape: Shape, file: &[u8]) {
    let (set, expected) = (shape.set, Answer::refused(TIED_ROWS));
    compare(random, "pair_matrix_check", [file], 0, &expected, |[file], _| {
        interface::matrix_check(set, file)
    });
    // One of the other two by turns: their output slices are long.
    if random.once_in(2) {
        let room = shape.row_set_bytes();
        compare(random, "pair_matrix_read", [file], room, &expected, |[file], out| {
            interface::matrix_read(set, file, out)
        });
    } else {
        let (rows, room) = (rows_of_file(shape, file), shape.file_bytes());
        compare(random, "pair_matrix_write", [&rows], room, &expected, |[rows], out| {
            interface::matrix_write(set, rows, out)
        });
    }
}

/// The tied row and its terms, in four sorts.
fn sorts(random: &mut Random, shape: Shape, [i, j]: [usize; 2]) -> [(usize, Terms); 4] {
    let third = (0..).map(|_| random.below(shape.digits)).find(|row| *row != i && *row != j);
    let third = third.expect("there are three rows");
    [
        (j, vec![(i, 1)]),
        (j, vec![(i, 2)]),
        (third, vec![(i, 1), (j, 1)]),
        (third, vec![(i, 1), (j, 2)]),
    ]
}

#[test]
fn every_two_rows() {
    let mut random = Random::for_test("every two rows");
    let mut count = 0;
    for shape in SETS {
        let fit = uniform(&mut random, shape);
        let file = file_of(shape, &fit);
        let pairs = (0..shape.digits).flat_map(|j| (0..j).map(move |i| [i, j]));
        for pair in pairs {
            for (row, terms) in sorts(&mut random, shape, pair) {
                let mut rows = fit.clone();
                tie(&mut rows, row, &terms);
                let tied = with_row(shape, &file, row, &packed_row(shape, &rows[row]));
                refused(&mut random, shape, &tied);
                // The sum less the row is the zero row, and 2 is -1.
                let list = listed(list_of_terms(&[&terms[..], &[(row, 2)]].concat()));
                compare_list(&mut random, shape.set, &tied, shape.tie_bytes(), &list);
                count += 2;
            }
        }
    }
    report("ties: every two rows", count);
}
