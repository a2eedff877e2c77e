//! The fast check gives the reference's number of rows that are tied, or only in
//! some of their columns: those that the narrow pass sees, and others; and their list
//! is the reference's.

use super::matrix::matrix_check;
use super::tied_rows::tied_rows;
use crate::guarded::compare_counted;
use crate::matrices::{
    any_tie, change_digit, file_of, fit, list_of_terms, plant, stated_lists, stated_matrix,
    stated_ties, tie_any, uniform, Rows,
};
use crate::random::{report, seed, Random};
use crate::reference;
use crate::reference::matrix;
use crate::reference::shape::{Shape, SETS};
use crate::reference::tied_rows::listed;

/// The number by both, which must be the same, and so must be the lists.
fn number(random: &mut Random, shape: Shape, rows: &[Vec<u8>]) -> u32 {
    let file = file_of(shape, rows);
    let expected = matrix::matrix_check(shape, &file);
    assert_eq!(matrix_check(shape.set, &file), expected, "SEED={}", seed());
    let room = shape.tie_bytes() + random.below(3);
    let tie = reference::tied_rows::tied_rows(shape, &file, room);
    compare_counted(random, "tied rows", [&file], room, &tie, |[file], out, count| {
        tied_rows(shape.set, file, out, count)
    });
    expected
}

/// Rows that are tied but for what a row has from a column on, or before it.
fn tied_in_part(random: &mut Random, shape: Shape, column: usize, before: bool) -> Rows {
    let mut rows = uniform(random, shape);
    let row = tie_any(random, &mut rows, 4);
    let changed = if before { 0..column } else { column..shape.bits };
    rows[row][changed].iter_mut().for_each(|digit| change_digit(random, digit));
    rows
}

#[test]
fn the_fast_check_finds_ties() {
    let mut random = Random::for_test("fast ties");
    let count = 200;
    for shape in SETS {
        for most in (0..count).map(|trial| [1, 2, 5, shape.digits][trial % 4]) {
            let mut rows = fit(&mut random, shape);
            assert_eq!(number(&mut random, shape, &rows), 0);
            tie_any(&mut random, &mut rows, most);
            assert_eq!(number(&mut random, shape, &rows), 12);
        }
    }
    for (shape, row, terms) in stated_ties() {
        assert_eq!(number(&mut random, shape, &stated_matrix(shape, row, &terms)), 12);
    }
    report("fast: tied rows", 2 * SETS.len() * count + stated_ties().len());
}

#[test]
fn the_fast_check_looks_at_all_columns() {
    let mut random = Random::for_test("fast columns");
    let mut count = 0;
    for shape in SETS {
        for column in (1..shape.bits).step_by(shape.bits / 64) {
            for before in [false, true] {
                let rows = tied_in_part(&mut random, shape, column, before);
                assert_eq!(number(&mut random, shape, &rows), 0, "column {column}");
                count += 1;
            }
        }
        let rows = tied_in_part(&mut random, shape, shape.bits - 1, false);
        assert_eq!(number(&mut random, shape, &rows), 0, "the last column");
        count += 1;
    }
    report("fast: rows tied in some columns", count);
}

/// Ties of every number of rows, whose lists are known by how they were planted, and
/// the stated ones.
#[test]
fn the_fast_list_is_the_planted_one() {
    let mut random = Random::for_test("fast lists");
    let mut matrices = stated_lists();
    for shape in SETS {
        let fit = uniform(&mut random, shape);
        for size in 1..=shape.digits {
            let (mut rows, tie) = (fit.clone(), any_tie(&mut random, size, shape.digits));
            plant(&mut random, &mut rows, &tie);
            matrices.push((shape, rows, list_of_terms(&tie)));
        }
    }
    for (shape, rows, list) in &matrices {
        let (file, room, expected) =
            (file_of(*shape, rows), shape.tie_bytes(), listed(list.clone()));
        compare_counted(
            &mut random,
            "tied rows",
            [&file],
            room,
            &expected,
            |[file], out, count| tied_rows(shape.set, file, out, count),
        );
    }
    report("fast: lists of tied rows", matrices.len());
}
