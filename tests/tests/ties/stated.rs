//! The examples of the request, and an unfit trit beside a tie.

use crate::judged;
use crate::matrix_calls::{compare_fully, compare_rows};
use service_pair_tests::matrices::{
    diagonal, file_of, fit, packed, shuffled, stated_matrix, stated_ties, tie_any,
};
use service_pair_tests::random::{report, seed, Random};
use service_pair_tests::reference::matrix::row_place;
use service_pair_tests::reference::shape::SETS;
use service_pair_tests::samples::{seal, set_both_bits};

#[test]
fn stated_ties_are_refused() {
    let mut random = Random::for_test("stated ties");
    let ties = stated_ties();
    for (shape, row, terms) in &ties {
        let rows = stated_matrix(*shape, *row, terms);
        assert_eq!(judged(&mut random, *shape, &rows), 12, "row {row} is {terms:?}");
    }
    report("ties: stated ones", ties.len());
}

/// Diagonals of every sort are fit: of ones, of twos, from below, and in other columns.
#[test]
fn diagonals_are_fit() {
    let mut random = Random::for_test("diagonals");
    for shape in SETS {
        let ones = diagonal(shape);
        let twos: Vec<Vec<u8>> =
            ones.iter().map(|row| row.iter().map(|digit| 2 * digit).collect()).collect();
        let columns = shuffled(&mut random, shape.bits);
        let moved: Vec<Vec<u8>> =
            ones.iter().map(|row| columns.iter().map(|column| row[*column]).collect()).collect();
        let from_below = ones.iter().rev().cloned().collect();
        let from_right = ones.iter().map(|row| row.iter().rev().copied().collect()).collect();
        for rows in [ones, twos, moved, from_below, from_right] {
            assert_eq!(judged(&mut random, shape, &rows), 0, "SEED={}", seed());
        }
    }
    report("ties: diagonals", 5 * SETS.len());
}

/// A diagonal with one row zero is refused, whichever row it is.
#[test]
fn diagonals_with_a_zero_row_are_refused() {
    let mut random = Random::for_test("diagonals with a zero row");
    let mut count = 0;
    for shape in SETS {
        for row in 0..shape.digits {
            let mut rows = diagonal(shape);
            rows[row].fill(0);
            assert_eq!(judged(&mut random, shape, &rows), 12, "row {row}, SEED={}", seed());
            count += 1;
        }
    }
    report("ties: diagonals with a zero row", count);
}

/// 10 is lower, in whichever row it stands: those of the tie, or another.
#[test]
fn an_unfit_trit_is_told_before_a_tie() {
    let mut random = Random::for_test("unfit trits and ties");
    let mut count = 0;
    for shape in SETS {
        let mut rows = fit(&mut random, shape);
        tie_any(&mut random, &mut rows, 3);
        let (file, packed) = (file_of(shape, &rows), packed(shape, &rows));
        for i in 0..shape.digits {
            let (mut file, mut packed) = (file.clone(), packed.clone());
            set_both_bits(&mut random, shape, &mut file, row_place(shape, i));
            seal(&mut file);
            assert_eq!(compare_fully(&mut random, shape, &file), 10, "SEED={}", seed());
            set_both_bits(&mut random, shape, &mut packed, shape.vector_bytes() * i);
            let number = compare_rows(&mut random, shape.set, &packed, shape.file_bytes());
            assert_eq!(number, 10, "SEED={}", seed());
            count += 2;
        }
    }
    report("ties: with an unfit trit", count);
}
