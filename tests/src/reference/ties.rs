//! The examples of the request W-204 at every call that judges 12.

use super::bits::part;
use super::dealer::deal;
use super::evaluator::evaluate;
use super::matrix::{matrix_check, matrix_read, matrix_write, row_place};
use super::numbers::{DONE, TIED_ROWS};
use super::program::{pair_run, program, run_units, Inputs, SHARED};
use super::shape::{Shape, SETS, SET_1};
use super::unit::{begin, step, Stage};
use crate::matrices::{diagonal, file_of, packed, stated_matrix, stated_ties};
use crate::samples::{diagonal_file, seal};

/// A run of zeros with this file.
fn inputs(shape: Shape, file: Vec<u8>) -> Inputs {
    let half = || vec![0; shape.string_bytes()];
    let tape = vec![0; shape.tape_bytes()];
    let (key_halves, label_halves) = ([half(), half()], [half(), half()]);
    Inputs { shape, key_halves, label_halves, tape, file }
}

/// The number of unit 0's step with its mask frame and this file; a refused one leaves
/// the unit as it was.
fn mask_step(shape: Shape, file: &[u8]) -> u32 {
    let half = vec![0; shape.string_bytes()];
    let dealt = deal(shape, SHARED, &vec![0; shape.tape_bytes()], shape.dealt_bytes()).bytes;
    let mut frames = [0, 1].map(|side| part(&dealt, shape.deal_bytes() * side, shape.deal_bytes()));
    let mut units = [0, 1].map(|side| begin(shape, side, SHARED, &half, &half).1);
    for _ in 0..2 {
        let taken = [0, 1].map(|side| step(&units[side], &frames[side], &[], shape.step_room()));
        let [step0, step1] = taken;
        (units, frames) = ([step0.next, step1.next], [step1.written, step0.written]);
    }
    assert_eq!(units[0].stage, Stage::WaitsForMask);
    let last = step(&units[0], &frames[0], file, shape.step_room());
    let left = last.next == units[0] && last.written.is_empty();
    assert_eq!(left, last.number != DONE);
    last.number
}

/// The numbers of all calls, in any set.
fn numbers(shape: Shape, rows: &[Vec<u8>]) -> [u32; 6] {
    let (file, string) = (file_of(shape, rows), vec![0; shape.string_bytes()]);
    [
        matrix_check(shape, &file),
        matrix_read(shape, &file, shape.row_set_bytes()).number,
        matrix_write(shape, &packed(shape, rows), shape.file_bytes()).number,
        evaluate(shape, &string, &string, &file, shape.code_bytes()).number,
        mask_step(shape, &file),
        run_units(&inputs(shape, file), SHARED).number,
    ]
}

#[test]
fn stated_ties_give_12() {
    let ties = stated_ties();
    assert!(SETS.iter().all(|set| ties.iter().any(|(shape, ..)| shape == set)));
    for (shape, row, terms) in ties {
        let rows = stated_matrix(shape, row, &terms);
        assert_eq!(numbers(shape, &rows), [TIED_ROWS; 6], "row {row} is {terms:?}");
        if shape == SET_1 {
            let input = inputs(shape, file_of(shape, &rows)).bytes();
            assert_eq!(pair_run(&input, shape.code_bytes()).number, TIED_ROWS);
            assert_eq!(program(&input), "result 12\n");
        }
    }
}

#[test]
fn diagonals_give_0_and_zero_rows_12() {
    for shape in SETS {
        let mut rows = diagonal(shape);
        assert_eq!(numbers(shape, &rows), [0; 6]);
        rows[shape.digits - 1].fill(0);
        assert_eq!(numbers(shape, &rows), [TIED_ROWS; 6]);
    }
}

/// "twice": the digit 2 is in the high plane.
#[test]
fn the_first_storage_matrix_passes_no_more() {
    let mut file = diagonal_file(SET_1);
    let [row_3, row_5] = [3, 5].map(|i| row_place(SET_1, i));
    assert_eq!((file[row_3], file[row_5]), (1 << 3, 1 << 5));
    (file[row_5], file[row_5 + SET_1.string_bytes()]) = (0, 1 << 3);
    seal(&mut file);
    assert_eq!(matrix_check(SET_1, &file), 12);
    // With an unfit trit in another row.
    let row_9 = row_place(SET_1, 9);
    (file[row_9], file[row_9 + SET_1.string_bytes()]) = (1, 1);
    seal(&mut file);
    assert_eq!(matrix_check(SET_1, &file), 10);
}
