//! "Matrix file": blocks, checks, writer, reader and check.

use super::bits::part;
use super::elimination::tied;
use super::numbers::{
    lowest, Answer, Condition, BLOCK_CHECK, BLOCK_LAYOUT, TIED_ROWS, UNFIT_TRIT, WRONG_LENGTH,
};
use super::shape::Shape;
use super::trits::{trit, trits_fit};

/// "12 blocks of 512"
pub const BLOCK_BYTES: usize = 512;
/// "byte 3 of a block is the set"
pub const SET_AT: usize = 3;
/// "Rows of 64 bytes (two planes) start at byte 4"
pub const ROWS_AT: usize = 4;
/// "Bytes 510 and 511 are the check"
pub const CHECK_AT: usize = 510;

/// "two sums from 0, modulo 255, over bytes 0 to 509; the first adds each byte,
/// the second adds the first after each byte"
pub fn block_sums(block: &[u8]) -> [u8; 2] {
    let (mut first, mut second) = (0u32, 0u32);
    for byte in part(block, 0, CHECK_AT) {
        first = (first + u32::from(byte)) % 255;
        second = (second + first) % 255;
    }
    [first as u8, second as u8]
}

/// Where the rows of a block end; "unused bytes" follow, up to the check.
pub fn rows_end(shape: Shape, number: usize) -> usize {
    ROWS_AT + shape.vector_bytes() * shape.rows_in_block(number)
}

/// Bytes 0 to 509 of a block: "Byte 0 is 42 hexadecimal, byte 1 the block
/// number from 0, byte 2 the rows in it", byte 3 the set, rows, zeros.
fn unchecked_block(shape: Shape, number: usize, rows: &[u8]) -> Vec<u8> {
    let count = shape.rows_in_block(number);
    let header = vec![0x42, number as u8, count as u8, shape.set as u8];
    let content = part(rows, 0, shape.vector_bytes() * count);
    part(&[header, content].concat(), 0, CHECK_AT)
}

/// A block with its check, as the writer makes it.
fn block(shape: Shape, number: usize, rows: &[u8]) -> Vec<u8> {
    let bytes = unchecked_block(shape, number, rows);
    let sums = block_sums(&bytes);
    [bytes, sums.to_vec()].concat()
}

/// The block of a file with this number.
pub fn block_of(file: &[u8], number: usize) -> Vec<u8> {
    part(file, BLOCK_BYTES * number, BLOCK_BYTES)
}

/// The rows that a block holds, one after the other.
fn rows_of_block(shape: Shape, block: &[u8], number: usize) -> Vec<u8> {
    part(block, ROWS_AT, shape.vector_bytes() * shape.rows_in_block(number))
}

/// "a block's check differs" (8)
pub fn check_differs(block: &[u8]) -> bool {
    part(block, CHECK_AT, 2) != block_sums(block)
}

/// "a block's bytes 0 to 3 or its unused bytes differ from the layout" (9): the
/// block is not what its own rows would be laid out as.
pub fn layout_differs(shape: Shape, block: &[u8], number: usize) -> bool {
    let rows = rows_of_block(shape, block, number);
    part(block, 0, CHECK_AT) != unchecked_block(shape, number, &rows)
}

/// Row i of a row set.
pub fn row(shape: Shape, rows: &[u8], i: usize) -> Vec<u8> {
    part(rows, shape.vector_bytes() * i, shape.vector_bytes())
}

/// Where row i starts in a file.
pub fn row_place(shape: Shape, i: usize) -> usize {
    let (block, row) = (i / shape.block_rows, i % shape.block_rows);
    BLOCK_BYTES * block + ROWS_AT + shape.vector_bytes() * row
}

/// All rows of a file, one after the other.
pub fn rows_of_file(shape: Shape, file: &[u8]) -> Vec<u8> {
    let rows = |number| rows_of_block(shape, &block_of(file, number), number);
    (0..shape.blocks()).flat_map(rows).collect()
}

/// The digits of all rows of a row set, a byte each.
pub fn digit_rows(shape: Shape, rows: &[u8]) -> Vec<Vec<u8>> {
    let digits =
        |row: Vec<u8>| (0..shape.bits).map(|j| trit(&row, shape.string_bytes(), j)).collect();
    (0..shape.digits).map(|i| digits(row(shape, rows, i))).collect()
}

/// 10 and 12 over a row set; rows with an unfit trit have no digits to be tied.
fn row_conditions(shape: Shape, rows: &[u8]) -> [Condition; 2] {
    let unfit = (0..shape.digits).any(|i| !trits_fit(&row(shape, rows, i), shape.bits));
    [(UNFIT_TRIT, unfit), (TIED_ROWS, !unfit && tied(digit_rows(shape, rows)))]
}

/// The conditions of a call that reads a matrix file, over the whole file;
/// with another length nothing else of it can be judged.
pub fn file_conditions(shape: Shape, file: &[u8]) -> Vec<Condition> {
    if file.len() != shape.file_bytes() {
        return vec![(WRONG_LENGTH, true)];
    }
    let blocks = || (0..shape.blocks()).map(|number| (block_of(file, number), number));
    let bad_check = blocks().any(|(block, _)| check_differs(&block));
    let bad_layout = blocks().any(|(block, number)| layout_differs(shape, &block, number));
    let mut conditions = vec![(BLOCK_CHECK, bad_check), (BLOCK_LAYOUT, bad_layout)];
    conditions.extend(row_conditions(shape, &rows_of_file(shape, file)));
    conditions
}

/// "the matrix check takes a file and gives a number only"
pub fn matrix_check(shape: Shape, file: &[u8]) -> u32 {
    lowest(&file_conditions(shape, file))
}

/// "The writer takes 81 rows, 5,184 bytes, and writes the file"
pub fn matrix_write(shape: Shape, rows: &[u8], room: usize) -> Answer {
    let right = rows.len() == shape.row_set_bytes();
    let mut conditions = vec![(WRONG_LENGTH, !right || room < shape.file_bytes())];
    if right {
        conditions.extend(row_conditions(shape, rows));
    }
    Answer::unless(&conditions, || file_of_rows(shape, rows))
}

/// The file of a row set, whatever its rows.
pub fn file_of_rows(shape: Shape, rows: &[u8]) -> Vec<u8> {
    let rows_from = |number| {
        let before = shape.vector_bytes() * shape.rows_before_block(number);
        part(rows, before, shape.vector_bytes() * shape.block_rows)
    };
    (0..shape.blocks()).flat_map(|number| block(shape, number, &rows_from(number))).collect()
}

/// "the reader takes a file and writes the rows"
pub fn matrix_read(shape: Shape, file: &[u8], room: usize) -> Answer {
    let mut conditions = file_conditions(shape, file);
    conditions.push((WRONG_LENGTH, room < shape.row_set_bytes()));
    Answer::unless(&conditions, || rows_of_file(shape, file))
}
