//! "The function": the inner vector, the code and the one-place evaluator.

use super::bits::multiply;
use super::matrix::{file_conditions, rows_of_file};
use super::numbers::{Answer, WRONG_LENGTH};
use super::shape::Shape;
use super::trits::{bits_as_trits, matrix_product};

/// "Code y = B × w modulo 3" for any trit vector in the place of w.
pub fn code_of(shape: Shape, vector: &[u8], file: &[u8]) -> Vec<u8> {
    let rows = rows_of_file(shape, file);
    matrix_product(&rows, vector, shape.digits, shape.string_bytes(), shape.code_plane())
}

/// "Inner vector w = K × label modulo 2. Code y = B × w modulo 3, w read as
/// trits".
pub fn code(shape: Shape, key: &[u8], label: &[u8], file: &[u8]) -> Vec<u8> {
    let w = multiply(shape, key, label);
    code_of(shape, &bits_as_trits(&w, shape.string_bytes()), file)
}

/// "The evaluator takes a key, a label and a matrix file and writes the 22-byte
/// code."
pub fn evaluate(shape: Shape, key: &[u8], label: &[u8], file: &[u8], room: usize) -> Answer {
    let wrong = [key, label].iter().any(|string| string.len() != shape.string_bytes());
    let mut conditions = file_conditions(shape, file);
    conditions.push((WRONG_LENGTH, wrong || room < shape.code_bytes()));
    Answer::unless(&conditions, || code(shape, key, label, file))
}
