//! The function in one place.

use super::matrix::trit_rows;
use super::trits::Vector;
use super::{bits, shape, words};
use crate::reference::numbers::WRONG_LENGTH;

/// The code of a key and a label.
#[inline(never)]
pub fn evaluate(set: u32, key: &[u8], label: &[u8], file: &[u8], out: &mut [u8]) -> u32 {
    with_set!(set, evaluate_of(key, label, file, out))
}

/// The same in one set. The rows are judged, but for ties, and multiplied in one
/// pass, and the code is written if the file is fit.
#[inline(never)]
fn evaluate_of<const W: usize, const D: usize, const P: usize>(
    key: &[u8],
    label: &[u8],
    file: &[u8],
    out: &mut [u8],
) -> u32 {
    let right = key.len() == 8 * W && label.len() == 8 * W;
    if !right || file.len() != shape(W).file_bytes() || out.len() < P / 4 {
        return WRONG_LENGTH;
    }
    let inner: [u64; W] = bits::product(words(key, 0), words(label, 0));
    let (number, digits) = trit_rows::<W, P>(file, Vector { low: inner, high: [0; W] });
    if number == 0 {
        digits.write(out);
    }
    number
}
