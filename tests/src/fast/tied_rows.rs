//! Which rows of a matrix file are tied: the rows are cleared with a row of the diagonal
//! behind each, and the first that has become zero has the digits of the tie there.

use super::elimination::{first_tied, gathered, Row};
use super::matrix::number_before_ties;
use super::shape;
use crate::reference::numbers::{DONE, NOT_TIED, TIED_ROWS, WRONG_LENGTH};

/// Writes the list of a tie, whose digits are behind the first W words of a row; gives
/// the count of rows. Negated where the first digit is 2, so that it is 1.
#[inline(always)]
fn write_list<const W: usize, const V: usize>(tie: &Row<V>, out: &mut [u8]) -> u64 {
    let tie = match tie.first(W, V).map(|(word, bit)| tie.digit(word, bit)) {
        Some([0, 1]) => tie.negative(),
        _ => *tie,
    };
    let mut entries = out.chunks_exact_mut(2);
    let mut count = 0;
    for k in W..V {
        let mut left = tie.low[k] | tie.high[k];
        while left != 0 {
            let bit = left.trailing_zeros();
            if let Some(entry) = entries.next() {
                entry[0] = (64 * (k - W)) as u8 + bit as u8;
                entry[1] = 1 + (tie.high[k] >> bit & 1) as u8;
            }
            count += 1;
            left &= left - 1;
        }
    }
    count
}

/// The list of a file of the set's length; 0 rows where none are tied.
#[inline(always)]
fn list<const W: usize, const V: usize, const D: usize>(file: &[u8], out: &mut [u8]) -> u64 {
    let mut rows = gathered::<W, V, D>(file);
    first_tied::<V, W>(&mut rows).map_or(0, |tie| write_list::<W, V>(tie, out))
}

/// Which rows of a file are tied, and how many.
#[inline(never)]
pub fn tied_rows(set: u32, file: &[u8], out: &mut [u8], count: &mut u64) -> u32 {
    *count = 0;
    with_set!(set, tied_rows_of(file, out, count))
}

/// The same in one set.
#[inline(never)]
fn tied_rows_of<const W: usize, const D: usize, const P: usize>(
    file: &[u8],
    out: &mut [u8],
    count: &mut u64,
) -> u32 {
    if file.len() != shape(W).file_bytes() || out.len() < shape(W).tie_bytes() {
        return WRONG_LENGTH;
    }
    match number_before_ties::<W>(file) {
        DONE | TIED_ROWS => {}
        number => return number,
    }
    // A digit of the tie for each row, behind the words of a row.
    *count = match W {
        1 => list::<1, 2, 21>(file, out),
        4 => list::<4, 6, 81>(file, out),
        _ => list::<8, 11, 162>(file, out),
    };
    match *count {
        0 => NOT_TIED,
        _ => DONE,
    }
}
