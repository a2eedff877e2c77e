//! The matrix file: judged in one pass but for ties, and its rows multiplied where
//! they stand. A file is public, so it may be branched on.

use super::elimination::rows_are_tied;
use super::rows::{row_digit, Digits};
use super::trits::Vector;
use super::{part, shape};
use crate::reference::matrix::{BLOCK_BYTES, CHECK_AT, ROWS_AT};
use crate::reference::numbers::{BLOCK_CHECK, BLOCK_LAYOUT, TIED_ROWS, UNFIT_TRIT, WRONG_LENGTH};

/// Where row i starts in a file.
#[inline(always)]
pub(super) fn row_place<const W: usize>(i: usize) -> usize {
    let (block, row) = (i / shape(W).block_rows, i % shape(W).block_rows);
    BLOCK_BYTES * block + ROWS_AT + 16 * W * row
}

/// The two sums of half a block, no remainder taken: 16 columns of 16 bytes are
/// added side by side. A byte in row g and column j of 16 rows counts 16 - g
/// times in its column's second sum, and 16 (16 - g) - j times in the half's.
#[inline(always)]
fn half_sums(half: &[u8; 256]) -> (u32, u32) {
    let (mut first, mut second) = ([0u16; 16], [0u16; 16]);
    for row in half.chunks_exact(16) {
        for j in 0..16 {
            first[j] += u16::from(row[j]);
            second[j] += first[j];
        }
    }
    let (mut all, mut weighted) = (0, 0);
    for j in 0..16 {
        all += u32::from(first[j]);
        // 255 is added to what j takes off.
        weighted += 16 * u32::from(second[j]) + (255 - j as u32) * u32::from(first[j]);
    }
    (all, weighted)
}

/// Whether bytes 510 and 511 are not the check of the bytes before them. The
/// sums are taken over all 512 bytes, and what the last two add is taken off;
/// 256 is 1 modulo 255.
#[inline(never)]
fn bad_check(block: &[u8; BLOCK_BYTES]) -> bool {
    let (first, weighted) = half_sums(part(block, 0));
    let (last, last_weighted) = half_sums(part(block, 256));
    let [a, b] = [block[CHECK_AT], block[CHECK_AT + 1]].map(u32::from);
    let all = first + last - a - b;
    let second = weighted + first + last_weighted + 3 * 255 + 253 * all - 2 * a - b;
    all % 255 != a || second % 255 != b
}

/// Whether bytes 0 to 3 or unused bytes differ from the layout.
#[inline(always)]
fn bad_layout<const W: usize>(block: &[u8; BLOCK_BYTES], number: usize, rows: usize) -> bool {
    let unused = &block[ROWS_AT + 16 * W * rows..CHECK_AT];
    *part(block, 0) != [0x42, number as u8, rows as u8, shape(W).set as u8]
        || unused.iter().fold(0, |any, byte| any | byte) != 0
}

/// What is wrong with a file.
#[derive(Default)]
struct Faults {
    check: bool,
    layout: bool,
    unfit: u64,
    zero_row: bool,
}

/// What is done with each row while a file is judged; no closure, so that it is
/// compiled in place.
trait Visit<const W: usize> {
    fn visit(&mut self, i: usize, row: Vector<W>);
}

/// Rows that are only judged.
impl<const W: usize> Visit<W> for () {
    #[inline(always)]
    fn visit(&mut self, _: usize, _: Vector<W>) {}
}

/// Rows times a vector.
struct Products<const W: usize, const P: usize> {
    v: Vector<W>,
    digits: Digits<P>,
}

impl<const W: usize, const P: usize> Products<W, P> {
    #[inline(always)]
    fn with(v: Vector<W>) -> Products<W, P> {
        Products { v, digits: Digits::none() }
    }
}

impl<const W: usize, const P: usize> Visit<W> for Products<W, P> {
    #[inline(always)]
    fn visit(&mut self, i: usize, row: Vector<W>) {
        self.digits.set(i, row_digit(row, self.v));
    }
}

impl<const W: usize, const P: usize> Visit<W> for [Products<W, P>; 2] {
    #[inline(always)]
    fn visit(&mut self, i: usize, row: Vector<W>) {
        self[0].visit(i, row);
        self[1].visit(i, row);
    }
}

impl Faults {
    /// Judges a block, and hands on each of its rows with its number.
    #[inline(always)]
    fn judge<const W: usize>(
        &mut self,
        block: &[u8; BLOCK_BYTES],
        number: usize,
        rows: usize,
        visit: &mut impl Visit<W>,
    ) {
        self.check |= bad_check(block);
        self.layout |= bad_layout::<W>(block, number, rows);
        for i in 0..rows {
            let row = Vector::<W>::read(block, ROWS_AT + 16 * W * i);
            self.unfit |= row.both_bits();
            self.zero_row |= row.is_zero();
            visit.visit(shape(W).block_rows * number + i, row);
        }
    }

    /// The lowest number, but for rows that are tied and none of them zero.
    #[inline(always)]
    fn number(&self) -> u32 {
        match self {
            Faults { check: true, .. } => BLOCK_CHECK,
            Faults { layout: true, .. } => BLOCK_LAYOUT,
            Faults { unfit: 1.., .. } => UNFIT_TRIT,
            Faults { zero_row: true, .. } => TIED_ROWS,
            _ => 0,
        }
    }
}

/// The number of a file of the set's length, each of whose rows is visited, but for
/// rows that are tied and none of them zero.
#[inline(always)]
fn judged<const W: usize>(file: &[u8], visit: &mut impl Visit<W>) -> u32 {
    let file = &file[..shape(W).file_bytes()];
    let mut faults = Faults::default();
    let last = shape(W).blocks() - 1;
    for number in 0..last {
        let block = part(file, BLOCK_BYTES * number);
        faults.judge(block, number, shape(W).block_rows, visit);
    }
    let rows = shape(W).rows_in_block(last);
    faults.judge(part(file, BLOCK_BYTES * last), last, rows, visit);
    faults.number()
}

/// The number of a file of the set's length, each of whose rows is visited.
#[inline(always)]
fn pass<const W: usize>(file: &[u8], visit: &mut impl Visit<W>) -> u32 {
    match judged(file, visit) {
        0 if rows_are_tied::<W>(file) => TIED_ROWS,
        number => number,
    }
}

/// The lowest of a file's numbers before 12; 0 or 12 where it has none of them.
#[inline(always)]
pub(super) fn number_before_ties<const W: usize>(file: &[u8]) -> u32 {
    judged::<W>(file, &mut ())
}

/// The number of a file, and its rows times a vector.
#[inline(always)]
pub(super) fn trit_rows<const W: usize, const P: usize>(
    file: &[u8],
    v: Vector<W>,
) -> (u32, Digits<P>) {
    let mut rows = Products::with(v);
    (pass(file, &mut rows), rows.digits)
}

/// The number of a file, and its rows times two vectors.
#[inline(always)]
pub(super) fn rows_of_both<const W: usize, const P: usize>(
    file: &[u8],
    vectors: [Vector<W>; 2],
) -> (u32, [Digits<P>; 2]) {
    let mut rows = vectors.map(Products::with);
    (pass(file, &mut rows), rows.map(|rows| rows.digits))
}

/// The matrix check: the number of a file.
#[inline(never)]
pub fn matrix_check(set: u32, file: &[u8]) -> u32 {
    with_set!(set, check_of(file))
}

/// The same in one set.
#[inline(never)]
fn check_of<const W: usize, const D: usize, const P: usize>(file: &[u8]) -> u32 {
    match file.len() == shape(W).file_bytes() {
        true => pass::<W>(file, &mut ()),
        false => WRONG_LENGTH,
    }
}
