//! Whether rows are tied, and which. Each row in turn is cleared out of those after
//! it, so that they have 0 in its first column that is not 0; a row that is all 0 when
//! its turn comes is tied to rows before it. Where each row carries its row of the
//! diagonal behind its front, what this has become by then are the digits of the tie. A
//! matrix is public, so it may be branched on.

use super::matrix::row_place;
use super::word;

/// V words of each plane of a row: first words of it, or all and what it carries behind
/// them. Aligned, so that no row and no entry of a table lies in two lines of the cache
/// where it fits into one.
#[derive(Clone, Copy)]
#[repr(align(32))]
pub(super) struct Row<const V: usize> {
    pub(super) low: [u64; V],
    pub(super) high: [u64; V],
}

impl<const V: usize> Row<V> {
    const ZERO: Row<V> = Row { low: [0; V], high: [0; V] };

    /// A digit with its bits in the other order is its negative.
    #[inline(always)]
    pub(super) fn negative(self) -> Row<V> {
        Row { low: self.high, high: self.low }
    }

    /// Adds another row modulo 3, from a word on; neither has an unfit trit.
    #[inline(always)]
    fn add<const FROM: usize>(&mut self, other: &Row<V>) {
        for k in FROM..V {
            let (x, u, y, v) = (self.low[k], self.high[k], other.low[k], other.high[k]);
            let odd = (x | v) ^ (u | y);
            (self.low[k], self.high[k]) = ((u | v) ^ odd, (x | y) ^ odd);
        }
    }

    /// Word and bit of the first column that is not 0, from a word on and before another.
    #[inline(always)]
    pub(super) fn first(&self, from: usize, to: usize) -> Option<(usize, u32)> {
        for k in from..to {
            let nonzero = self.low[k] | self.high[k];
            if nonzero != 0 {
                return Some((k, nonzero.trailing_zeros()));
            }
        }
        None
    }

    /// The low and the high bit of a digit.
    #[inline(always)]
    pub(super) fn digit(&self, word: usize, bit: u32) -> [u64; 2] {
        [self.low[word] >> bit & 1, self.high[word] >> bit & 1]
    }

    /// The row or its negative: the one with digit 2 there, of which as much is added
    /// as another row has there.
    #[inline(always)]
    fn with_digit_2(self, word: usize, bit: u32) -> Row<V> {
        match self.digit(word, bit) {
            [1, _] => self.negative(),
            _ => self,
        }
    }

    /// Adds its multiple to each later row, by masks: fewer operations on one word
    /// than looking into a table.
    #[inline(always)]
    fn add_masked(self, bit: u32, later: &mut [Row<V>]) {
        for row in later {
            let [one, two] = row.digit(0, bit).map(u64::wrapping_neg);
            let mut multiple = Row::ZERO;
            for k in 0..V {
                multiple.low[k] = self.low[k] & one | self.high[k] & two;
                multiple.high[k] = self.high[k] & one | self.low[k] & two;
            }
            row.add::<0>(&multiple);
        }
    }

    /// The same by a table of its multiples, from a word on.
    #[inline(always)]
    fn add_by_table<const FROM: usize>(self, word: usize, bit: u32, later: &mut [Row<V>]) {
        // The last is no digit's; with it no index is out of bounds.
        let table = [Row::ZERO, self, self.negative(), Row::ZERO];
        for row in later {
            let [one, two] = row.digit(word, bit);
            row.add::<FROM>(&table[(one + 2 * two) as usize & 3]);
        }
    }
}

/// The first row that is tied to rows before it in the columns of its front, F words to
/// a plane, which are more than the rows.
#[inline(never)]
pub(super) fn first_tied<const V: usize, const F: usize>(rows: &mut [Row<V>]) -> Option<&Row<V>> {
    // The columns that are cleared, and how many first words of them are so whole: there
    // all later rows have zeros.
    let (mut cleared, mut from) = ([0u64; V], 0);
    for r in 0..rows.len() {
        let (done, later) = rows.split_at_mut(r + 1);
        let Some((word, bit)) = done[r].first(0, F) else {
            return Some(&rows[r]);
        };
        let row = done[r].with_digit_2(word, bit);
        match (V, from) {
            (1, _) => row.add_masked(bit, later),
            (_, 0) => row.add_by_table::<0>(word, bit, later),
            (_, 1) => row.add_by_table::<1>(word, bit, later),
            _ => row.add_by_table::<2>(word, bit, later),
        }
        // Of two words too few rows are left by then, and where words are carried behind
        // the front it saves nothing.
        if V == F && F > 2 {
            cleared[word] |= 1 << bit;
            from += usize::from(cleared[from] == u64::MAX);
        }
    }
    None
}

/// V words of each plane of the D rows of a file, whose planes have W: the first ones,
/// or all, and behind them a 1 in the column of the row's number.
#[inline(always)]
pub(super) fn gathered<const W: usize, const V: usize, const D: usize>(file: &[u8]) -> [Row<V>; D] {
    let mut rows = [Row::ZERO; D];
    for (i, row) in rows.iter_mut().enumerate() {
        let at = row_place::<W>(i);
        for k in 0..W.min(V) {
            row.low[k] = word(file, at + 8 * k);
            row.high[k] = word(file, at + 8 * (W + k));
        }
        if V > W {
            row.low[W + i / 64] = 1 << (i % 64);
        }
    }
    rows
}

/// Whether rows are tied in their V words.
#[inline(always)]
fn tied<const V: usize>(rows: &mut [Row<V>]) -> bool {
    first_tied::<V, V>(rows).is_some()
}

/// Whether the rows of a file are tied. Nearly all that are not tied are not so in
/// their first V words, more columns than rows; only where they are, all W decide.
#[inline(always)]
fn tied_in<const W: usize, const V: usize, const D: usize>(file: &[u8]) -> bool {
    tied(&mut gathered::<W, V, D>(file)) && (V == W || tied(&mut gathered::<W, W, D>(file)))
}

/// Whether the rows of a file of the set whose strings have W words are tied; none of
/// their trits is unfit.
#[inline(never)]
pub(super) fn rows_are_tied<const W: usize>(file: &[u8]) -> bool {
    match W {
        1 => tied_in::<1, 1, 21>(file),
        4 => tied_in::<4, 2, 81>(file),
        _ => tied_in::<8, 3, 162>(file),
    }
}
