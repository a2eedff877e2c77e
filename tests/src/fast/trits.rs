//! Trit vectors of two planes of W words, and codes, modulo 3.

use super::{words, write_words};

/// Trits in a word each of where a digit is not 0 and of where it is 2.
#[derive(Clone, Copy)]
pub(super) struct Trits {
    pub(super) nonzero: u64,
    pub(super) two: u64,
}

impl Trits {
    /// Of a word of each plane; both bits set count as 0.
    #[inline(always)]
    pub(super) fn of(low: u64, high: u64) -> Trits {
        let nonzero = low ^ high;
        Trits { nonzero, two: nonzero & high }
    }

    /// Bits as trits.
    #[inline(always)]
    fn bits(bits: u64) -> Trits {
        Trits { nonzero: bits, two: 0 }
    }

    /// The low plane's word; the high plane's is `two`.
    #[inline(always)]
    pub(super) fn low(self) -> u64 {
        self.nonzero ^ self.two
    }
}

/// The sum of trits, in six operations.
#[inline(always)]
pub(super) fn sum(a: Trits, b: Trits) -> Trits {
    let (s, t) = (a.nonzero ^ b.two, a.two ^ b.nonzero);
    Trits { nonzero: (t ^ b.two) | (s ^ a.two), two: s & t }
}

/// 64 W trits, as they are read: both bits of one may be set.
#[derive(Clone, Copy)]
pub(super) struct Vector<const W: usize> {
    pub(super) low: [u64; W],
    pub(super) high: [u64; W],
}

impl<const W: usize> Vector<W> {
    #[inline(always)]
    pub(super) fn read(bytes: &[u8], at: usize) -> Vector<W> {
        let bytes = &bytes[at..at + 16 * W];
        Vector { low: words(bytes, 0), high: words(bytes, 8 * W) }
    }

    #[inline(always)]
    pub(super) fn write(self, out: &mut [u8], at: usize) {
        let out = &mut out[at..at + 16 * W];
        write_words(self.low, out, 0);
        write_words(self.high, out, 8 * W);
    }

    #[inline(always)]
    fn zero() -> Vector<W> {
        Vector { low: [0; W], high: [0; W] }
    }

    #[inline(always)]
    fn set(&mut self, j: usize, trits: Trits) {
        (self.low[j], self.high[j]) = (trits.low(), trits.two);
    }

    /// The places with both bits set, gathered in one word.
    #[inline(always)]
    pub(super) fn both_bits(self) -> u64 {
        let mut both = 0;
        for j in 0..W {
            both |= self.low[j] & self.high[j];
        }
        both
    }

    #[inline(always)]
    pub(super) fn fits(self) -> bool {
        self.both_bits() == 0
    }

    /// Whether all trits are 0. A row is public and mostly told by its first word.
    #[inline(always)]
    pub(super) fn is_zero(self) -> bool {
        let mut any = 0;
        for j in 0..W {
            any |= self.low[j] | self.high[j];
        }
        self.low[0] == 0 && any == 0
    }
}

/// The bits w less the trits r: a trit with its planes in the other order is
/// its negative.
#[inline(always)]
pub(super) fn difference<const W: usize>(w: [u64; W], r: Vector<W>) -> Vector<W> {
    let mut less = Vector::zero();
    for j in 0..W {
        less.set(j, sum(Trits::bits(w[j]), Trits::of(r.high[j], r.low[j])));
    }
    less
}

/// r + ŵ × r, to which side 0 adds ŵ: 1 and 2 change places in r where ŵ has a 1.
#[inline(always)]
pub(super) fn share<const W: usize>(side: u8, w: [u64; W], r: Vector<W>) -> Vector<W> {
    let side_mask = u64::from(side == 0).wrapping_neg();
    let mut share = Vector::zero();
    for j in 0..W {
        let nonzero = r.low[j] ^ r.high[j];
        let own = Trits { nonzero, two: nonzero & (r.high[j] ^ w[j]) };
        share.set(j, sum(own, Trits::bits(w[j] & side_mask)));
    }
    share
}

/// The bits w less the trits r, 16 W bytes.
#[inline(never)]
pub fn subtract_trits<const W: usize>(w: &[u8], r: &[u8], out: &mut [u8]) {
    difference::<W>(words(w, 0), Vector::read(r, 0)).write(out, 0);
}

/// The inner share of a side, of ŵ and r, 16 W bytes.
#[inline(never)]
pub fn inner_share<const W: usize>(side: u8, w: &[u8], r: &[u8], out: &mut [u8]) {
    share::<W>(side, words(w, 0), Vector::read(r, 0)).write(out, 0);
}

/// Whether no trit of a vector of 16 W bytes has both bits set.
#[inline(never)]
pub fn trits_fit<const W: usize>(v: &[u8]) -> bool {
    Vector::<W>::read(v, 0).fits()
}

/// Whether all trits of a row of 16 W bytes are 0.
#[inline(never)]
pub fn row_is_zero<const W: usize>(row: &[u8]) -> bool {
    Vector::<W>::read(row, 0).is_zero()
}
