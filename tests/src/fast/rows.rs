//! Rows of trits times a vector, modulo 3.

use super::trits::{sum, Trits, Vector};
use super::word;

/// The digits of a code, a byte each, in the places of its planes.
pub(super) struct Digits<const PLACES: usize> {
    digits: [u8; PLACES],
}

impl<const PLACES: usize> Digits<PLACES> {
    #[inline(always)]
    pub(super) fn none() -> Digits<PLACES> {
        Digits { digits: [0; PLACES] }
    }

    #[inline(always)]
    pub(super) fn set(&mut self, i: usize, digit: u8) {
        self.digits[i] = digit;
    }

    /// Writes the code.
    #[inline(always)]
    pub(super) fn write(&self, out: &mut [u8]) {
        let plane = PLACES / 8;
        let out = &mut out[..2 * plane];
        for p in 0..plane {
            let eight = word(&self.digits, 8 * p);
            (out[p], out[plane + p]) = (gathered(eight), gathered(eight >> 1));
        }
    }
}

/// The low bits of eight bytes, in one byte.
#[inline(always)]
pub(super) fn gathered(eight: u64) -> u8 {
    ((eight & 0x0101_0101_0101_0101).wrapping_mul(0x0102_0408_1020_4080) >> 56) as u8
}

/// The sum of a word's digits modulo 3. A number is its bits at even places plus
/// twice those at odd ones: a 1 at an even place counts once where it is not 0, a
/// 2 once more, and at an odd place it is the 1 that counts twice. What is carried
/// out of the word counts 1 again, as 2^64 does.
#[inline(always)]
fn digit_sum(trits: Trits) -> u8 {
    const ODD: u64 = 0xaaaa_aaaa_aaaa_aaaa;
    let again = trits.nonzero & (trits.two ^ ODD);
    let (total, carry) = trits.nonzero.overflowing_add(again);
    ((total + u64::from(carry)) % 3) as u8
}

/// The digit that words of trits add up to, W a power of two: halves are added
/// until one word is left.
#[inline(always)]
fn digit<const W: usize>(mut nonzero: [u64; W], mut two: [u64; W]) -> u8 {
    let mut left = W;
    while left > 1 {
        left /= 2;
        for j in 0..left {
            let other = Trits { nonzero: nonzero[left + j], two: two[left + j] };
            let total = sum(Trits { nonzero: nonzero[j], two: two[j] }, other);
            (nonzero[j], two[j]) = (total.nonzero, total.two);
        }
    }
    digit_sum(Trits { nonzero: nonzero[0], two: two[0] })
}

/// A row times a vector. A product is 0 where a factor is, and else 2 where just
/// one of them is.
#[inline(always)]
pub(super) fn row_digit<const W: usize>(row: Vector<W>, v: Vector<W>) -> u8 {
    let (mut nonzero, mut two) = ([0; W], [0; W]);
    for j in 0..W {
        nonzero[j] = (row.low[j] ^ row.high[j]) & (v.low[j] ^ v.high[j]);
        two[j] = nonzero[j] & (row.high[j] ^ v.high[j]);
    }
    digit(nonzero, two)
}

/// Rows of 16 W bytes times a vector of as many, in a code of these places.
#[inline(never)]
pub fn row_products<const W: usize, const PLACES: usize>(rows: &[u8], v: &[u8], out: &mut [u8]) {
    let v = Vector::<W>::read(v, 0);
    let mut code = Digits::<PLACES>::none();
    for (row, digit) in rows.chunks_exact(16 * W).zip(&mut code.digits) {
        *digit = row_digit(Vector::read(row, 0), v);
    }
    code.write(out);
}
