//! Codes of any number of digits from 57 on, and of 21: two planes that are no
//! whole words.

use super::trits::{sum, Trits};
use super::{part, part_mut, word};

/// The bytes of a plane.
const fn plane(digits: usize) -> usize {
    digits.div_ceil(8)
}

/// The bits of a plane's last byte that are no digit's.
const fn spare(digits: usize) -> usize {
    8 * plane(digits) - digits
}

/// How many words a plane is read by.
const fn words(digits: usize) -> usize {
    plane(digits).div_ceil(8)
}

/// Word k of each plane, and where it starts. The last ends where the plane ends,
/// and shares bytes with the one before; 21 digits have 24 places in one word.
#[inline(always)]
fn planes<const DIGITS: usize>(code: &[u8], k: usize) -> (u64, u64, usize) {
    if DIGITS == 21 {
        let low = u32::from_le_bytes(*part(code, 0)) & 0xff_ffff;
        let high = u32::from_le_bytes(*part(code, 2)) >> 8;
        return (u64::from(low), u64::from(high), 0);
    }
    let last = k + 1 == words(DIGITS);
    let at = if last { plane(DIGITS) - 8 } else { 8 * k };
    (word(code, at), word(code, plane(DIGITS) + at), at)
}

/// Word k of the sum of two codes, and where it starts.
#[inline(always)]
fn sum_word<const DIGITS: usize>(a: &[u8], b: &[u8], k: usize) -> (Trits, usize) {
    let (low, high, at) = planes::<DIGITS>(a, k);
    let (other_low, other_high, _) = planes::<DIGITS>(b, k);
    (sum(Trits::of(low, high), Trits::of(other_low, other_high)), at)
}

/// The sum of two codes.
#[inline(always)]
pub(super) fn add<const DIGITS: usize>(a: &[u8], b: &[u8], out: &mut [u8]) {
    let n = 2 * plane(DIGITS);
    let (a, b, out) = (&a[..n], &b[..n], &mut out[..n]);
    if DIGITS == 21 {
        let (total, _) = sum_word::<DIGITS>(a, b, 0);
        let both = total.low() | (total.two << 24);
        *part_mut(out, 0) = (both as u32).to_le_bytes();
        *part_mut(out, 4) = ((both >> 32) as u16).to_le_bytes();
        return;
    }
    for k in 0..words(DIGITS) {
        let (total, at) = sum_word::<DIGITS>(a, b, k);
        *part_mut(out, at) = total.low().to_le_bytes();
        *part_mut(out, plane(DIGITS) + at) = total.two.to_le_bytes();
    }
}

/// A number that is 0 where no digit of a code has both bits set.
#[inline(always)]
pub(super) fn both_bits<const DIGITS: usize>(code: &[u8]) -> u64 {
    let code = &code[..2 * plane(DIGITS)];
    let mut any = 0;
    for k in 0..words(DIGITS) {
        let (low, high, _) = planes::<DIGITS>(code, k);
        // The last places of the plane hold no digit.
        let last = if DIGITS == 21 { 64 - DIGITS } else { spare(DIGITS) };
        any |= (low & high) << if k + 1 == words(DIGITS) { last } else { 0 };
    }
    any
}

/// The bits of a code that are no digit's.
#[inline(always)]
pub(super) fn spare_bits<const DIGITS: usize>(code: &[u8]) -> u8 {
    let code = &code[..2 * plane(DIGITS)];
    (code[plane(DIGITS) - 1] | code[2 * plane(DIGITS) - 1]) >> (8 - spare(DIGITS))
}

/// The sum of two codes.
#[inline(never)]
pub fn add_codes<const DIGITS: usize>(a: &[u8], b: &[u8], out: &mut [u8]) {
    add::<DIGITS>(a, b, out);
}

/// Whether no digit of a code has both bits set.
#[inline(never)]
pub fn code_fits<const DIGITS: usize>(v: &[u8]) -> bool {
    both_bits::<DIGITS>(v) == 0
}

/// Whether the spare bits of a code are 0.
#[inline(never)]
pub fn spare_bits_clear<const DIGITS: usize>(v: &[u8]) -> bool {
    spare_bits::<DIGITS>(v) == 0
}
