//! "Bits and trits": trit vectors in two planes, sums and products modulo 3.
//!
//! m is always the number of bytes of one plane, so 8m trits have 2m bytes.

use super::bits::{bit, pack, part};

/// The two bits of one place, as 0 to 3.
fn place(vector: &[u8], m: usize, j: usize) -> u8 {
    bit(vector, j) + 2 * bit(vector, 8 * m + j)
}

/// "a trit is its low bit plus 2 × its high bit", planes low first; an unfit
/// 3 counts as 0 modulo 3.
pub fn trit(vector: &[u8], m: usize, j: usize) -> u8 {
    place(vector, m, j) % 3
}

/// "A trit vector has two planes, low first, then high, each packed like bits".
pub fn pack_trits(m: usize, trit_at: impl Fn(usize) -> u8) -> Vec<u8> {
    let low = pack(m, |j| trit_at(j) % 2);
    let high = pack(m, |j| trit_at(j) / 2);
    [low, high].concat()
}

/// Sums modulo 3, place by place.
pub fn add_trits(a: &[u8], b: &[u8], m: usize) -> Vec<u8> {
    pack_trits(m, |j| (trit(a, m, j) + trit(b, m, j)) % 3)
}

/// "w̃ − r0 modulo 3": bits w, read as trits, minus trits r.
pub fn subtract_trits(w: &[u8], r: &[u8], m: usize) -> Vec<u8> {
    pack_trits(m, |j| (bit(w, j) + 3 - trit(r, m, j)) % 3)
}

/// "Unit i's inner share is ri + ŵ × ri modulo 3, place by place; side 0 also
/// adds ŵ."
pub fn inner_share(side: u8, w: &[u8], r: &[u8], m: usize) -> Vec<u8> {
    pack_trits(m, |j| {
        let own = trit(r, m, j) + bit(w, j) * trit(r, m, j);
        let added = if side == 0 { bit(w, j) } else { 0 };
        (own + added) % 3
    })
}

/// One row times a vector of 8m trits, modulo 3.
pub fn row_product(row: &[u8], vector: &[u8], m: usize) -> u8 {
    let terms = (0..8 * m).map(|j| usize::from(trit(row, m, j) * trit(vector, m, j)));
    (terms.sum::<usize>() % 3) as u8
}

/// "Code y = B × w modulo 3": t rows of 2m bytes, one after the other, times a
/// vector of 8m trits, in planes of p bytes; places without a row are 0.
pub fn matrix_product(rows: &[u8], vector: &[u8], t: usize, m: usize, p: usize) -> Vec<u8> {
    let digits: Vec<u8> =
        (0..t.min(8 * p)).map(|i| row_product(&part(rows, 2 * m * i, 2 * m), vector, m)).collect();
    pack_trits(p, |i| digits.get(i).copied().unwrap_or(0))
}

/// "both bits set is unfit": whether none of the first t trits is.
pub fn trits_fit(vector: &[u8], t: usize) -> bool {
    let m = vector.len() / 2;
    (0..t.min(8 * m)).all(|j| place(vector, m, j) != 3)
}

/// "the seven highest bits of each plane's last byte are unused and zero":
/// whether both planes are zero from place t on.
pub fn spare_bits_clear(vector: &[u8], t: usize) -> bool {
    let m = vector.len() / 2;
    (t..8 * m).all(|j| place(vector, m, j) == 0)
}

/// "a row is all zero", both planes.
pub fn row_is_zero(row: &[u8]) -> bool {
    spare_bits_clear(row, 0)
}

/// A bit string read as trits ("w read as trits").
pub fn bits_as_trits(w: &[u8], m: usize) -> Vec<u8> {
    pack_trits(m, |j| bit(w, j))
}
