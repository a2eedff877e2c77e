//! "Bits and trits" and "The function": bits, sums modulo 2, the circulant.

use super::shape::Shape;

/// "Bit j of a string is bit j mod 8 (bit 0 lowest) of byte j div 8."
pub fn bit(string: &[u8], j: usize) -> u8 {
    string.get(j / 8).map_or(0, |byte| (byte >> (j % 8)) & 1)
}

/// The string of n bytes that has these bits, packed as `bit` reads them.
pub fn pack(n: usize, bit_at: impl Fn(usize) -> u8) -> Vec<u8> {
    let byte_at = |i: usize| (0..8).fold(0, |byte, k| byte | ((bit_at(8 * i + k) & 1) << k));
    (0..n).map(byte_at).collect()
}

/// Bytes `start` to `start + length` of a string, 0 past its end.
pub fn part(string: &[u8], start: usize, length: usize) -> Vec<u8> {
    let rest = string.get(start..).unwrap_or(&[]);
    let mut bytes: Vec<u8> = rest.iter().take(length).copied().collect();
    bytes.resize(length, 0);
    bytes
}

/// "sums modulo 2", bit by bit, of n bytes.
pub fn add_bits(a: &[u8], b: &[u8], n: usize) -> Vec<u8> {
    pack(n, |j| (bit(a, j) + bit(b, j)) % 2)
}

/// "row i, column j holds key bit (j − i) mod 256", with 8n for 256, for i and
/// j below it.
pub fn circulant_entry(key: &[u8], n: usize, i: usize, j: usize) -> u8 {
    let place = if j >= i { j - i } else { (j + 8 * n).saturating_sub(i) };
    bit(key, place)
}

/// "K × label modulo 2", K the circulant of the key, for n bytes: bit i is the
/// sum of row i's entries in the columns where the label has a 1.
pub fn circulant_product(key: &[u8], label: &[u8], n: usize) -> Vec<u8> {
    let columns: Vec<usize> = (0..8 * n).filter(|&j| bit(label, j) == 1).collect();
    pack(n, |i| {
        let ones = columns.iter().filter(|&&j| circulant_entry(key, n, i, j) == 1);
        (ones.count() % 2) as u8
    })
}

/// `add_bits` for keys, labels and masks.
pub fn add(shape: Shape, a: &[u8], b: &[u8]) -> Vec<u8> {
    add_bits(a, b, shape.string_bytes())
}

/// `circulant_product` for keys, labels and masks.
pub fn multiply(shape: Shape, key: &[u8], label: &[u8]) -> Vec<u8> {
    circulant_product(key, label, shape.string_bytes())
}
