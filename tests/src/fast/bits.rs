//! Sums and the circulant product modulo 2, of W words.

use super::{words, write_words};

/// The sum of words and words.
#[inline(always)]
pub(super) fn xor<const W: usize>(mut a: [u64; W], b: [u64; W]) -> [u64; W] {
    for j in 0..W {
        a[j] ^= b[j];
    }
    a
}

/// The sum of two strings.
#[inline(never)]
pub fn add_bits<const W: usize>(a: &[u8], b: &[u8], out: &mut [u8]) {
    write_words::<W>(xor(words(a, 0), words(b, 0)), out, 0);
}

/// A string added to another in place.
#[inline(never)]
pub fn add_bits_to<const W: usize>(a: &[u8], out: &mut [u8]) {
    write_words::<W>(xor(words(a, 0), words(out, 0)), out, 0);
}

/// The circulant of a key times a label: the places of a key's words are taken
/// from the last to the first, K in a step. A step turns the total by K places
/// and adds, for each of its places q and each word w, the label turned by q
/// places and w words under the mask of that bit of the key. A label that stands
/// twice over has its turns by words as W words in a row. The masks of a step are
/// taken before any is used: a mask that is made where it is used may be compiled
/// to a branch on the key's bit.
#[inline(always)]
fn product_by<const W: usize, const K: usize>(key: [u64; W], label: [u64; W]) -> [u64; W] {
    let mut labels = [[label; 2]; K];
    for q in 1..K {
        labels[q] = [turned(label, q); 2];
    }
    let mut total = [0; W];
    for step in (0..64 / K).rev() {
        let mut masks = [[0; W]; K];
        for q in 0..K {
            for w in 0..W {
                masks[q][w] = ((key[w] >> (K * step + q)) & 1).wrapping_neg();
            }
        }
        total = turned(total, K);
        for q in 0..K {
            for w in 0..W {
                for j in 0..W {
                    total[j] ^= labels[q][(w + j) / W][(w + j) % W] & masks[q][w];
                }
            }
        }
    }
    total
}

/// Words turned by some places, more than none and less than a word's.
#[inline(always)]
fn turned<const W: usize>(words: [u64; W], places: usize) -> [u64; W] {
    let mut next = words;
    for j in 0..W {
        next[j] = (words[j] >> places) | (words[(j + 1) % W] << (64 - places));
    }
    next
}

/// The product with as many places in a step as was fastest for its words.
#[inline(never)]
pub(super) fn product<const W: usize>(key: [u64; W], label: [u64; W]) -> [u64; W] {
    match W {
        1 => product_by::<W, 8>(key, label),
        2..=4 => product_by::<W, 2>(key, label),
        _ => product_by::<W, 4>(key, label),
    }
}

/// The circulant of a key times a label, of 8 W bytes.
#[inline(never)]
pub fn circulant_product_words<const W: usize>(key: &[u8], label: &[u8], out: &mut [u8]) {
    write_words::<W>(product(words(key, 0), words(label, 0)), out, 0);
}
