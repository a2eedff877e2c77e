//! The same work in Rust written for speed: words of 64 bits, bit-sliced digits,
//! remainders taken once, one pass over the matrix file, ties looked for in as few
//! columns as tell, no allocation, states and frames changed where they stand. All
//! of it is written over the numbers of words and digits and compiled for each set,
//! which a call turns to once. The benchmark runs it beside the proved libraries;
//! the unit tests below compare it with the reference.
//!
//! As in the proved code, no branch and no index depends on a secret, but for
//! what a returned number or count tells. Loops over words are written out: the
//! closures of `from_fn` and `fold` are not always compiled in place.

// A word's place is that of several arrays at once.
#![allow(clippy::needless_range_loop)]

use crate::reference::shape::{Shape, SET_1, SET_2, SET_3};

/// Calls what is compiled for the named set: for the words of its strings, its
/// digits, and the places of its code's planes.
macro_rules! with_set {
    ($set:expr, $call:ident($($argument:expr),*)) => {
        match $set {
            1 => $call::<4, 81, 88>($($argument),*),
            2 => $call::<1, 21, 24>($($argument),*),
            3 => $call::<8, 162, 168>($($argument),*),
            _ => crate::reference::numbers::NO_SET,
        }
    };
}

pub mod bits;
pub mod codes;
pub mod dealer;
mod elimination;
pub mod evaluator;
mod frame;
pub mod join;
pub mod matrix;
pub mod rows;
pub mod run;
pub mod sampler;
pub mod tied_rows;
pub mod trits;
pub mod unit;

#[cfg(test)]
mod tests;
#[cfg(test)]
mod tests_of_calls;
#[cfg(test)]
mod tests_of_ties;

/// The lengths of the set whose strings have so many words.
#[inline(always)]
const fn shape(words: usize) -> Shape {
    match words {
        1 => SET_2,
        4 => SET_1,
        _ => SET_3,
    }
}

/// The part of a slice that starts here and has N bytes.
#[inline(always)]
fn part<const N: usize>(bytes: &[u8], at: usize) -> &[u8; N] {
    bytes[at..].first_chunk().expect("the sizes are those of the set")
}

/// The same, to be written.
#[inline(always)]
fn part_mut<const N: usize>(bytes: &mut [u8], at: usize) -> &mut [u8; N] {
    bytes[at..].first_chunk_mut().expect("the sizes are those of the set")
}

/// The words of the bytes that start here.
#[inline(always)]
fn words<const W: usize>(bytes: &[u8], at: usize) -> [u64; W] {
    let bytes = &bytes[at..at + 8 * W];
    let mut words = [0; W];
    for j in 0..W {
        words[j] = word(bytes, 8 * j);
    }
    words
}

/// The word of the eight bytes that start here.
#[inline(always)]
fn word(bytes: &[u8], at: usize) -> u64 {
    u64::from_le_bytes(*part(bytes, at))
}

/// The bytes of words, written at a place.
#[inline(always)]
fn write_words<const W: usize>(words: [u64; W], out: &mut [u8], at: usize) {
    let out = &mut out[at..at + 8 * W];
    for j in 0..W {
        *part_mut(out, 8 * j) = words[j].to_le_bytes();
    }
}
