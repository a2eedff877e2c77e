//! Document 01, with what document 02 has changed, in Rust, sentence by sentence:
//! plain rather than fast, and total: no function panics on any input.
//! Sentences that name a size of set 1 are read with that of the shape.
//!
//! A byte past the end of a string counts as 0 in the functions of `bits` and
//! `trits`; the calls above them refuse other lengths than stated.

pub mod bits;
pub mod dealer;
pub mod elimination;
pub mod evaluator;
pub mod frame;
pub mod join;
pub mod matrix;
pub mod numbers;
pub mod pairing;
pub mod program;
pub mod shape;
pub mod tied_rows;
pub mod trits;
pub mod unit;

#[cfg(test)]
mod examples;
#[cfg(test)]
mod laws;
#[cfg(test)]
mod ties;
