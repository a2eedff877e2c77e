//! Compares the proved static library `linear` with the reference: each
//! function gives the reference's bytes and leaves every other byte, at every
//! length and with inputs that are shorter and longer than the output asks.

mod lengths;
mod library;
mod products;
mod sums;
mod truths;
