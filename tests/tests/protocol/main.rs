//! Compares the C interface of the static library `protocol` with the
//! reference: each call alone, whole runs, any states, and paired runs.

mod calls;
mod frames;
#[path = "../interface/mod.rs"]
mod interface;
mod join;
mod lines;
mod runs;
mod sampler;
mod sets;
mod states;
mod ties;
mod unit;
mod views;
