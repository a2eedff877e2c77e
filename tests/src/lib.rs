//! An independent reference of documents 01 and 02 and what the tests share.
//!
//! The reference is written from the documents alone, to be read and believed;
//! the tests compare the proved libraries with it byte by byte.

pub mod fast;
pub mod guarded;
pub mod matrices;
pub mod random;
pub mod reference;
pub mod samples;
pub mod state_layout;
