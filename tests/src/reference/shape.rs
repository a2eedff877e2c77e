//! The sizes that every length follows from, and the three sets.

use super::frame::HEADER_BYTES;
use super::matrix::BLOCK_BYTES;
use super::numbers::{Answer, NO_SET};

/// "A set is a number n of key, label and inner bits with t digits"; with them
/// the rows that a block holds and the set's own number. The laws are tried at
/// other sizes too, n any positive multiple of 8 and t any number from 1.
#[derive(Clone, Copy, Debug, PartialEq, Eq)]
pub struct Shape {
    pub set: u32,
    pub bits: usize,
    pub digits: usize,
    pub block_rows: usize,
}

/// "set 1 is 256 and 81, set 2 is 64 and 21, set 3 is 512 and 162"; "A block
/// holds 7, 28 or 3 rows".
pub const SET_1: Shape = Shape { set: 1, bits: 256, digits: 81, block_rows: 7 };
pub const SET_2: Shape = Shape { set: 2, bits: 64, digits: 21, block_rows: 28 };
pub const SET_3: Shape = Shape { set: 3, bits: 512, digits: 162, block_rows: 3 };
pub const SETS: [Shape; 3] = [SET_1, SET_2, SET_3];

impl Shape {
    /// The set that a number names.
    pub fn named(set: u32) -> Option<Shape> {
        SETS.into_iter().find(|shape| shape.set == set)
    }

    /// A key, a label or a mask: n bits.
    pub const fn string_bytes(self) -> usize {
        self.bits / 8
    }

    /// "a row n/4", and so an inner trit vector: two planes of n bits.
    pub const fn vector_bytes(self) -> usize {
        self.bits / 4
    }

    /// "code planes have t/8 bytes rounded up"
    pub const fn code_plane(self) -> usize {
        self.digits.div_ceil(8)
    }

    pub const fn code_bytes(self) -> usize {
        2 * self.code_plane()
    }

    /// "A tape has n bytes"
    pub const fn tape_bytes(self) -> usize {
        self.bits
    }

    /// "for all that stands before r0", which the sampler copies.
    pub const fn copied_bytes(self) -> usize {
        self.tape_bytes() - self.vector_bytes()
    }

    /// The same in pairs of bits.
    pub const fn copied_pairs(self) -> usize {
        4 * self.copied_bytes()
    }

    /// All rows of a matrix.
    pub const fn row_set_bytes(self) -> usize {
        self.digits * self.vector_bytes()
    }

    /// "Each row takes two bytes, row number then digit, in a lent slice of 2 × t bytes"
    pub const fn tie_bytes(self) -> usize {
        2 * self.digits
    }

    /// "so the files have 12, 1 and 54 blocks"
    pub const fn blocks(self) -> usize {
        self.digits.div_ceil(self.block_rows)
    }

    /// The rows before a block.
    pub const fn rows_before_block(self, number: usize) -> usize {
        self.block_rows * number
    }

    /// "the last block only what remains"
    pub const fn rows_in_block(self, number: usize) -> usize {
        let rest = self.digits.saturating_sub(self.rows_before_block(number));
        if rest < self.block_rows {
            rest
        } else {
            self.block_rows
        }
    }

    pub const fn file_bytes(self) -> usize {
        self.blocks() * BLOCK_BYTES
    }

    /// A unit's deal is three strings and a trit vector.
    pub const fn deal_bytes(self) -> usize {
        HEADER_BYTES + 3 * self.string_bytes() + self.vector_bytes()
    }

    /// Where ri, the deal's last part, stands in a deal frame.
    pub const fn r_in_deal(self) -> usize {
        self.deal_bytes() - self.vector_bytes()
    }

    /// Key half and label half, each masked.
    pub const fn open_bytes(self) -> usize {
        HEADER_BYTES + 2 * self.string_bytes()
    }

    pub const fn mask_bytes(self) -> usize {
        HEADER_BYTES + self.string_bytes()
    }

    pub const fn share_bytes(self) -> usize {
        HEADER_BYTES + self.code_bytes()
    }

    /// Both deal frames.
    pub const fn dealt_bytes(self) -> usize {
        2 * self.deal_bytes()
    }

    /// The least output slice of a step: its longest frame.
    pub const fn step_room(self) -> usize {
        self.open_bytes()
    }
}

/// "A set other than 1 to 3 named at a call gives 14, looked at before all other
/// numbers": the call with the set's sizes, or the refusal.
pub fn with_set(set: u32, call: impl FnOnce(Shape) -> Answer) -> Answer {
    Shape::named(set).map_or(Answer::refused(NO_SET), call)
}
