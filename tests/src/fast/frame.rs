//! Frames: kinds, lengths and the header, read and written where they stand.

use super::{part, part_mut, shape};
use crate::reference::frame::{Shared, DEAL, MASK, OPEN};
use crate::reference::numbers::{FRAME_LENGTH, NO_KIND};

pub(super) const HEADER: usize = 7;

/// The session and the line in a frame or a state that has a header.
#[inline(always)]
pub(super) fn shared(bytes: &[u8]) -> Shared {
    Shared { session: u32::from_le_bytes(*part(bytes, 2)), line: bytes[6] }
}

/// Writes a header to the beginning of a frame or a state.
#[inline(always)]
pub(super) fn write_header(kind: u8, side: u8, shared: Shared, out: &mut [u8]) {
    let [a, b, c, d] = shared.session.to_le_bytes();
    *part_mut(out, 0) = [kind, side, a, b, c, d, shared.line];
}

/// The length of a frame of this kind, 1 to 4.
#[inline(always)]
fn length<const W: usize>(kind: u8) -> usize {
    match kind {
        DEAL => shape(W).deal_bytes(),
        OPEN => shape(W).open_bytes(),
        MASK => shape(W).mask_bytes(),
        _ => shape(W).share_bytes(),
    }
}

/// 3 or 4 of a frame whose kind may be `lowest` to `highest`, or 0.
#[inline(always)]
pub(super) fn form_number<const W: usize>(frame: &[u8], lowest: u8, highest: u8) -> u32 {
    if frame.len() < HEADER || frame[0] < lowest || frame[0] > highest {
        return NO_KIND;
    }
    if frame.len() != length::<W>(frame[0]) {
        return FRAME_LENGTH;
    }
    0
}

/// Whether a step reads the file.
#[inline(always)]
pub(super) fn reads_file(frame: &[u8]) -> bool {
    frame.first() == Some(&MASK)
}

/// The side that a frame must name to a unit of this side.
#[inline(always)]
pub(super) fn expected_side(kind: u8, side: u8) -> u8 {
    if kind == DEAL {
        side
    } else {
        u8::from(side == 0)
    }
}
