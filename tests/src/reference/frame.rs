//! "Frames": kinds, lengths and the header.

use super::numbers::{FRAME_LENGTH, NO_KIND};
use super::shape::Shape;

pub const DEAL: u8 = 1;
pub const OPEN: u8 = 2;
pub const MASK: u8 = 3;
pub const SHARE: u8 = 4;

/// "kind, side, session (four bytes, lowest first)" and "a line byte after the
/// session", "so headers have seven bytes"
pub const HEADER_BYTES: usize = 7;

/// What the frames of a run have alike, whichever unit or dealer wrote them.
#[derive(Clone, Copy, Debug, PartialEq, Eq)]
pub struct Shared {
    pub session: u32,
    /// "0 bikes, 1 storage, others free"
    pub line: u8,
}

/// A frame taken apart.
#[derive(Clone, Debug, PartialEq, Eq)]
pub struct Frame {
    pub kind: u8,
    pub side: u8,
    pub shared: Shared,
    pub body: Vec<u8>,
}

/// "whole length" of each kind of the table.
pub fn length_of_kind(shape: Shape, kind: u8) -> Option<usize> {
    match kind {
        DEAL => Some(shape.deal_bytes()),
        OPEN => Some(shape.open_bytes()),
        MASK => Some(shape.mask_bytes()),
        SHARE => Some(shape.share_bytes()),
        _ => None,
    }
}

/// "kind, side, session (four bytes, lowest first)", line, "then the body"
pub fn frame_of(kind: u8, side: u8, shared: Shared, body: &[u8]) -> Vec<u8> {
    [&[kind, side], &shared.session.to_le_bytes()[..], &[shared.line], body].concat()
}

/// "A frame is first read to its kind, side, session" (its line) "and body length,
/// or to its refusal": 3 or 4, with the kinds that the call takes. No frame names a set: one
/// of another set has another length.
pub fn read_frame(shape: Shape, frame: &[u8], kinds: &[u8]) -> Result<Frame, u32> {
    let [kind, side, a, b, c, d, line, body @ ..] = frame else {
        return Err(NO_KIND);
    };
    if !kinds.contains(kind) {
        return Err(NO_KIND);
    }
    if length_of_kind(shape, *kind) != Some(frame.len()) {
        return Err(FRAME_LENGTH);
    }
    Ok(Frame {
        kind: *kind,
        side: *side,
        shared: Shared { session: u32::from_le_bytes([*a, *b, *c, *d]), line: *line },
        body: body.to_vec(),
    })
}
