//! The unit: its beginning and its steps, on the bytes of its state.

use super::frame::{expected_side, form_number, reads_file, shared, write_header, HEADER};
use super::matrix::trit_rows;
use super::trits::{share, Vector};
use super::{bits, part_mut, shape, words, write_words};
use crate::reference::frame::{Shared, DEAL, MASK, OPEN, SHARE};
use crate::reference::numbers::{
    NOT_WAITED_FOR, NO_SET, NO_SIDE, OTHER_LINE, OTHER_SESSION, OTHER_SIDE, UNFIT_TRIT,
    WRONG_LENGTH,
};
use crate::reference::shape::Shape;
use crate::state_layout::{SET_AT, STATE_BYTES};

type State = [u8; STATE_BYTES];

/// Where the halves, the deal and its parts, and the own mask stand in a state, and
/// the room of a string.
const KEY: usize = 8;
const ROOM: usize = 64;
const LABEL: usize = KEY + ROOM;
const KEY_MASK: usize = LABEL + ROOM;
const LABEL_MASK: usize = KEY_MASK + ROOM;
const Z: usize = LABEL_MASK + ROOM;
const R: usize = Z + ROOM;
const OWN_MASK: usize = R + 2 * ROOM;
const DONE_STAGE: u8 = 4;

/// The idle state: its set is 1.
const IDLE: State = {
    let mut state = [0; STATE_BYTES];
    state[SET_AT] = 1;
    state
};

/// Begins a unit; a refusal leaves it idle.
#[inline(never)]
pub fn begin(
    set: u32,
    side: u32,
    shared: Shared,
    key: &[u8],
    label: &[u8],
    state: &mut [u8],
) -> u32 {
    let Ok(state) = <&mut State>::try_from(state) else {
        return Shape::named(set).map_or(NO_SET, |_| WRONG_LENGTH);
    };
    let number = with_set!(set, begin_of(side, shared, key, label, state));
    if number != 0 {
        *state = IDLE;
    }
    number
}

/// The same in one set, but for the refusals.
#[inline(always)]
fn begin_of<const W: usize, const D: usize, const P: usize>(
    side: u32,
    shared: Shared,
    key: &[u8],
    label: &[u8],
    state: &mut State,
) -> u32 {
    if key.len() != 8 * W || label.len() != 8 * W {
        return WRONG_LENGTH;
    }
    if side > 1 {
        return NO_SIDE;
    }
    *state = [0; STATE_BYTES];
    write_header(DEAL, side as u8, shared, state);
    state[SET_AT] = shape(W).set as u8;
    write_words::<W>(words(key, 0), state, KEY);
    write_words::<W>(words(label, 0), state, LABEL);
    0
}

/// The number of a step before it looks at what the frame brings.
#[inline(always)]
fn frame_number<const W: usize>(state: &State, frame: &[u8]) -> u32 {
    let number = form_number::<W>(frame, DEAL, MASK);
    if number != 0 {
        return number;
    }
    if shared(frame).session != shared(state).session {
        return OTHER_SESSION;
    }
    if frame[1] != expected_side(frame[0], state[1]) {
        return OTHER_SIDE;
    }
    if frame[0] != state[0] {
        return NOT_WAITED_FOR;
    }
    0
}

/// Hands a unit one frame: what it writes goes to `out`, its length to
/// `written`. A set byte other than 2 and 3 counts as 1.
#[inline(never)]
pub fn step(state: &mut [u8], frame: &[u8], file: &[u8], out: &mut [u8], written: &mut u64) -> u32 {
    *written = 0;
    let Ok(state) = <&mut State>::try_from(state) else {
        return WRONG_LENGTH;
    };
    let set = match state[SET_AT] {
        set @ (2 | 3) => set,
        _ => 1,
    };
    with_set!(set, step_of(state, frame, file, out, written))
}

/// The same in one set.
#[inline(never)]
fn step_of<const W: usize, const D: usize, const P: usize>(
    state: &mut State,
    frame: &[u8],
    file: &[u8],
    out: &mut [u8],
    written: &mut u64,
) -> u32 {
    let wrong_file = reads_file(frame) && file.len() != shape(W).file_bytes();
    if wrong_file || out.len() < shape(W).step_room() {
        return WRONG_LENGTH;
    }
    let number = frame_number::<W>(state, frame);
    if number != 0 {
        return number;
    }
    let (number, length) = match frame[0] {
        DEAL => (take_deal::<W>(state, frame, out), shape(W).open_bytes()),
        OPEN => (take_open::<W>(state, frame, out), shape(W).mask_bytes()),
        _ => (take_mask::<W, P>(state, frame, file, out), shape(W).share_bytes()),
    };
    if number == 0 {
        *written = length as u64;
    }
    number
}

/// Goes on to a stage: the set as it was counted, and zeros behind each field.
#[inline(always)]
fn go_on<const W: usize>(state: &mut State, stage: u8) {
    state[0] = stage;
    state[SET_AT] = shape(W).set as u8;
    for at in [KEY, LABEL, KEY_MASK, LABEL_MASK, Z, OWN_MASK] {
        state[at + 8 * W..at + ROOM].fill(0);
    }
    state[R + 16 * W..OWN_MASK].fill(0);
}

/// It takes a deal, and writes its open frame.
#[inline(always)]
fn take_deal<const W: usize>(state: &mut State, frame: &[u8], out: &mut [u8]) -> u32 {
    let frame = &frame[..shape(W).deal_bytes()];
    let out = &mut out[..shape(W).open_bytes()];
    let r = Vector::<W>::read(frame, shape(W).r_in_deal());
    if !r.fits() {
        return UNFIT_TRIT;
    }
    if shared(frame).line != shared(state).line {
        return OTHER_LINE;
    }
    let dealt = |i: usize| words::<W>(frame, HEADER + 8 * W * i);
    let masks = [dealt(0), dealt(1)];
    write_header(OPEN, state[1], shared(state), out);
    write_words(bits::xor(words(state, KEY), masks[0]), out, HEADER);
    write_words(bits::xor(words(state, LABEL), masks[1]), out, HEADER + 8 * W);
    write_words(masks[0], state, KEY_MASK);
    write_words(masks[1], state, LABEL_MASK);
    write_words(dealt(2), state, Z);
    r.write(state, R);
    write_words([0; W], state, OWN_MASK);
    go_on::<W>(state, OPEN);
    0
}

/// ŵi = K̂ × x̃i + K̃i × x̂ + zi, to which side 0 adds K̂ × x̂. The product is
/// linear in the label, so side 0 multiplies K̂ and x̃0 + x̂ at once.
#[inline(always)]
pub(super) fn own_mask<const W: usize>(
    side: u8,
    [key, label]: [[u64; W]; 2],
    [key_mask, label_mask, z]: [[u64; W]; 3],
) -> [u64; W] {
    let side_mask = u64::from(side == 0).wrapping_neg();
    let added = label.map(|word| word & side_mask);
    let first = bits::product(key, bits::xor(label_mask, added));
    bits::xor(bits::xor(first, bits::product(key_mask, label)), z)
}

/// It takes the other's open frame, and writes its mask frame.
#[inline(always)]
fn take_open<const W: usize>(state: &mut State, frame: &[u8], out: &mut [u8]) -> u32 {
    if shared(frame).line != shared(state).line {
        return OTHER_LINE;
    }
    let frame = &frame[..shape(W).open_bytes()];
    let out = &mut out[..shape(W).mask_bytes()];
    let held = |at| words::<W>(state, at);
    let (key_mask, label_mask) = (held(KEY_MASK), held(LABEL_MASK));
    let summed = |half, mask, at| bits::xor(bits::xor(held(half), mask), words(frame, at));
    let both = [summed(KEY, key_mask, HEADER), summed(LABEL, label_mask, HEADER + 8 * W)];
    let mask = own_mask(state[1], both, [key_mask, label_mask, held(Z)]);
    write_header(MASK, state[1], shared(state), out);
    write_words(mask, out, HEADER);
    write_words(mask, state, OWN_MASK);
    go_on::<W>(state, MASK);
    0
}

/// It takes the other's mask frame, writes its share frame and is done.
#[inline(always)]
fn take_mask<const W: usize, const P: usize>(
    state: &mut State,
    frame: &[u8],
    file: &[u8],
    out: &mut [u8],
) -> u32 {
    let w = bits::xor(words::<W>(state, OWN_MASK), words(frame, HEADER));
    let inner = share(state[1], w, Vector::read(state, R));
    let (number, digits) = trit_rows::<W, P>(file, inner);
    if number != 0 {
        return number;
    }
    if shared(frame).line != shared(state).line {
        return OTHER_LINE;
    }
    write_header(SHARE, state[1], shared(state), out);
    digits.write(&mut out[HEADER..]);
    *part_mut(state, KEY) = [0; STATE_BYTES - KEY];
    (state[0], state[SET_AT]) = (DONE_STAGE, shape(W).set as u8);
    0
}
