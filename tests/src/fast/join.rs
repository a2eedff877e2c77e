//! The counter's join.

use super::codes;
use super::frame::{form_number, shared, HEADER};
use crate::reference::frame::SHARE;
use crate::reference::numbers::{
    OTHER_LINE, OTHER_SESSION, OTHER_SIDE, UNFIT_TRIT, UNUSED_BIT, WRONG_LENGTH,
};

/// The lower of two numbers, where 0 is none.
#[inline(always)]
fn lower(a: u32, b: u32) -> u32 {
    if a == 0 || (b != 0 && b < a) {
        b
    } else {
        a
    }
}

/// The code of two share frames, side 0's first.
#[inline(never)]
pub fn join(set: u32, share0: &[u8], share1: &[u8], out: &mut [u8]) -> u32 {
    with_set!(set, join_of(share0, share1, out))
}

/// The same in one set.
#[inline(never)]
fn join_of<const W: usize, const D: usize, const P: usize>(
    share0: &[u8],
    share1: &[u8],
    out: &mut [u8],
) -> u32 {
    if out.len() < P / 4 {
        return WRONG_LENGTH;
    }
    let form = |share| form_number::<W>(share, SHARE, SHARE);
    let number = lower(form(share0), form(share1));
    if number != 0 {
        return number;
    }
    if shared(share0).session != shared(share1).session {
        return OTHER_SESSION;
    }
    if share0[1] != 0 || share1[1] != 1 {
        return OTHER_SIDE;
    }
    let (a, b) = (&share0[HEADER..], &share1[HEADER..]);
    if codes::both_bits::<D>(a) | codes::both_bits::<D>(b) != 0 {
        return UNFIT_TRIT;
    }
    if codes::spare_bits::<D>(a) | codes::spare_bits::<D>(b) != 0 {
        return UNUSED_BIT;
    }
    if shared(share0).line != shared(share1).line {
        return OTHER_LINE;
    }
    codes::add::<D>(a, b, out);
    0
}
