//! A whole run in one place: what the dealer and each unit compute, without the
//! frames between them, one pass over the file for both shares, and the join.

use super::dealer::{second_r, second_z};
use super::matrix::rows_of_both;
use super::trits::{share, Vector};
use super::unit::own_mask;
use super::{bits, codes, part, words};
use crate::reference::numbers::{BLOCK_CHECK, BLOCK_LAYOUT, UNFIT_TRIT, WRONG_LENGTH};
use crate::reference::program::INPUT_BYTES;
use crate::reference::shape::SET_1;

/// Where the halves, the tape and the file stand in the input.
const KEYS: usize = 0;
const LABELS: usize = 64;
const TAPE: usize = 128;
const FILE: usize = TAPE + SET_1.tape_bytes();
const R0: usize = SET_1.copied_bytes();

/// The inner shares of both units.
#[inline(always)]
fn inner_shares(input: &[u8; INPUT_BYTES]) -> [Vector<4>; 2] {
    let tape: &[u8; SET_1.tape_bytes()] = part(input, TAPE);
    let half = |at| words(input, at);
    let masks = |at: usize| [words(tape, at), words(tape, at + 32)];
    let (key_masks, label_masks) = (masks(0), masks(64));
    let open = |halves: usize, masks: [[u64; 4]; 2]| {
        let first = bits::xor(half(halves), masks[0]);
        bits::xor(first, bits::xor(half(halves + 32), masks[1]))
    };
    let both = [open(KEYS, key_masks), open(LABELS, label_masks)];
    let z = [words(tape, 160), second_z(tape)];
    let mask = |i: usize| own_mask(i as u8, both, [key_masks[i], label_masks[i], z[i]]);
    let w = bits::xor(mask(0), mask(1));
    [share(0, w, Vector::read(tape, R0)), share(1, w, second_r(tape))]
}

/// The code of two key halves, two label halves, tape and matrix file.
#[inline(never)]
pub fn pair_run(input: &[u8], out: &mut [u8]) -> u32 {
    let (Ok(input), Some(out)) =
        (<&[u8; INPUT_BYTES]>::try_from(input), out.first_chunk_mut::<22>())
    else {
        return WRONG_LENGTH;
    };
    let (number, digits) = rows_of_both::<4, 88>(&input[FILE..], inner_shares(input));
    let tape_fits = Vector::<4>::read(input, TAPE + R0).fits();
    if !tape_fits && number != BLOCK_CHECK && number != BLOCK_LAYOUT {
        return UNFIT_TRIT;
    }
    if number != 0 {
        return number;
    }
    let mut shares = [[0; 22]; 2];
    digits[0].write(&mut shares[0]);
    digits[1].write(&mut shares[1]);
    codes::add::<81>(&shares[0], &shares[1], out);
    0
}
