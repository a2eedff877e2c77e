//! The dealer: both deal frames, of a tape or of source bytes.

use super::frame::{write_header, HEADER};
use super::sampler::{room, sample_of};
use super::{bits, shape, trits, words, write_words};
use crate::reference::frame::{Shared, DEAL};
use crate::reference::numbers::{NO_SET, UNFIT_TRIT, WRONG_LENGTH};

/// String i of a tape's six: K̃0, K̃1, x̃0, x̃1, w̃, z0.
#[inline(always)]
fn string<const W: usize>(tape: &[u8], i: usize) -> [u64; W] {
    words(tape, 8 * W * i)
}

/// r0, which comes after them.
#[inline(always)]
fn first_r<const W: usize>(tape: &[u8]) -> trits::Vector<W> {
    trits::Vector::read(tape, shape(W).copied_bytes())
}

/// z1 = z0 + K̃ × x̃ + w̃ modulo 2.
#[inline(always)]
pub(super) fn second_z<const W: usize>(tape: &[u8]) -> [u64; W] {
    let key_mask = bits::xor(string::<W>(tape, 0), string(tape, 1));
    let label_mask = bits::xor(string(tape, 2), string(tape, 3));
    bits::xor(bits::product(key_mask, label_mask), bits::xor(string(tape, 5), string(tape, 4)))
}

/// r1 = w̃ − r0 modulo 3.
#[inline(always)]
pub(super) fn second_r<const W: usize>(tape: &[u8]) -> trits::Vector<W> {
    trits::difference(string(tape, 4), first_r(tape))
}

/// Writes one deal frame.
#[inline(always)]
fn write_deal<const W: usize>(
    side: u8,
    shared: Shared,
    strings: [[u64; W]; 3],
    r: trits::Vector<W>,
    out: &mut [u8],
) {
    let out = &mut out[..shape(W).deal_bytes()];
    write_header(DEAL, side, shared, out);
    for i in 0..3 {
        write_words(strings[i], out, HEADER + 8 * W * i);
    }
    r.write(out, shape(W).r_in_deal());
}

/// Writes both deal frames of a session and a line, and of a tape.
#[inline(always)]
fn write_deals<const W: usize>(shared: Shared, tape: &[u8], out: &mut [u8]) {
    let tape = &tape[..shape(W).tape_bytes()];
    let (first, second) = out.split_at_mut(shape(W).deal_bytes());
    let strings = [string(tape, 0), string(tape, 2), string(tape, 5)];
    write_deal::<W>(0, shared, strings, first_r(tape), first);
    let strings = [string(tape, 1), string(tape, 3), second_z(tape)];
    write_deal::<W>(1, shared, strings, second_r(tape), second);
}

/// Both deal frames of a session, a line and a tape.
#[inline(never)]
pub fn deal(set: u32, shared: Shared, tape: &[u8], out: &mut [u8]) -> u32 {
    with_set!(set, deal_of(shared, tape, out))
}

/// The same in one set.
#[inline(never)]
fn deal_of<const W: usize, const D: usize, const P: usize>(
    shared: Shared,
    tape: &[u8],
    out: &mut [u8],
) -> u32 {
    if tape.len() != shape(W).tape_bytes() || out.len() < shape(W).dealt_bytes() {
        return WRONG_LENGTH;
    }
    if !first_r::<W>(tape).fits() {
        return UNFIT_TRIT;
    }
    write_deals::<W>(shared, tape, out);
    0
}

/// Both deal frames of the tape that the sampler makes of a source's pairs from a
/// start on, and the next unread pair.
#[inline(never)]
pub fn deal_source(
    set: u32,
    shared: Shared,
    start: u64,
    source: &[u8],
    out: &mut [u8],
    next: &mut u64,
) -> u32 {
    *next = 0;
    match set {
        1 => deal_source_of::<4, 256, { room(4) }>(shared, start, source, out, next),
        2 => deal_source_of::<1, 64, { room(1) }>(shared, start, source, out, next),
        3 => deal_source_of::<8, 512, { room(8) }>(shared, start, source, out, next),
        _ => NO_SET,
    }
}

/// The same in one set, whose tape has N bytes.
#[inline(never)]
fn deal_source_of<const W: usize, const N: usize, const ROOM: usize>(
    shared: Shared,
    start: u64,
    source: &[u8],
    out: &mut [u8],
    next: &mut u64,
) -> u32 {
    if out.len() < shape(W).dealt_bytes() {
        return WRONG_LENGTH;
    }
    let mut tape = [0; N];
    let number = sample_of::<W, ROOM>(start, source, &mut tape, next);
    if number == 0 {
        write_deals::<W>(shared, &tape, out);
    }
    number
}
