//! The sampler: a tape from source bytes. Which pairs are skipped, and so where
//! the others go, says nothing of the others' values; no branch and no index
//! depends on those.

use super::rows::gathered;
use super::{part_mut, shape, word};
use crate::reference::numbers::{NO_SET, SHORT_SOURCE, WRONG_LENGTH};

/// A source of so many bytes has more pairs than 64 bits count.
const UNCOUNTED: usize = 1 << 62;

/// The room for the trits of W words: a byte's four pairs may go past the last one
/// by three.
pub(super) const fn room(words: usize) -> usize {
    64 * words + 3
}

/// Writes the two planes of the trits.
#[inline(always)]
fn pack<const W: usize, const ROOM: usize>(trits: &[u8; ROOM], out: &mut [u8]) {
    let out = &mut out[..16 * W];
    for i in 0..8 * W {
        let eight = word(trits, 8 * i);
        (out[i], out[8 * W + i]) = (gathered(eight), gathered(eight >> 1));
    }
}

/// The trits of one byte's pairs, behind those found before; how many there are
/// then.
#[inline(always)]
fn take_four<const ROOM: usize>(byte: u8, trits: &mut [u8; ROOM], mut found: usize) -> usize {
    for k in 0..4 {
        let pair = byte >> (2 * k) & 3;
        // A skipped pair is written over by the next one.
        trits[found] = pair;
        found += usize::from(pair != 3);
    }
    found
}

/// How many of a byte's pairs are read, where it has so many trits past the last
/// one that is wanted.
#[inline(always)]
fn pairs_read(byte: u8, past: usize) -> usize {
    // The low bit of each pair that is a trit.
    let mut trits = !(byte & byte >> 1) & 0x55;
    for _ in 0..past {
        trits ^= 1 << trits.ilog2();
    }
    trits.ilog2() as usize / 2 + 1
}

/// Draws the trits from this bit of this byte on; gives the next unread pair, or
/// nothing where there are too few.
#[inline(always)]
fn draw<const W: usize, const ROOM: usize>(
    source: &[u8],
    at: usize,
    bit: usize,
    trits: &mut [u8; ROOM],
) -> Option<usize> {
    let (first, later) = source.get(at..)?.split_first()?;
    // Pairs before the first one are made threes, which are skipped.
    let mut found = take_four(first | ((1 << bit) - 1), trits, 0);
    let mut taken = 0;
    while found < 64 * W {
        found = take_four(*later.get(taken)?, trits, found);
        taken += 1;
    }
    let last = at + taken;
    Some(4 * last + pairs_read(source[last], found - 64 * W))
}

/// Copies what begins at this bit of the first byte, by words where bytes are not
/// whole. The source has a word more, since trits come after what is copied.
#[inline(always)]
fn copy<const W: usize>(source: &[u8], bit: usize, out: &mut [u8]) {
    let copied = shape(W).copied_bytes();
    let (source, out) = (&source[..copied + 8], &mut out[..copied]);
    if bit == 0 {
        out.copy_from_slice(&source[..copied]);
        return;
    }
    for j in 0..copied / 8 {
        let moved = word(source, 8 * j) >> bit | word(source, 8 * j + 8) << (64 - bit);
        *part_mut(out, 8 * j) = moved.to_le_bytes();
    }
}

/// A tape of a source's pairs from a start on, and the next unread pair.
#[inline(never)]
pub fn sample(set: u32, start: u64, source: &[u8], out: &mut [u8], next: &mut u64) -> u32 {
    *next = 0;
    match set {
        1 => sample_of::<4, { room(4) }>(start, source, out, next),
        2 => sample_of::<1, { room(1) }>(start, source, out, next),
        3 => sample_of::<8, { room(8) }>(start, source, out, next),
        _ => NO_SET,
    }
}

/// The same in one set.
#[inline(never)]
pub(super) fn sample_of<const W: usize, const ROOM: usize>(
    start: u64,
    source: &[u8],
    out: &mut [u8],
    next: &mut u64,
) -> u32 {
    if out.len() < shape(W).tape_bytes() {
        return WRONG_LENGTH;
    }
    let (at, bit) = ((start / 4) as usize, (start % 4 * 2) as usize);
    let mut trits = [0; ROOM];
    match draw::<W, ROOM>(source, at + shape(W).copied_bytes(), bit, &mut trits) {
        Some(pair) if source.len() < UNCOUNTED => *next = pair as u64,
        _ => return SHORT_SOURCE,
    }
    let (copied, vector) = out.split_at_mut(shape(W).copied_bytes());
    copy::<W>(&source[at..], bit, copied);
    pack::<W, ROOM>(&trits, vector);
    0
}
