//! Random inputs that the calls accept, and single faults put into them.

use crate::matrices;
use crate::random::Random;
use crate::reference::matrix::{
    block_of, block_sums, file_of_rows, row_place, rows_end, rows_of_file, BLOCK_BYTES, CHECK_AT,
};
use crate::reference::program::Inputs;
use crate::reference::shape::{Shape, SETS};
use crate::reference::trits::pack_trits;

/// A random trit vector of n fit trits, now and then one of a plain sort.
pub fn fit_vector(random: &mut Random, shape: Shape) -> Vec<u8> {
    let plain = random.once_in(8).then(|| random.below(3) as u8);
    let trits: Vec<u8> = (0..shape.bits).map(|_| plain.unwrap_or(random.below(3) as u8)).collect();
    pack_trits(shape.string_bytes(), |j| trits[j])
}

/// A fit row set.
pub fn fit_rows(random: &mut Random, shape: Shape) -> Vec<u8> {
    matrices::packed(shape, &matrices::fit(random, shape))
}

/// "matrix row i having trit 1 in column i alone"
pub fn diagonal_file(shape: Shape) -> Vec<u8> {
    matrices::file_of(shape, &matrices::diagonal(shape))
}

/// A fit matrix file.
pub fn fit_file(random: &mut Random, shape: Shape) -> Vec<u8> {
    file_of_rows(shape, &fit_rows(random, shape))
}

/// An accepted tape.
pub fn accepted_tape(random: &mut Random, shape: Shape) -> Vec<u8> {
    let n = shape.string_bytes();
    let strings = (0..shape.copied_bytes() / n).flat_map(|_| random.contents(n));
    let copied: Vec<u8> = strings.collect();
    [copied, fit_vector(random, shape)].concat()
}

/// The parts of an accepted run.
pub fn fit_inputs(random: &mut Random, shape: Shape) -> Inputs {
    Inputs {
        shape,
        key_halves: [0, 1].map(|_| random.contents(shape.string_bytes())),
        label_halves: [0, 1].map(|_| random.contents(shape.string_bytes())),
        tape: accepted_tape(random, shape),
        file: fit_file(random, shape),
    }
}

/// Gives every block of a file the check of its bytes, so that only what lies
/// behind the check is at fault.
pub fn seal(file: &mut [u8]) {
    for number in 0..file.len() / BLOCK_BYTES {
        let sums = block_sums(&block_of(file, number));
        let check_at = BLOCK_BYTES * number + CHECK_AT;
        if let Some(check) = file.get_mut(check_at..check_at + 2) {
            check.copy_from_slice(&sums);
        }
    }
}

/// The faults that one matrix file may have, each giving its own number if it
/// is alone.
#[derive(Clone, Copy, Debug, PartialEq, Eq)]
pub enum FileFault {
    Check,
    Header,
    UnusedByte,
    UnfitTrit,
    ZeroRow,
    TiedRows,
}

pub const FILE_FAULTS: [FileFault; 6] = [
    FileFault::Check,
    FileFault::Header,
    FileFault::UnusedByte,
    FileFault::UnfitTrit,
    FileFault::ZeroRow,
    FileFault::TiedRows,
];

/// One of all choices of faults, by the bits of a number.
pub fn chosen_faults(choice: usize) -> Vec<FileFault> {
    let chosen = FILE_FAULTS.into_iter().enumerate().filter(|(i, _)| choice >> i & 1 == 1);
    chosen.map(|(_, fault)| fault).collect()
}

/// The number of choices of faults.
pub const FAULT_CHOICES: usize = 1 << FILE_FAULTS.len();

/// Puts these faults into a file of the right length, at random places.
pub fn damage_file(random: &mut Random, shape: Shape, file: &mut [u8], faults: &[FileFault]) {
    for fault in faults {
        damage_content(random, shape, file, *fault);
    }
    seal(file);
    // A check is damaged last, as sealing mends it.
    if faults.contains(&FileFault::Check) {
        let place = BLOCK_BYTES * random.below(shape.blocks()) + CHECK_AT + random.below(2);
        change(random, file, place);
    }
}

fn damage_content(random: &mut Random, shape: Shape, file: &mut [u8], fault: FileFault) {
    match fault {
        FileFault::Check => {}
        FileFault::Header => {
            let place = BLOCK_BYTES * random.below(shape.blocks()) + random.below(4);
            change(random, file, place);
        }
        FileFault::UnusedByte => {
            let number = random.below(shape.blocks());
            let used = rows_end(shape, number);
            let place = BLOCK_BYTES * number + used + random.below(CHECK_AT - used);
            change(random, file, place);
        }
        FileFault::UnfitTrit => {
            let start = row_place(shape, random.below(shape.digits));
            set_both_bits(random, shape, file, start);
        }
        FileFault::ZeroRow => {
            let start = row_place(shape, random.below(shape.digits));
            if let Some(row) = file.get_mut(start..start + shape.vector_bytes()) {
                row.fill(0);
            }
        }
        FileFault::TiedRows => {
            let rows = rows_of_file(shape, file);
            let (i, row) = matrices::tie_in_rows(random, shape, &rows);
            let start = row_place(shape, i);
            if let Some(tied) = file.get_mut(start..start + shape.vector_bytes()) {
                tied.copy_from_slice(&row);
            }
        }
    }
}

/// Turns one trit of the vector of n trits at `start` unfit.
pub fn set_both_bits(random: &mut Random, shape: Shape, bytes: &mut [u8], start: usize) {
    let (place, bit) = (random.below(shape.string_bytes()), 1 << random.below(8));
    for plane in [start, start + shape.string_bytes()] {
        if let Some(byte) = bytes.get_mut(plane + place) {
            *byte |= bit;
        }
    }
}

/// Changes one byte to another value.
pub fn change(random: &mut Random, bytes: &mut [u8], place: usize) {
    if let Some(byte) = bytes.get_mut(place) {
        *byte ^= 1 + random.below(255) as u8;
    }
}

/// Numbers that name no set, also those that a narrower number would take for one.
pub const NO_SETS: [u32; 10] =
    [0, 4, 5, 255, 256, 257, (1 << 16) + 2, (1 << 24) + 3, (1 << 31) + 1, u32::MAX];

/// Lengths of a slice that has this one in each set: none, each of them and those
/// beside them.
pub fn lengths_of_sets(length: impl Fn(Shape) -> usize) -> Vec<usize> {
    let about = SETS.into_iter().flat_map(|shape| length(shape) - 1..length(shape) + 2);
    let mut lengths: Vec<usize> = about.chain([0]).collect();
    lengths.sort_unstable();
    lengths.dedup();
    lengths
}

/// Mostly the right length, else one beside it or any.
pub fn nearly(random: &mut Random, right: usize) -> usize {
    match random.below(12) {
        0 => right + 1,
        1 => right.saturating_sub(1),
        2 => random.below(2 * right + 20),
        _ => right,
    }
}

/// Cuts bytes or fills them up to a length.
pub fn resized(random: &mut Random, mut bytes: Vec<u8>, length: usize) -> Vec<u8> {
    bytes.truncate(length);
    bytes.resize_with(length, || random.byte());
    bytes
}
