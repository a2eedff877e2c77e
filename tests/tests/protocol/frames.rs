//! Strange things to lend to a step: frames, files and output lengths.

use service_pair_tests::random::Random;
use service_pair_tests::reference::frame::{frame_of, length_of_kind, Shared, DEAL, HEADER_BYTES};
use service_pair_tests::reference::shape::{Shape, SETS};
use service_pair_tests::samples::{change, damage_file, fit_file, set_both_bits, FILE_FAULTS};

/// A frame of a known run repeated, cut, lengthened or changed, or one made up.
pub fn strange_frame(
    random: &mut Random,
    shape: Shape,
    known: &[Vec<u8>],
    shared: Shared,
) -> Vec<u8> {
    let mut frame = match known.get(random.below(known.len() + 1)) {
        Some(frame) => frame.clone(),
        None => made_up_frame(random, shape, shared),
    };
    let length = frame.len();
    match random.below(10) {
        0 | 1 => {}
        2 => frame.truncate(random.below(length)),
        3 => frame.resize(length + 1 + random.below(40), random.byte()),
        4 => flip(random, &mut frame, length),
        5 => flip(random, &mut frame, HEADER_BYTES),
        6 => {
            let place = random.below(HEADER_BYTES);
            change(random, &mut frame, place);
        }
        7 => (0..4).for_each(|_| flip(random, &mut frame, length)),
        8 if frame.first() == Some(&DEAL) => {
            set_both_bits(random, shape, &mut frame, shape.r_in_deal());
        }
        8 => frame.clear(),
        _ => {
            let length = random.below(shape.deal_bytes() + 40);
            frame = random.contents(length);
        }
    }
    frame
}

/// Turns one bit over in the first `length` bytes.
fn flip(random: &mut Random, frame: &mut [u8], length: usize) {
    let place = random.below(8 * length);
    if let Some(byte) = frame.get_mut(place / 8) {
        *byte ^= 1 << (place % 8);
    }
}

/// A header near the right ones and a random body, mostly of its kind's length, now
/// and then of another set's.
fn made_up_frame(random: &mut Random, shape: Shape, shared: Shared) -> Vec<u8> {
    let (kind, side) = (random.below(6) as u8, random.below(3) as u8);
    let shared = match random.below(6) {
        0 => random.shared(),
        1 => Shared { session: shared.session ^ (1 << random.below(32)), ..shared },
        2 => Shared { line: shared.line ^ (1 << random.below(8)), ..shared },
        _ => shared,
    };
    let shape = if random.once_in(6) { random.choose(&SETS) } else { shape };
    let length = match length_of_kind(shape, kind) {
        Some(length) if !random.once_in(6) => length - HEADER_BYTES,
        _ => random.below(200),
    };
    frame_of(kind, side, shared, &random.contents(length))
}

/// The run's file, or another: empty, cut, lengthened, damaged, random or of
/// another set.
pub fn strange_file(random: &mut Random, shape: Shape, file: &[u8]) -> Vec<u8> {
    let mut strange = file.to_vec();
    let length = strange.len();
    match random.below(13) {
        0 => strange.clear(),
        1 => strange.truncate(length - 1),
        2 => strange.push(random.byte()),
        3 => strange = random.contents(length),
        4 => {
            let others = SETS.into_iter().filter(|other| *other != shape);
            let other = random.choose(&others.collect::<Vec<_>>());
            strange = fit_file(random, other);
        }
        5..=8 => {
            let faults = [random.choose(&FILE_FAULTS), random.choose(&FILE_FAULTS)];
            let count = 1 + random.below(2);
            damage_file(random, shape, &mut strange, &faults[..count]);
        }
        _ => {}
    }
    strange
}

/// An output slice that is mostly long enough.
pub fn strange_room(random: &mut Random, shape: Shape) -> usize {
    let least = shape.step_room();
    match random.below(8) {
        0 => random.below(least),
        1 => least - 1,
        2 => least,
        _ => least + random.below(50),
    }
}
