//! State slices of other lengths, damaged or random, and beginnings over slices
//! in which a unit runs.

use crate::interface;
use crate::unit::{Lent, Run, Unit};
use service_pair_tests::guarded::Guarded;
use service_pair_tests::random::{report, seed, Random};
use service_pair_tests::reference::frame::{frame_of, length_of_kind, Shared, DEAL, HEADER_BYTES};
use service_pair_tests::reference::numbers::{DONE, NO_SET};
use service_pair_tests::reference::program::SHARED;
use service_pair_tests::reference::shape::{Shape, SETS};
use service_pair_tests::reference::unit::{Stage, State};
use service_pair_tests::samples::{
    change, fit_file, fit_inputs, fit_vector, set_both_bits, NO_SETS,
};
use service_pair_tests::state_layout::{
    counted_set, decode, encode, padding, LINE_AT, SESSION_AT, SET_AT, SIDE_AT, STAGE_AT,
    STATE_BYTES,
};

/// The numbers that a step can give.
const STEP_NUMBERS: [u32; 12] = [0, 1, 3, 4, 5, 6, 7, 8, 9, 10, 12, 15];

/// A step on any state bytes. What holds of all: a refusal leaves every byte and
/// counts 0; a success writes one frame and nothing past it, and a state with its
/// set as counted and zeros behind its fields.
fn any_step(random: &mut Random, bytes: &[u8], lent: &Lent) -> u32 {
    let mut slice = Guarded::lend(random, bytes);
    let mut output = Guarded::room(random, lent.room);
    let inputs = [Guarded::lend(random, &lent.frame), Guarded::lend(random, &lent.file)];
    let before = (slice.clone(), output.clone(), inputs.clone());
    let mut count = random.word();
    let [frame, file] = inputs.each_ref().map(Guarded::slice);
    let number = interface::step(slice.slice_mut(), frame, file, output.slice_mut(), &mut count);
    let seed = seed();
    assert!(STEP_NUMBERS.contains(&number), "pair_step gave {number}, SEED={seed}");
    assert!(inputs == before.2, "pair_step changed an input, SEED={seed}");
    if number == DONE {
        let shape = counted_set(bytes[SET_AT]);
        let lengths = [shape.open_bytes(), shape.mask_bytes(), shape.share_bytes()];
        let wrote = lengths.contains(&(count as usize));
        assert!(wrote, "pair_step wrote {count} bytes, SEED={seed}");
        let written = &output.slice()[..count as usize];
        assert!(output == before.1.after(written), "bytes past the frame, SEED={seed}");
        assert!(slice == before.0.after(slice.slice()), "bytes past the state, SEED={seed}");
        let after = slice.slice();
        assert_eq!(u32::from(after[SET_AT]), shape.set, "the set, SEED={seed}");
        let zeros = padding(shape).into_iter().all(|place| after[place] == 0);
        assert!(zeros, "bytes behind a field, SEED={seed}");
    } else {
        assert_eq!(count, 0, "a refusal's count, SEED={seed}");
        assert!(slice == before.0 && output == before.1, "a refusal wrote, SEED={seed}");
    }
    number
}

#[test]
fn state_slices_of_other_lengths_are_refused() {
    let mut random = Random::for_test("state lengths");
    for shape in SETS {
        let inputs = fit_inputs(&mut random, shape);
        let run = Run::start(inputs, random.shared());
        let lent = run.as_sent(&mut random, 0).expect("the deal was sent");
        let long = [run.units[0].bytes.clone(), random.bytes(400)].concat();
        for length in 0..=STATE_BYTES + 300 {
            let number = any_step(&mut random, &long[..length], &lent);
            let expected = u32::from(length != STATE_BYTES);
            assert_eq!(number, expected, "length {length}, SEED={}", seed());
        }
    }
    report("protocol: state slices of each length", SETS.len() * (STATE_BYTES + 301));
}

/// A beginning over a slice in which a unit runs: refused, it leaves the idle
/// state, which takes no frame of the run; on a slice of another length it
/// leaves every byte, and the unit goes on.
#[test]
fn refused_beginnings_over_running_units() {
    let mut random = Random::for_test("refused beginnings");
    let tried: usize = SETS.map(|shape| refused_beginnings(&mut random, shape)).into_iter().sum();
    report("protocol: beginnings over running units", tried);
}

/// A beginning that is refused: set, side, halves and number.
type Refused<'a> = (u32, u32, &'a [u8], &'a [u8], u32);

/// Such beginnings of a set's units, with halves of its length and of others.
fn refused_calls(shape: Shape, half: &[u8]) -> Vec<Refused<'_>> {
    let (own, fit, long) = (shape.set, &half[1..], half);
    let short = &half[2..];
    let mut refused = vec![
        (own, 2, fit, fit, 2),
        (own, u32::MAX, fit, fit, 2),
        (own, 0, short, fit, 1),
        (own, 1, fit, long, 1),
    ];
    // Another set has halves of another length.
    let others = SETS.into_iter().filter(|other| *other != shape);
    refused.extend(others.map(|other| (other.set, 0, fit, fit, 1)));
    refused.extend(NO_SETS.map(|set| (set, 0, fit, fit, NO_SET)));
    refused.extend(NO_SETS.map(|set| (set, 7, short, long, NO_SET)));
    refused
}

/// The same in one set.
fn refused_beginnings(random: &mut Random, shape: Shape) -> usize {
    let shared = random.shared();
    let mut run = Run::start(fit_inputs(random, shape), shared);
    let half = random.bytes(shape.string_bytes() + 1);
    let refused = refused_calls(shape, &half);
    for turn in 0..6 {
        let side = turn % 2;
        let lent = run.as_sent(random, side).expect("the frame was sent");
        let mut slice = Guarded::lend(random, &run.units[side].bytes);
        let idle = slice.after(&encode(&State::idle()));
        let running = slice.clone();
        for &(set, other, key, label, number) in &refused {
            slice.clone_from(&running);
            let found = interface::begin(set, other, shared, key, label, slice.slice_mut());
            assert_eq!(found, number, "pair_begin({set}, {other}), SEED={}", seed());
            assert!(slice == idle, "a refused beginning leaves the idle state, SEED={}", seed());
            assert_ne!(any_step(random, slice.slice(), &lent), DONE, "SEED={}", seed());
        }
        other_lengths_stay(random, shape, &run.units[side].bytes, &half[1..]);
        assert_eq!(run.step(random, side, &lent).number, DONE, "SEED={}", seed());
    }
    6 * (refused.len() + 9)
}

/// A beginning leaves a state slice of another length, with a set or without.
fn other_lengths_stay(random: &mut Random, shape: Shape, state: &[u8], half: &[u8]) {
    for length in [0, STATE_BYTES - 1, STATE_BYTES + 1] {
        let mut bytes = state.to_vec();
        bytes.resize(length, 0);
        for (set, number) in [(shape.set, 1), (0, NO_SET), (4, NO_SET)] {
            let mut slice = Guarded::lend(random, &bytes);
            let before = slice.clone();
            let found = interface::begin(set, 0, random.shared(), half, half, slice.slice_mut());
            let context = format!("a state slice of {length} bytes, SEED={}", seed());
            assert_eq!(found, number, "{context}");
            assert!(slice == before, "{context} was written");
        }
    }
}

/// The frame that a state waits for, or of any kind where it waits for none.
fn awaited_frame(random: &mut Random, state: &State) -> Vec<u8> {
    let kind = state.waits_for().unwrap_or(1 + random.below(3) as u8);
    frame_of_kind(random, state, kind)
}

/// A frame of this kind from the side that may send it.
fn frame_of_kind(random: &mut Random, state: &State, kind: u8) -> Vec<u8> {
    let shape = state.shape;
    let side = if kind == DEAL { state.side } else { 1 - state.side };
    let length = length_of_kind(shape, kind).unwrap_or(40) - HEADER_BYTES;
    let mut frame = frame_of(kind, side, state.shared, &random.contents(length));
    if kind == DEAL {
        // Both planes random would nearly always be unfit.
        frame[shape.r_in_deal()..].copy_from_slice(&fit_vector(random, shape));
    }
    frame
}

/// A frame that suits a state, so that many are accepted, now and then spoiled.
fn suiting_frame(random: &mut Random, state: &State) -> Vec<u8> {
    let any = random.below(5) as u8;
    let mut frame = match random.once_in(6) {
        true => frame_of_kind(random, state, any),
        false => awaited_frame(random, state),
    };
    match random.below(12) {
        0 => {
            let place = random.below(HEADER_BYTES);
            change(random, &mut frame, place);
        }
        1 if frame[0] == DEAL => {
            set_both_bits(random, state.shape, &mut frame, state.shape.r_in_deal());
        }
        _ => {}
    }
    frame
}

/// Any bytes of a state with this set byte; those behind its fields are not zeros.
fn any_state(random: &mut Random, set: u8, stage: u8) -> Unit {
    let mut bytes = random.contents(STATE_BYTES);
    (bytes[SIDE_AT], bytes[STAGE_AT], bytes[SET_AT]) = (random.below(2) as u8, stage, set);
    let state = decode(&bytes).expect("a side and a stage are a state");
    Unit { bytes, state }
}

/// Bytes of any state: it "behaves as its fields say", begun or not.
#[test]
fn any_state_behaves_as_its_fields_say() {
    let mut random = Random::for_test("any state");
    let files = SETS.map(|shape| fit_file(&mut random, shape));
    let count = 800;
    for (shape, file) in SETS.into_iter().zip(files) {
        let mut accepted = 0;
        for _ in 0..count {
            let stage = random.below(5) as u8;
            let mut unit = any_state(&mut random, shape.set as u8, stage);
            let frame = suiting_frame(&mut random, &unit.state);
            let room = shape.step_room() + random.below(9);
            let lent = Lent { frame, file: file.clone(), room };
            accepted += usize::from(unit.step(&mut random, &lent).number == DONE);
        }
        assert!(accepted > count / 5, "only {accepted} steps were accepted");
        let set = shape.set;
        report(&format!("protocol: set {set}, steps of any states ({accepted} accepted)"), count);
    }
}

/// "counts as set 1 unless its set is 2 or 3": every set byte at each stage, on an
/// awaited frame of each set and on a short output slice.
#[test]
fn every_set_byte_of_a_state() {
    let mut random = Random::for_test("set bytes");
    let files = SETS.map(|shape| fit_file(&mut random, shape));
    let mut tried = 0;
    for set in 0..=255 {
        for stage in [Stage::WaitsForDeal, Stage::WaitsForOpen, Stage::WaitsForMask] {
            let unit = any_state(&mut random, set, stage as u8);
            for (shape, file) in SETS.into_iter().zip(&files) {
                let state = State { shape, ..unit.state.clone() };
                let frame = awaited_frame(&mut random, &state);
                let least = counted_set(set).step_room();
                for room in [least, least - 1] {
                    let lent = Lent { frame: frame.clone(), file: file.clone(), room };
                    let number = unit.clone().step(&mut random, &lent).number;
                    let accepted = room == least && shape == unit.state.shape;
                    assert_eq!(number == DONE, accepted, "set byte {set}, SEED={}", seed());
                    tried += 1;
                }
            }
        }
    }
    report("protocol: set bytes of states", tried);
}

/// A run in which the bytes behind each field are anything before every step: the
/// same frames, numbers and next states as with zeros there.
#[test]
fn bytes_behind_fields_are_not_read() {
    let mut random = Random::for_test("padding");
    let (rounds, mut tried) = (6, 0);
    for shape in (0..rounds).flat_map(|_| SETS) {
        let mut run = Run::start(fit_inputs(&mut random, shape), SHARED);
        for turn in 0..6 {
            let side = turn % 2;
            let lent = run.as_sent(&mut random, side).expect("the frame was sent");
            let mut with_zeros = run.clone();
            let outcome = with_zeros.step(&mut random, side, &lent);
            for place in padding(shape) {
                run.units[side].bytes[place] = 1 + random.below(255) as u8;
            }
            // A refusal leaves them, as `Unit::step` compares.
            let short = Lent { room: shape.step_room() - 1, ..lent.clone() };
            assert_eq!(run.step(&mut random, side, &short).number, 1, "SEED={}", seed());
            assert_eq!(run.step(&mut random, side, &lent), outcome, "SEED={}", seed());
            tried += 1;
        }
    }
    report("protocol: steps with bytes behind the fields", tried);
}

/// Sides and stages that there are not: nothing but the rules for all.
#[test]
fn bytes_of_no_state_keep_the_rules() {
    let mut random = Random::for_test("no state");
    let files = SETS.map(|shape| fit_file(&mut random, shape));
    let count = 3_000;
    for trial in 0..count {
        let mut bytes = random.contents(STATE_BYTES);
        if trial % 2 == 0 {
            bytes[STAGE_AT] = random.below(5) as u8;
        }
        if trial % 5 < 3 {
            bytes[SET_AT] = 1 + (trial % 5) as u8;
        }
        let shape = counted_set(bytes[SET_AT]);
        let session = u32::from_le_bytes([0, 1, 2, 3].map(|at| bytes[SESSION_AT + at]));
        let shared = Shared { session, line: bytes[LINE_AT] };
        let kind = 1 + random.below(3) as u8;
        let side = random.choose(&[
            0,
            1,
            bytes[SIDE_AT],
            bytes[SIDE_AT] ^ 1,
            1u8.wrapping_sub(bytes[SIDE_AT]),
        ]);
        let length = length_of_kind(shape, kind).unwrap_or(HEADER_BYTES) - HEADER_BYTES;
        let mut frame = frame_of(kind, side, shared, &random.contents(length));
        if kind == DEAL {
            frame[shape.r_in_deal()..].copy_from_slice(&fit_vector(&mut random, shape));
        }
        let file = files[shape.set as usize - 1].clone();
        any_step(&mut random, &bytes, &Lent { frame, file, room: shape.step_room() });
    }
    report("protocol: steps of bytes that are no state", count);
}
