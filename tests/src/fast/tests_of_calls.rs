//! The fast calls give the reference's numbers, counts, states and bytes, on
//! fit, short, long and damaged inputs.

use super::{dealer, evaluator, join, matrix, run, sampler, tied_rows, unit};
use crate::guarded::{compare, compare_counted};
use crate::random::{report, seed, Random};
use crate::reference;
use crate::reference::frame::{frame_of, length_of_kind, Shared, DEAL, HEADER_BYTES, SHARE};
use crate::reference::numbers::{Answer, DONE, NO_SET};
use crate::reference::shape::{with_set, Shape, SETS, SET_1};
use crate::samples::{
    accepted_tape, change, chosen_faults, damage_file, fit_file, fit_inputs, fit_vector, nearly,
    resized, set_both_bits, FAULT_CHOICES, NO_SETS,
};
use crate::state_layout::{decode, encode, SET_AT, SIDE_AT, STAGE_AT, STATE_BYTES};

/// The shape's set, now and then another number.
fn any_set(random: &mut Random, shape: Shape) -> u32 {
    match random.below(16) {
        0 => random.choose(&NO_SETS),
        1 => random.choose(&SETS).set,
        _ => shape.set,
    }
}

/// Now and then cut or filled up to another length.
fn any_length(random: &mut Random, bytes: Vec<u8>) -> Vec<u8> {
    let length = nearly(random, bytes.len());
    resized(random, bytes, length)
}

/// A file that is mostly fit, else with faults.
fn any_file(random: &mut Random, shape: Shape) -> Vec<u8> {
    let mut file = fit_file(random, shape);
    if random.once_in(2) {
        let choice = random.below(FAULT_CHOICES);
        damage_file(random, shape, &mut file, &chosen_faults(choice));
    }
    file
}

/// A tape that is mostly accepted.
fn any_tape(random: &mut Random, shape: Shape) -> Vec<u8> {
    let mut tape = accepted_tape(random, shape);
    if random.once_in(4) {
        set_both_bits(random, shape, &mut tape, shape.copied_bytes());
    }
    tape
}

/// A key, a label or a half of one, mostly of the right length.
fn any_string(random: &mut Random, shape: Shape) -> Vec<u8> {
    let string = random.contents(shape.string_bytes());
    any_length(random, string)
}

#[test]
fn the_fast_check_and_list_give_the_reference() {
    let mut random = Random::for_test("fast check");
    let count = 600;
    for (trial, shape) in (0..count).flat_map(|trial| SETS.map(|shape| (trial, shape))) {
        let mut file = any_file(&mut random, shape);
        match trial % 4 {
            0 => file = any_length(&mut random, file),
            1 => {
                let place = random.below(file.len());
                change(&mut random, &mut file, place);
            }
            2 if random.once_in(3) => file = random.contents(shape.file_bytes()),
            _ => {}
        }
        let set = any_set(&mut random, shape);
        let check = |shape| Answer::refused(reference::matrix::matrix_check(shape, &file));
        let expected = with_set(set, check).number;
        assert_eq!(matrix::matrix_check(set, &file), expected, "SEED={}", seed());

        let room = nearly(&mut random, shape.tie_bytes());
        let tie = |shape| reference::tied_rows::tied_rows(shape, &file, room);
        let (name, expected) = ("tied rows", with_set(set, tie));
        compare_counted(&mut random, name, [&file], room, &expected, |[file], out, count| {
            tied_rows::tied_rows(set, file, out, count)
        });
    }
    report("fast: matrix check and lists of tied rows", SETS.len() * count);
}

#[test]
fn the_fast_evaluator_gives_the_reference() {
    let mut random = Random::for_test("fast evaluator");
    let count = 200;
    for shape in (0..count).flat_map(|_| SETS) {
        let set = any_set(&mut random, shape);
        let [key, label] = [0, 1].map(|_| any_string(&mut random, shape));
        let file = any_file(&mut random, shape);
        let file = any_length(&mut random, file);
        let room = nearly(&mut random, shape.code_bytes());
        let evaluate = |shape| reference::evaluator::evaluate(shape, &key, &label, &file, room);
        let (expected, inputs) = (with_set(set, evaluate), [&key[..], &label, &file]);
        compare(&mut random, "evaluate", inputs, room, &expected, |[key, label, file], out| {
            evaluator::evaluate(set, key, label, file, out)
        });
    }
    report("fast: evaluator", SETS.len() * count);
}

#[test]
fn the_fast_dealer_gives_the_reference() {
    let mut random = Random::for_test("fast dealer");
    let count = 400;
    for shape in (0..count).flat_map(|_| SETS) {
        let (set, shared) = (any_set(&mut random, shape), random.shared());
        let tape = any_tape(&mut random, shape);
        let tape = any_length(&mut random, tape);
        let room = nearly(&mut random, shape.dealt_bytes());
        let expected = with_set(set, |shape| reference::dealer::deal(shape, shared, &tape, room));
        compare(&mut random, "deal", [&tape], room, &expected, |[tape], out| {
            dealer::deal(set, shared, tape, out)
        });
    }
    report("fast: dealer", SETS.len() * count);
}

/// A start near the beginning, in the source, near its last ones that may be
/// accepted, near its end, or any.
fn any_start(random: &mut Random, shape: Shape, length: usize) -> u64 {
    let (pairs, least) = (4 * length, 4 * shape.bits);
    match random.below(8) {
        0 => random.below(pairs + 8) as u64,
        1 => (pairs.saturating_sub(least) + random.below(8)) as u64,
        2 => (pairs + random.below(3)) as u64,
        3 => random.word() >> random.below(64),
        4 => u64::MAX - random.below(least + 6) as u64,
        _ => random.below(8) as u64,
    }
}

#[test]
fn the_fast_sampler_gives_the_reference() {
    let mut random = Random::for_test("fast sampler");
    let count = 1_000;
    // Of each residue of the start.
    let mut accepted = [0; 4];
    for shape in (0..count).flat_map(|_| SETS) {
        let set = any_set(&mut random, shape);
        // 4/3 n bytes suffice: some sources are too short.
        let enough = random.choose(&[shape.bits * 4 / 3, shape.copied_bytes()]);
        let length = nearly(&mut random, enough);
        let (source, start) = (random.contents(length), any_start(&mut random, shape, length));
        let room = nearly(&mut random, shape.tape_bytes());
        let sample = |shape| reference::dealer::sample(shape, start, &source, room);
        let expected = with_set(set, sample);
        accepted[(start % 4) as usize] += usize::from(expected.number == DONE);
        let (name, inputs) = ("sample", [&source[..]]);
        compare_counted(&mut random, name, inputs, room, &expected, |[source], out, next| {
            sampler::sample(set, start, source, out, next)
        });

        let (shared, room) = (random.shared(), nearly(&mut random, shape.dealt_bytes()));
        let deal = |shape| reference::dealer::deal_source(shape, shared, start, &source, room);
        let (name, expected) = ("deal source", with_set(set, deal));
        compare_counted(&mut random, name, inputs, room, &expected, |[source], out, next| {
            dealer::deal_source(set, shared, start, source, out, next)
        });
    }
    assert!(accepted.iter().all(|n| *n > count / 50), "accepted {accepted:?} at the residues");
    report("fast: sampler and dealer of a source", SETS.len() * count);
}

#[test]
fn the_fast_beginning_gives_the_reference() {
    let mut random = Random::for_test("fast beginning");
    let count = 400;
    for shape in (0..count).flat_map(|_| SETS) {
        let set = any_set(&mut random, shape);
        let [key, label] = [0, 1].map(|_| any_string(&mut random, shape));
        let side = random.choose(&[0, 1, 0, 1, 2, 256, u32::MAX]);
        let (shared, room) = (random.shared(), nearly(&mut random, STATE_BYTES));
        let expected = match reference::unit::begin_with_set(set, side, shared, &key, &label) {
            (number, state) if room == STATE_BYTES => {
                Answer { number, bytes: encode(&state), count: 0 }
            }
            (NO_SET, _) => Answer::refused(NO_SET),
            _ => Answer::refused(1),
        };
        compare(&mut random, "begin", [&key, &label], room, &expected, |[key, label], state| {
            unit::begin(set, side, shared, key, label, state)
        });
    }
    report("fast: beginning", SETS.len() * count);
}

/// A state of any stage, with anything behind its fields, and the frame that it
/// waits for, or nearly that.
fn state_and_frame(random: &mut Random, shape: Shape) -> (Vec<u8>, Vec<u8>) {
    let mut bytes = random.contents(STATE_BYTES);
    (bytes[STAGE_AT], bytes[SIDE_AT]) = (1 + random.below(3) as u8, random.below(2) as u8);
    if random.once_in(12) {
        bytes[STAGE_AT] = random.below(5) as u8;
    }
    if !random.once_in(8) {
        bytes[SET_AT] = shape.set as u8;
    }
    let state = decode(&bytes).expect("a stage and a side");
    let shape = state.shape;
    let kind = state.waits_for().unwrap_or(1 + random.below(3) as u8);
    let side = if kind == DEAL { state.side } else { 1 - state.side };
    let length = length_of_kind(shape, kind).expect("a kind") - HEADER_BYTES;
    let mut frame = frame_of(kind, side, state.shared, &random.contents(length));
    if kind == DEAL {
        let r = fit_vector(random, shape);
        frame[shape.r_in_deal()..].copy_from_slice(&r);
    }
    match random.below(10) {
        0 => {
            let place = random.below(HEADER_BYTES);
            change(random, &mut frame, place);
        }
        1 => frame = any_length(random, frame),
        2 if kind == DEAL => set_both_bits(random, shape, &mut frame, shape.r_in_deal()),
        _ => {}
    }
    (bytes, frame)
}

#[test]
fn the_fast_step_gives_the_reference() {
    let mut random = Random::for_test("fast step");
    let count = 1_000;
    let mut done = [0; 5];
    for shape in (0..count).flat_map(|_| SETS) {
        let (mut state, frame) = state_and_frame(&mut random, shape);
        let before = decode(&state).expect("a stage and a side");
        let shape = before.shape;
        let reads_file = frame.first() == Some(&3);
        let file = if reads_file { any_file(&mut random, shape) } else { Vec::new() };
        let file = any_length(&mut random, file);
        let room = nearly(&mut random, shape.step_room());
        let expected = reference::unit::step(&before, &frame, &file, room);
        let held = state.clone();
        let written = expected.written.len() as u64;
        let answer = Answer { number: expected.number, bytes: expected.written, count: written };
        compare_counted(
            &mut random,
            "step",
            [&frame, &file],
            room,
            &answer,
            |[frame, file], out, count| unit::step(&mut state, frame, file, out, count),
        );
        let after = if expected.number == DONE { encode(&expected.next) } else { held };
        assert_eq!(state, after, "the state, SEED={}", seed());
        done[usize::from(state[STAGE_AT]) * usize::from(expected.number == DONE)] += 1;
    }
    // Each kind of frame was often accepted.
    assert!(done[2..].iter().all(|times| *times > count / 20), "{done:?}, SEED={}", seed());
    let mut short = random.bytes(STATE_BYTES - 1);
    assert_eq!(unit::step(&mut short, &[], &[], &mut [0; 200], &mut 0), 1);
    report("fast: steps", SETS.len() * count);
}

/// A share frame, often fit.
fn share_frame(random: &mut Random, shape: Shape, side: u8, shared: Shared) -> Vec<u8> {
    let (plane, digits) = (shape.code_plane(), shape.digits);
    let mut code = random.contents(2 * plane);
    if !random.once_in(6) {
        (0..plane).for_each(|i| code[plane + i] &= !code[i]);
    }
    if !random.once_in(6) {
        let used = 0xff >> (8 * plane - digits);
        (code[plane - 1], code[2 * plane - 1]) =
            (code[plane - 1] & used, code[2 * plane - 1] & used);
    }
    if random.once_in(3) {
        // Both bits at one place: 10, or 11 where no trit stands.
        let anywhere = random.below(8 * plane);
        let word_end = (digits - 1) / 64 * 64;
        let place = random.choose(&[word_end.max(1) - 1, word_end, digits - 1, digits, anywhere]);
        let (byte, bit) = (place / 8, 1 << (place % 8));
        (code[byte], code[plane + byte]) = (code[byte] | bit, code[plane + byte] | bit);
    }
    let mut frame = frame_of(SHARE, side, shared, &code);
    if random.once_in(8) {
        let place = random.below(HEADER_BYTES);
        change(random, &mut frame, place);
    }
    any_length(random, frame)
}

#[test]
fn the_fast_join_gives_the_reference() {
    let mut random = Random::for_test("fast join");
    let count = 2_000;
    for shape in (0..count).flat_map(|_| SETS) {
        let (set, shared) = (any_set(&mut random, shape), random.shared());
        let [a, b] = [0, 1].map(|side| share_frame(&mut random, shape, side, shared));
        let room = nearly(&mut random, shape.code_bytes());
        let expected = with_set(set, |shape| reference::join::join(shape, &a, &b, room));
        compare(&mut random, "join", [&a, &b], room, &expected, |[a, b], out| {
            join::join(set, a, b, out)
        });
    }
    report("fast: join", SETS.len() * count);
}

#[test]
fn the_fast_run_gives_the_reference() {
    let mut random = Random::for_test("fast run");
    let count = 300;
    for _ in 0..count {
        let mut inputs = fit_inputs(&mut random, SET_1);
        inputs.tape = any_tape(&mut random, SET_1);
        inputs.file = any_file(&mut random, SET_1);
        let input = any_length(&mut random, inputs.bytes());
        let room = nearly(&mut random, SET_1.code_bytes());
        let expected = reference::program::pair_run(&input, room);
        compare(&mut random, "run", [&input], room, &expected, |[input], out| {
            run::pair_run(input, out)
        });
    }
    report("fast: whole runs", count);
}
