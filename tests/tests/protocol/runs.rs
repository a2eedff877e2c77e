//! Whole runs: frames in any order, refused steps between, repeated, cut and
//! flipped frames, unfit files and short slices.

use crate::interface;
use crate::unit::{Lent, Run};
use service_pair_tests::random::{report, seed, Random};
use service_pair_tests::reference::evaluator::code;
use service_pair_tests::reference::frame::{HEADER_BYTES, MASK};
use service_pair_tests::reference::program::{Inputs, SHARED};
use service_pair_tests::reference::shape::{Shape, SETS};
use service_pair_tests::reference::unit::{Stage, State};
use service_pair_tests::samples::{fit_inputs, lengths_of_sets};
use service_pair_tests::state_layout::encode;

/// The code that a run owes: "the code of these with its matrix".
fn own_code(inputs: &Inputs) -> Vec<u8> {
    let [key, label] = inputs.key_and_label();
    code(inputs.shape, &key, &label, &inputs.file)
}

/// Joins the shares of a run in which only sent frames were accepted.
pub fn join_shares(run: &Run) {
    let (shape, [share0, share1]) = (run.inputs.shape, [&run.sent[0][2], &run.sent[1][2]]);
    let mut joined = vec![0; shape.code_bytes()];
    assert_eq!(interface::join(shape.set, share0, share1, &mut joined), 0, "SEED={}", seed());
    assert_eq!(joined, own_code(&run.inputs), "the joined code, SEED={}", seed());
    for (side, unit) in run.units.iter().enumerate() {
        let done = State::bare(shape, side as u8, run.shared, Stage::Done);
        assert_eq!(unit.bytes, encode(&done), "a done state, SEED={}", seed());
        assert_eq!(run.sent[side].len(), 3, "three accepted frames, SEED={}", seed());
    }
}

#[test]
fn runs_in_turn_give_the_code() {
    let mut random = Random::for_test("runs in turn");
    let count = 180;
    for trial in 0..count {
        let inputs = fit_inputs(&mut random, SETS[trial % SETS.len()]);
        let mut run = Run::start(inputs, random.shared());
        while !run.both_done() {
            let side = random.below(2);
            if let Some(lent) = run.as_sent(&mut random, side) {
                assert_eq!(run.step(&mut random, side, &lent).number, 0, "SEED={}", seed());
            }
        }
        join_shares(&run);
    }
    report("protocol: runs of entries as sent", count);
}

/// Lends anything or what was sent. Foreign frames that the unit accepts are
/// rare, as they spoil the run; says whether one did.
fn any_entry(random: &mut Random, run: &Run, side: usize) -> (Lent, bool) {
    let sent = run.as_sent(random, side);
    if let (Some(lent), true) = (sent, random.once_in(12)) {
        return (lent, false);
    }
    loop {
        let lent = run.anything(random, side);
        if run.refuses(side, &lent) || run.awaits(side, &lent.frame) {
            return (lent, false);
        }
        if random.once_in(12) {
            return (lent, true);
        }
    }
}

#[test]
fn strange_entries_change_nothing() {
    let mut random = Random::for_test("strange entries");
    SETS.into_iter().for_each(|shape| strange_entries(&mut random, shape));
}

/// The same in one set.
fn strange_entries(random: &mut Random, shape: Shape) {
    let (runs, mut entries, mut whole) = (100, 0, 0);
    let mut seen = [0usize; 16];
    for _ in 0..runs {
        let inputs = fit_inputs(random, shape);
        let mut run = Run::start(inputs, random.shared());
        let mut spoiled = false;
        for _ in 0..60 {
            let side = random.below(2);
            let (lent, foreign) = any_entry(random, &run, side);
            spoiled |= foreign;
            seen[run.step(random, side, &lent).number as usize] += 1;
            entries += 1;
        }
        if run.both_done() && !spoiled {
            join_shares(&run);
            whole += 1;
        }
    }
    for number in [0, 1, 3, 4, 5, 6, 7, 8, 9, 10, 12, 15] {
        assert!(seen[number] > 0, "no step gave {number}, SEED={}", seed());
    }
    assert!(whole > runs / 10, "only {whole} of {runs} runs came to their end");
    let set = shape.set;
    report(&format!("protocol: set {set}, steps of {runs} runs with strange entries"), entries);
    report("protocol: of these runs, brought to their code", whole);
}

/// At each stage every bit of the awaited frame is flipped, and it is cut at
/// each length; a refused one leaves all, and the run goes on.
#[test]
fn every_flipped_bit_and_cut_of_awaited_frames() {
    let mut random = Random::for_test("flips and cuts");
    let tried: usize = SETS.map(|shape| flips_and_cuts(&mut random, shape)).into_iter().sum();
    report("protocol: flipped and cut frames at each stage", tried);
}

/// The same in one set, where the largest bodies have one bit in three flipped.
fn flips_and_cuts(random: &mut Random, shape: Shape) -> usize {
    let mut run = Run::start(fit_inputs(random, shape), random.shared());
    let mut tried = 0;
    for turn in 0..6 {
        let side = turn % 2;
        let lent = run.as_sent(random, side).expect("the frame was sent");
        let lengths = lengths_of_sets(Shape::deal_bytes);
        for length in (0..lent.frame.len() + 40).chain(lengths) {
            let mut frame = lent.frame.clone();
            frame.resize(length, 0);
            let cut = Lent { frame, ..lent.clone() };
            let refused = run.clone().step(random, side, &cut).number != 0;
            assert_eq!(refused, length != lent.frame.len(), "SEED={}", seed());
            tried += 1;
        }
        let header = 8 * HEADER_BYTES;
        let body = (header..8 * lent.frame.len()).step_by(2 * (shape.bits / 512) + 1);
        for place in (0..header).chain(body) {
            let mut flipped = lent.clone();
            flipped.frame[place / 8] ^= 1 << (place % 8);
            let refused = run.clone().step(random, side, &flipped).number != 0;
            assert!(refused || place >= header, "a flipped header, SEED={}", seed());
            tried += 1;
        }
        run.step(random, side, &lent);
    }
    join_shares(&run);
    tried
}

/// The least output slice is that of the state's set, at each stage.
#[test]
fn output_lengths_of_every_set() {
    let mut random = Random::for_test("step outputs");
    let mut tried = 0;
    for shape in SETS {
        let mut run = Run::start(fit_inputs(&mut random, shape), SHARED);
        for turn in 0..6 {
            let side = turn % 2;
            let lent = run.as_sent(&mut random, side).expect("the frame was sent");
            for room in lengths_of_sets(Shape::step_room) {
                let lent = Lent { room, ..lent.clone() };
                let number = run.clone().step(&mut random, side, &lent).number;
                assert_eq!(number, u32::from(room < shape.step_room()), "SEED={}", seed());
                tried += 1;
            }
            let least = Lent { room: shape.step_room(), ..lent };
            assert_eq!(run.step(&mut random, side, &least).number, 0, "SEED={}", seed());
        }
        join_shares(&run);
    }
    report("protocol: output slices of steps", tried);
}

/// Frames carry no set: another set's has another length, at each stage, and a
/// file of another set is 1 where it is read.
#[test]
fn frames_and_files_of_another_set() {
    let mut random = Random::for_test("frames of another set");
    let mut tried = 0;
    let wholes = SETS.map(|shape| {
        let inputs = fit_inputs(&mut random, shape);
        Run::whole(&mut random, inputs, SHARED)
    });
    for shape in SETS {
        let mut run = Run::start(fit_inputs(&mut random, shape), SHARED);
        for turn in 0..6 {
            let side = turn % 2;
            let lent = run.as_sent(&mut random, side).expect("the frame was sent");
            for other in wholes.iter().filter(|other| other.inputs.shape != shape) {
                // Frames of kinds 1 to 3; the last of each unit is its share.
                let sent = other.sent.iter().flat_map(|sent| &sent[..2]);
                for frame in other.deals.iter().chain(sent) {
                    let file = run.inputs.file.clone();
                    let lent = Lent { frame: frame.clone(), file, ..lent.clone() };
                    assert_eq!(run.step(&mut random, side, &lent).number, 4, "SEED={}", seed());
                    tried += 1;
                }
                let lent = Lent { file: other.inputs.file.clone(), ..lent.clone() };
                let number = run.clone().step(&mut random, side, &lent).number;
                assert_eq!(number, u32::from(lent.frame[0] == MASK), "SEED={}", seed());
                tried += 1;
            }
            run.step(&mut random, side, &lent);
        }
        join_shares(&run);
    }
    report("protocol: frames and files of another set", tried);
}

/// Done and idle units take nothing: all frames of the run, again and again.
#[test]
fn done_units_take_no_frame() {
    let mut random = Random::for_test("done units");
    let mut tried = 0;
    for trial in 0..30 {
        let shape = SETS[trial % SETS.len()];
        let (inputs, shared) = (fit_inputs(&mut random, shape), random.shared());
        let mut run = Run::whole(&mut random, inputs, shared);
        for frame in run.frames() {
            for side in 0..2 {
                let (frame, file) = (frame.clone(), run.inputs.file.clone());
                let lent = Lent { frame, file, room: shape.step_room() };
                assert_ne!(run.step(&mut random, side, &lent).number, 0, "SEED={}", seed());
                tried += 1;
            }
        }
        join_shares(&run);
    }
    report("protocol: frames lent to done units", tried);
}
