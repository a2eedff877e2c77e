//! The calls of the interface in each set, on the parts of one run of it.

use crate::timing::{kept, shared, Table};
use crate::{checks, interface};
use service_pair_tests::fast::{dealer, evaluator, join, run, sampler, unit};
use service_pair_tests::matrices::{file_of, uniform};
use service_pair_tests::random::Random;
use service_pair_tests::reference::frame::Shared;
use service_pair_tests::reference::program::Inputs;
use service_pair_tests::reference::shape::{Shape, SETS, SET_1};
use service_pair_tests::samples::fit_inputs;
use service_pair_tests::state_layout::{STAGE_AT, STATE_BYTES};
use std::hint::black_box;

const SHARED: Shared = Shared { session: 0x0102_0304, line: 1 };

type State = [u8; STATE_BYTES];

/// The parts of a run: each unit's state before each step and when done, and
/// the frame that it takes at each step; last its share.
struct Run {
    shape: Shape,
    inputs: Inputs,
    states: [[State; 4]; 2],
    frames: [[Vec<u8>; 4]; 2],
}

impl Run {
    /// A run whose every call gives the same by both sides.
    fn new(random: &mut Random, shape: Shape) -> Run {
        let mut inputs = fit_inputs(random, shape);
        inputs.file = file_of(shape, &uniform(random, shape));
        inputs.key_halves = [0; 2].map(|_| random.bytes(shape.string_bytes()));
        inputs.label_halves = [0; 2].map(|_| random.bytes(shape.string_bytes()));
        let states = [[[0; STATE_BYTES]; 4]; 2];
        let mut run = Run { shape, inputs, states, frames: Default::default() };
        let (set, tape) = (shape.set, &run.inputs.tape);
        let dealt = same("deal", vec![0; shape.dealt_bytes()], |ours, out| match ours {
            true => interface::deal(set, SHARED, tape, out),
            false => dealer::deal(set, SHARED, tape, out),
        });
        for (side, deal) in dealt.chunks(shape.deal_bytes()).enumerate() {
            run.frames[side][0] = deal.to_vec();
            run.states[side][0] = run.begun(side);
        }
        for step in 0..3 {
            for side in [0, 1] {
                run.step(step, side);
            }
        }
        run
    }

    fn begun(&self, side: usize) -> State {
        let (key, label) = (&self.inputs.key_halves[side], &self.inputs.label_halves[side]);
        let (set, side) = (self.shape.set, side as u32);
        let begun = same("beginning", vec![0xa5; STATE_BYTES], |ours, state| match ours {
            true => interface::begin(set, side, SHARED, key, label, state),
            false => unit::begin(set, side, SHARED, key, label, state),
        });
        begun.try_into().expect("a state's bytes")
    }

    /// One step of a unit: the other takes its frame next, the last one is kept
    /// as its own.
    fn step(&mut self, step: usize, side: usize) {
        let (before, frame) = (&self.states[side][step], &self.frames[side][step]);
        let (room, file) = (self.shape.step_room(), &self.inputs.file);
        let mut counts = [0; 2];
        // The state after the step, and behind it what was written.
        let after = same("step", [&before[..], &vec![0; room]].concat(), |ours, after| {
            let (state, out) = after.split_at_mut(STATE_BYTES);
            match ours {
                true => interface::step(state, frame, file, out, &mut counts[0]),
                false => unit::step(state, frame, file, out, &mut counts[1]),
            }
        });
        let shape = self.shape;
        let written = [shape.open_bytes(), shape.mask_bytes(), shape.share_bytes()][step];
        assert_eq!(counts, [written as u64; 2], "step: the counts differ");
        self.states[side][step + 1].copy_from_slice(&after[..STATE_BYTES]);
        let taker = if step < 2 { 1 - side } else { side };
        self.frames[taker][step + 1] = after[STATE_BYTES..][..written].to_vec();
    }

    /// The name of a call's row in this set.
    fn row(&self, call: &str) -> String {
        format!("{call}, set {}", self.shape.set)
    }
}

/// Makes a call of ours (true) and of Rust's on slices with the same bytes: both
/// accept it and leave the same bytes, which are given back.
fn same(name: &str, before: Vec<u8>, mut call: impl FnMut(bool, &mut [u8]) -> u32) -> Vec<u8> {
    let (mut ours, mut rust) = (before.clone(), before);
    assert_eq!([call(true, &mut ours), call(false, &mut rust)], [0, 0], "{name} is refused");
    assert_eq!(ours, rust, "{name}: the two sides differ");
    ours
}

/// Adds the rows.
pub fn rows(random: &mut Random, table: &mut Table) {
    let runs = SETS.map(|shape| shared(Run::new(random, shape)));
    for run in runs {
        checks::rows(random, run.shape, &run.inputs.file, table);
        evaluating(run, table);
    }
    for run in runs {
        dealing(run, table);
        sampling(random, run, table);
    }
    for run in runs {
        beginning(run, table);
        step_row(run, table, "pair_step, deal", [0, 0], set_stage);
        step_row(run, table, "pair_step, open, side 0", [1, 0], set_stage);
        step_row(run, table, "pair_step, open, side 1", [1, 1], set_stage);
        step_row(run, table, "pair_step, mask", [2, 0], |state, before| *state = *before);
        joining(run, table);
    }
    whole_run(runs[0], table);
}

fn evaluating(run: &'static Run, table: &mut Table) {
    let (set, file) = (run.shape.set, &run.inputs.file[..]);
    let (key, label) = (&run.inputs.key_halves[0][..], &run.inputs.label_halves[0][..]);
    let mut out = same("evaluator", vec![0; run.shape.code_bytes()], |ours, out| match ours {
        true => interface::evaluate(set, key, label, file, out),
        false => evaluator::evaluate(set, key, label, file, out),
    });
    let mut other = out.clone();
    table.compare(
        &run.row("pair_evaluate"),
        move || kept(interface::evaluate(set, key, black_box(label), file, black_box(&mut out))),
        move || kept(evaluator::evaluate(set, key, black_box(label), file, black_box(&mut other))),
    );
}

fn dealing(run: &'static Run, table: &mut Table) {
    let (set, tape) = (run.shape.set, &run.inputs.tape[..]);
    let [mut out, mut other] = [0; 2].map(|_| vec![0; run.shape.dealt_bytes()]);
    table.compare(
        &run.row("pair_deal"),
        move || kept(interface::deal(set, SHARED, black_box(tape), black_box(&mut out))),
        move || kept(dealer::deal(set, SHARED, black_box(tape), black_box(&mut other))),
    );
}

fn sampling(random: &mut Random, run: &'static Run, table: &mut Table) {
    // Half as many bytes again as a tape has: the draws take about 13/12.
    let source = &shared(random.bytes(run.shape.tape_bytes() * 3 / 2))[..];
    // At a byte's beginning, and inside one.
    for start in [0, 1] {
        dealing_from(run, source, start, table);
        sampling_from(run, source, start, table);
    }
}

fn dealing_from(run: &'static Run, source: &'static [u8], start: u64, table: &mut Table) {
    let (set, mut places) = (run.shape.set, [0; 2]);
    let before = vec![0; run.shape.dealt_bytes()];
    let mut out = same("dealer of a source", before, |ours, out| match ours {
        true => interface::deal_source(set, SHARED, start, source, out, &mut places[0]),
        false => dealer::deal_source(set, SHARED, start, source, out, &mut places[1]),
    });
    assert_eq!(places[0], places[1], "dealer of a source: the places differ");
    let (mut other, [mut next, mut other_next]) = (out.clone(), places);
    table.compare(
        &run.row(&format!("pair_deal_source, {} bytes, start {start}", source.len())),
        move || {
            let source = black_box(source);
            kept(interface::deal_source(set, SHARED, start, source, &mut out, &mut next))
        },
        move || {
            let source = black_box(source);
            kept(dealer::deal_source(set, SHARED, start, source, &mut other, &mut other_next))
        },
    );
}

fn sampling_from(run: &'static Run, source: &'static [u8], start: u64, table: &mut Table) {
    let (set, mut places) = (run.shape.set, [0; 2]);
    let mut out = same("sampler", vec![0; run.shape.tape_bytes()], |ours, out| match ours {
        true => interface::sample(set, start, source, out, &mut places[0]),
        false => sampler::sample(set, start, source, out, &mut places[1]),
    });
    assert_eq!(places[0], places[1], "sampler: the places differ");
    let (mut other, [mut next, mut other_next]) = (out.clone(), places);
    table.compare(
        &run.row(&format!("pair_sample, {} bytes, start {start}", source.len())),
        move || {
            let (source, out) = (black_box(source), black_box(&mut out));
            kept(interface::sample(set, start, source, out, &mut next))
        },
        move || {
            let (source, out) = (black_box(source), black_box(&mut other));
            kept(sampler::sample(set, start, source, out, &mut other_next))
        },
    );
}

fn beginning(run: &'static Run, table: &mut Table) {
    let (key, label) = (&run.inputs.key_halves[0][..], &run.inputs.label_halves[0][..]);
    let (set, mut state, mut other) = (run.shape.set, run.states[0][0], run.states[0][0]);
    table.compare(
        &run.row("pair_begin"),
        move || {
            let (key, state) = (black_box(key), black_box(&mut state));
            kept(interface::begin(set, 0, SHARED, key, label, state))
        },
        move || {
            let (key, state) = (black_box(key), black_box(&mut other));
            kept(unit::begin(set, 0, SHARED, key, label, state))
        },
    );
}

/// Takes a state back before its step. What a step on a deal or an open frame
/// adds to a state is written anew by the next one, so the stage is enough.
#[inline(always)]
fn set_stage(state: &mut State, before: &State) {
    state[STAGE_AT] = before[STAGE_AT];
}

/// The row of a step of a side, which `Run::step` has compared.
#[inline(always)]
fn step_row(
    run: &'static Run,
    table: &mut Table,
    name: &str,
    [step, side]: [usize; 2],
    set_back: impl Fn(&mut State, &State) + Copy + 'static,
) {
    let (before, frame) = (&run.states[side][step], &run.frames[side][step][..]);
    let file = if step == 2 { &run.inputs.file[..] } else { &[] };
    let [mut out, mut other] = [0; 2].map(|_| vec![0; run.shape.step_room()]);
    let (mut state, mut count) = (*before, 0);
    let (mut other_state, mut other_count) = (*before, 0);
    table.compare(
        &run.row(name),
        move || {
            set_back(&mut state, before);
            let state = black_box(&mut state);
            kept(interface::step(state, black_box(frame), file, &mut out, &mut count))
        },
        move || {
            set_back(&mut other_state, before);
            let state = black_box(&mut other_state);
            kept(unit::step(state, black_box(frame), file, &mut other, &mut other_count))
        },
    );
}

/// The code of a run's shares.
fn joined(run: &Run) -> Vec<u8> {
    let [share0, share1] = [&run.frames[0][3][..], &run.frames[1][3]];
    same("join", vec![0; run.shape.code_bytes()], |ours, out| match ours {
        true => interface::join(run.shape.set, share0, share1, out),
        false => join::join(run.shape.set, share0, share1, out),
    })
}

fn joining(run: &'static Run, table: &mut Table) {
    let [share0, share1] = [&run.frames[0][3][..], &run.frames[1][3]];
    let (set, mut out, mut other) = (run.shape.set, joined(run), joined(run));
    table.compare(
        &run.row("pair_join"),
        move || kept(interface::join(set, black_box(share0), share1, black_box(&mut out))),
        move || kept(join::join(set, black_box(share0), share1, black_box(&mut other))),
    );
}

/// `pair_run`, which has one set.
fn whole_run(run: &'static Run, table: &mut Table) {
    let input = &shared(run.inputs.bytes())[..];
    let mut out = same("run", vec![0; SET_1.code_bytes()], |ours, out| match ours {
        true => interface::run(input, out),
        false => run::pair_run(input, out),
    });
    assert_eq!(joined(run), out, "the run's code is another than the units' own");
    let mut other = out.clone();
    table.compare(
        "pair_run",
        move || kept(interface::run(black_box(input), black_box(&mut out))),
        move || kept(run::pair_run(black_box(input), black_box(&mut other))),
    );
}
