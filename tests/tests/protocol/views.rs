//! Demand 3 by trial: paired tapes give the fixed unit one view, whichever side
//! it is and whatever the other unit's halves are.

use crate::unit::{Lent, Outcome, Run};
use service_pair_tests::random::{report, seed, Random};
use service_pair_tests::reference::dealer::tape_accepted;
use service_pair_tests::reference::pairing::paired_tape;
use service_pair_tests::reference::program::{Inputs, SHARED};
use service_pair_tests::reference::shape::{Shape, SETS};
use service_pair_tests::samples::fit_inputs;

/// Two runs' inputs that agree on the fixed unit, with paired tapes.
fn paired_inputs(random: &mut Random, shape: Shape, fixed: usize) -> [Inputs; 2] {
    let first = fit_inputs(random, shape);
    let mut second = first.clone();
    let other = 1 - fixed;
    // Now and then only one half differs, or none.
    if !random.once_in(5) {
        second.key_halves[other] = random.contents(shape.string_bytes());
    }
    if !random.once_in(5) {
        second.label_halves[other] = random.contents(shape.string_bytes());
    }
    second.tape = paired_tape(fixed, &first, &second, &first.tape);
    assert!(tape_accepted(shape, &second.tape));
    let back = paired_tape(fixed, &second, &first, &second.tape);
    assert_eq!(back, first.tape, "each tape has one partner, SEED={}", seed());
    [first, second]
}

/// What is lent in each run, and whether it is the same for both.
struct Entry {
    lent: [Lent; 2],
    compared: bool,
}

/// Something that this run refuses for the unit.
fn stray(random: &mut Random, run: &Run, side: usize) -> Lent {
    loop {
        let lent = run.anything(random, side);
        if run.refuses(side, &lent) {
            return lent;
        }
    }
}

/// An entry as sent, with each run's own frame, or a stray one: the same bytes
/// in both runs but, now and then, for the unit that is not fixed.
fn entry(random: &mut Random, runs: &[Run; 2], side: usize, fixed: usize) -> Entry {
    if random.once_in(3) {
        let sent = [runs[0].as_sent(random, side), runs[1].as_sent(random, side)];
        if let [Some(first), Some(second)] = sent {
            // All but the frame is the same.
            let second = Lent { frame: second.frame, ..first.clone() };
            return Entry { lent: [first, second], compared: true };
        }
    }
    if side != fixed && random.once_in(3) {
        let lent = [stray(random, &runs[0], side), stray(random, &runs[1], side)];
        return Entry { lent, compared: false };
    }
    let lent = stray(random, &runs[0], side);
    Entry { lent: [lent.clone(), lent], compared: true }
}

/// What the fixed unit sees of one of its steps.
type Seen = (Lent, Outcome);

/// Plays one list in both runs and gives the fixed unit's two views.
fn play(random: &mut Random, runs: &mut [Run; 2], fixed: usize, length: usize) -> [Vec<Seen>; 2] {
    let mut views = [Vec::new(), Vec::new()];
    for _ in 0..length {
        let side = random.below(2);
        let entry = entry(random, runs, side, fixed);
        let [first, second] = entry.lent;
        let outcomes = [runs[0].step(random, side, &first), runs[1].step(random, side, &second)];
        if entry.compared {
            assert_eq!(outcomes[0].number, outcomes[1].number, "SEED={}", seed());
        }
        if side == fixed {
            let [seen0, seen1] = outcomes;
            views[0].push((first, seen0));
            views[1].push((second, seen1));
        }
    }
    views
}

#[test]
fn paired_tapes_give_equal_views() {
    let mut random = Random::for_test("views");
    SETS.into_iter().for_each(|shape| equal_views(&mut random, shape));
}

/// The same in one set.
fn equal_views(random: &mut Random, shape: Shape) {
    let trials = 100;
    let (mut steps, mut finished) = ([0; 2], [0; 2]);
    for trial in 0..trials {
        let fixed = trial % 2;
        let shared = random.shared();
        let inputs = paired_inputs(random, shape, fixed);
        let mut runs = inputs.map(|inputs| Run::start(inputs, shared));
        assert_eq!(runs[0].units[fixed].bytes, runs[1].units[fixed].bytes, "SEED={}", seed());
        let length = random.below(60);
        let [first, second] = play(random, &mut runs, fixed, length);
        assert!(first == second, "the views of side {fixed} differ, SEED={}", seed());
        steps[fixed] += first.len();
        finished[fixed] += usize::from(runs.iter().all(Run::both_done));
    }
    assert!(finished.iter().all(|count| *count > 0), "no run came to its end");
    for fixed in 0..2 {
        let (set, done) = (shape.set, finished[fixed]);
        let name =
            format!("protocol: set {set}, steps in views of side {fixed} ({done} runs done)");
        report(&name, steps[fixed]);
    }
}

/// The trial can fail: with the tape left as it is, other halves show.
#[test]
fn unpaired_tapes_give_other_views() {
    let mut random = Random::for_test("unpaired views");
    for trial in 0..18 {
        let fixed = trial % 2;
        let first = fit_inputs(&mut random, SETS[trial % SETS.len()]);
        let mut second = first.clone();
        second.key_halves[1 - fixed][0] ^= 1;
        let views = [first, second]
            .map(|inputs| Run::whole(&mut random, inputs, SHARED).sent[1 - fixed].clone());
        assert_ne!(views[0][0], views[1][0], "SEED={}", seed());
    }
    report("protocol: unpaired tapes", 18);
}
