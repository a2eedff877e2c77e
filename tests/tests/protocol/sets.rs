//! Numbers that name no set, at every call that names one: 14 before all else,
//! and every lent byte stays but a state, which becomes idle.

use crate::calls::{compare_begin, compare_deal, compare_evaluate};
use crate::join::{compare_join, two_shares};
use crate::sampler::compare_sample;
use service_pair_tests::random::{report, Random};
use service_pair_tests::reference::numbers::NO_SET;
use service_pair_tests::reference::program::Inputs;
use service_pair_tests::reference::shape::SETS;
use service_pair_tests::samples::{fit_inputs, set_both_bits, NO_SETS};
use service_pair_tests::state_layout::STATE_BYTES;

/// The numbers of all calls with this set: each on what the inputs' own set accepts,
/// on what it refuses, and on nothing.
fn numbers(random: &mut Random, inputs: &Inputs, set: u32, room: usize) -> Vec<u32> {
    let mut numbers = Vec::new();
    let ([key, _], [label, _]) = (&inputs.key_halves, &inputs.label_halves);
    for (key, file) in [(&key[..], &inputs.file[..]), (&key[1..], &[]), (&[], key)] {
        numbers.push(compare_evaluate(random, set, [key, label, file], room));
    }
    let mut unfit = inputs.tape.clone();
    set_both_bits(random, inputs.shape, &mut unfit, inputs.shape.copied_bytes());
    for tape in [&inputs.tape[..], &unfit, &[]] {
        numbers.push(compare_deal(random, set, tape, room));
    }
    let source = random.bytes(2 * inputs.shape.tape_bytes());
    for (start, source) in [(0, &source[..]), (1, &[]), (u64::MAX, &source)] {
        numbers.push(compare_sample(random, set, start, source, room).number);
    }
    let [share0, share1] = two_shares(random, inputs.shape);
    for [first, second] in [[&share0[..], &share1], [&share1, &share0], [&share0, &[]]] {
        numbers.push(compare_join(random, set, first, second, room));
    }
    for (side, key) in [(0, &key[..]), (7, key), (1, &key[1..]), (7, &[])] {
        let length = if room == 0 { STATE_BYTES - 1 } else { STATE_BYTES };
        numbers.push(compare_begin(random, [set, side], [key, label], length));
    }
    numbers
}

#[test]
fn no_set_comes_before_all_other_numbers() {
    let mut random = Random::for_test("no set");
    let mut count = 0;
    for shape in SETS {
        let inputs = fit_inputs(&mut random, shape);
        for set in NO_SETS {
            for room in [shape.dealt_bytes(), 1, 0] {
                let found = numbers(&mut random, &inputs, set, room);
                assert!(found.iter().all(|number| *number == NO_SET), "set {set}: {found:?}");
                count += found.len();
            }
        }
        // The inputs are fit, so that it is the set alone that is not.
        assert!(numbers(&mut random, &inputs, shape.set, shape.dealt_bytes()).contains(&0));
    }
    report("protocol: calls that name no set", count);
}
