//! Evaluator, dealer, beginning and `pair_run` on fit, short, long and damaged
//! inputs.

use crate::interface;
use service_pair_tests::guarded::{compare, compare_counted, Guarded};
use service_pair_tests::random::{report, seed, Random};
use service_pair_tests::reference::numbers::{DONE, NO_SET, WRONG_LENGTH};
use service_pair_tests::reference::program::{self, digits, INPUT_BYTES};
use service_pair_tests::reference::shape::{with_set, Shape, SETS, SET_1, SET_3};
use service_pair_tests::reference::{bits, dealer, evaluator, unit};
use service_pair_tests::samples::{
    accepted_tape, chosen_faults, damage_file, diagonal_file, fit_file, fit_inputs,
    lengths_of_sets, nearly, resized, set_both_bits, FAULT_CHOICES, NO_SETS,
};
use service_pair_tests::state_layout::{encode, STATE_BYTES};

/// A matrix file that is mostly fit, else with faults or of another length.
fn any_file(random: &mut Random, shape: Shape) -> Vec<u8> {
    let mut file = fit_file(random, shape);
    if random.once_in(3) {
        let choice = random.below(FAULT_CHOICES);
        damage_file(random, shape, &mut file, &chosen_faults(choice));
    }
    let length = nearly(random, file.len());
    match random.once_in(4) {
        true => resized(random, file, length),
        false => file,
    }
}

/// Compares the evaluator on a key, a label and a file.
pub fn compare_evaluate(random: &mut Random, set: u32, inputs: [&[u8]; 3], room: usize) -> u32 {
    let [key, label, file] = inputs;
    let expected = with_set(set, |shape| evaluator::evaluate(shape, key, label, file, room));
    compare(random, "pair_evaluate", inputs, room, &expected, |[key, label, file], out| {
        interface::evaluate(set, key, label, file, out)
    });
    expected.number
}

#[test]
fn evaluator() {
    let mut random = Random::for_test("pair_evaluate");
    let count = 500;
    for shape in SETS {
        let mut done = 0;
        for _ in 0..count {
            let [key, label] = [0; 2].map(|_| {
                let length = nearly(&mut random, shape.string_bytes());
                random.contents(length)
            });
            let file = any_file(&mut random, shape);
            let room = nearly(&mut random, shape.code_bytes());
            let inputs = [&key[..], &label, &file];
            done += usize::from(compare_evaluate(&mut random, shape.set, inputs, room) == DONE);
        }
        assert!(done > count / 10);
        let set = shape.set;
        report(&format!("protocol: set {set}, pair_evaluate ({done} of them accepted)"), count);
    }
}

/// Each slice alone of every length about those of all sets, and all slices of
/// another set at once.
#[test]
fn evaluator_at_the_lengths_of_every_set() {
    let mut random = Random::for_test("pair_evaluate lengths");
    let mut count = 0;
    let longest = random.bytes(SET_3.file_bytes() + 1);
    for shape in SETS {
        let (set, file, room) = (shape.set, fit_file(&mut random, shape), shape.code_bytes());
        let string = &longest[..shape.string_bytes()];
        for length in lengths_of_sets(Shape::string_bytes) {
            let (other, right) = (&longest[..length], length == string.len());
            for inputs in [[other, string, &file], [string, other, &file]] {
                let number = compare_evaluate(&mut random, set, inputs, room);
                assert_eq!(number, u32::from(!right), "a string of {length} bytes");
                count += 1;
            }
        }
        for length in lengths_of_sets(Shape::file_bytes) {
            let other = resized(&mut random, file.clone(), length);
            let number = compare_evaluate(&mut random, set, [string, string, &other], room);
            assert_eq!(number, u32::from(length != file.len()), "a file of {length} bytes");
            count += 1;
        }
        for length in lengths_of_sets(Shape::code_bytes) {
            let inputs = [string, string, &file];
            let number = compare_evaluate(&mut random, set, inputs, length);
            assert_eq!(number, u32::from(length < room), "an output of {length} bytes");
            count += 1;
        }
        for other in SETS {
            let number = compare_evaluate(&mut random, other.set, [string, string, &file], 42);
            assert_eq!(number, u32::from(other != shape), "slices of another set");
            count += 1;
        }
    }
    report("protocol: pair_evaluate at the lengths of every set", count);
}

/// The examples of document 02's sets, with diagonal matrices.
#[test]
fn codes_with_diagonal_matrices() {
    let mut random = Random::for_test("diagonal codes");
    for shape in SETS {
        let (file, n) = (diagonal_file(shape), shape.string_bytes());
        let string = |places: &[usize]| bits::pack(n, |j| u8::from(places.contains(&j)));
        let examples = [
            (string(&[0]), string(&[0, 2]), "101"),
            (string(&[1]), string(&[0, 2, shape.bits - 1]), "010"),
        ];
        for (key, label, first) in examples {
            let inputs = [&key[..], &label, &file];
            assert_eq!(compare_evaluate(&mut random, shape.set, inputs, shape.code_bytes()), DONE);
            let mut code = vec![0; shape.code_bytes()];
            assert_eq!(interface::evaluate(shape.set, &key, &label, &file, &mut code), DONE);
            let zeros = "0".repeat(shape.digits - first.len());
            assert_eq!(digits(shape, &code), format!("{first}{zeros}"));
        }
    }
    report("protocol: codes with diagonal matrices", 2 * SETS.len());
}

/// Compares the dealer over one tape.
pub fn compare_deal(random: &mut Random, set: u32, tape: &[u8], room: usize) -> u32 {
    let shared = random.shared();
    let expected = with_set(set, |shape| dealer::deal(shape, shared, tape, room));
    compare(random, "pair_deal", [tape], room, &expected, |[tape], out| {
        interface::deal(set, shared, tape, out)
    });
    expected.number
}

#[test]
fn dealer_over_tapes() {
    let mut random = Random::for_test("pair_deal");
    let count = 600;
    for shape in SETS {
        for _ in 0..count {
            let mut tape = accepted_tape(&mut random, shape);
            if random.once_in(4) {
                set_both_bits(&mut random, shape, &mut tape, shape.copied_bytes());
            }
            let length = nearly(&mut random, tape.len());
            let tape = resized(&mut random, tape, length);
            let room = nearly(&mut random, shape.dealt_bytes());
            compare_deal(&mut random, shape.set, &tape, room);
        }
    }
    report("protocol: pair_deal", SETS.len() * count);
}

#[test]
fn dealer_at_every_length_and_unfit_trit() {
    let mut random = Random::for_test("pair_deal lengths");
    let mut count = 0;
    for shape in SETS {
        let (set, least) = (shape.set, shape.dealt_bytes());
        let tape = accepted_tape(&mut random, shape);
        let longest = SET_3.dealt_bytes() + 40;
        let long = resized(&mut random, tape.clone(), longest);
        for length in (0..longest).step_by(5).chain(lengths_of_sets(Shape::tape_bytes)) {
            let number = compare_deal(&mut random, set, &long[..length], least);
            assert_eq!(number, u32::from(length != tape.len()), "a tape of {length} bytes");
            count += 1;
        }
        for length in (0..longest).step_by(5).chain(lengths_of_sets(Shape::dealt_bytes)) {
            let number = compare_deal(&mut random, set, &tape, length);
            assert_eq!(number, u32::from(length < least), "an output of {length} bytes");
            count += 1;
        }
        for place in 0..shape.bits {
            let mut unfit = tape.clone();
            for plane in [shape.copied_bytes(), shape.copied_bytes() + shape.string_bytes()] {
                unfit[plane + place / 8] |= 1 << (place % 8);
            }
            assert_eq!(compare_deal(&mut random, set, &unfit, least), 10);
            count += 1;
        }
    }
    report("protocol: pair_deal at each length and unfit trit", count);
}

#[test]
fn dealer_over_sources() {
    let mut random = Random::for_test("pair_deal_source");
    let count = 600;
    for shape in SETS {
        let mut done = 0;
        for _ in 0..count {
            let length = random.below(shape.bits * 5 / 3);
            let (start, source) = (random.below(shape.bits) as u64, random.contents(length));
            let (shared, room) = (random.shared(), nearly(&mut random, shape.dealt_bytes()));
            let expected = dealer::deal_source(shape, shared, start, &source, room);
            done += usize::from(expected.number == DONE);
            let name = "pair_deal_source";
            compare_counted(
                &mut random,
                name,
                [&source],
                room,
                &expected,
                |[source], out, next| {
                    interface::deal_source(shape.set, shared, start, source, out, next)
                },
            );
        }
        assert!(done > count / 20);
        let set = shape.set;
        report(&format!("protocol: set {set}, pair_deal_source ({done} of them accepted)"), count);
    }
}

/// A beginning on a state slice of any length: another than stated is 1, where a
/// set is named, and leaves it; else it holds the begun state or, refused, the
/// idle one.
pub fn compare_begin(
    random: &mut Random,
    [set, side]: [u32; 2],
    [key, label]: [&[u8]; 2],
    length: usize,
) -> u32 {
    let shared = random.shared();
    let (mut number, state) = unit::begin_with_set(set, side, shared, key, label);
    let mut slice = Guarded::room(random, length);
    let mut after = slice.after(&encode(&state));
    if length != STATE_BYTES {
        after = slice.clone();
        number = if number == NO_SET { NO_SET } else { WRONG_LENGTH };
    }
    let lent = [Guarded::lend(random, key), Guarded::lend(random, label)];
    let before = lent.clone();
    let [key, label] = lent.each_ref().map(Guarded::slice);
    let found = interface::begin(set, side, shared, key, label, slice.slice_mut());
    let context = format!("pair_begin({set}, {side}), SEED={}", seed());
    assert_eq!(found, number, "{context}");
    assert!(slice == after, "{context}: the state differs");
    assert!(lent == before, "{context} changed a half");
    number
}

/// Sides that a narrower number would take for 0 or 1 are among these.
const SIDES: [u32; 14] = [0, 0, 0, 1, 1, 1, 2, 3, 255, 256, 257, 1 << 16, (1 << 31) + 1, u32::MAX];

#[test]
fn beginning() {
    let mut random = Random::for_test("pair_begin");
    let count = 5_000;
    for shape in SETS {
        for _ in 0..count {
            let side = random.choose(&SIDES);
            let set = if random.once_in(12) { random.choose(&NO_SETS) } else { shape.set };
            let [key, label] = [0; 2].map(|_| {
                let length = nearly(&mut random, shape.string_bytes());
                random.contents(length)
            });
            let length = nearly(&mut random, STATE_BYTES);
            compare_begin(&mut random, [set, side], [&key, &label], length);
        }
    }
    report("protocol: pair_begin", SETS.len() * count);
}

/// 14 comes before 1, and 1 before 2; each length of the halves in every set, and
/// of the state.
#[test]
fn beginnings_at_the_lengths_of_every_set() {
    let mut random = Random::for_test("pair_begin lengths");
    let longest = random.bytes(SET_3.string_bytes() + 1);
    let mut count = 0;
    for shape in SETS {
        for first in lengths_of_sets(Shape::string_bytes) {
            for second in lengths_of_sets(Shape::string_bytes) {
                let halves = [&longest[..first], &longest[..second]];
                let right = [first, second] == [shape.string_bytes(); 2];
                for (side, number) in [(0, 0), (1, 0), (7, 2)] {
                    let expected = if right { number } else { 1 };
                    let sets = [shape.set, side];
                    let found = compare_begin(&mut random, sets, halves, STATE_BYTES);
                    assert_eq!(found, expected);
                    count += 1;
                }
            }
        }
    }
    for shape in SETS {
        let halves = [&longest[..shape.string_bytes()]; 2];
        for length in 0..STATE_BYTES + 200 {
            let number = compare_begin(&mut random, [shape.set, 1], halves, length);
            assert_eq!(number, u32::from(length != STATE_BYTES), "a state of {length} bytes");
            count += 1;
        }
    }
    for (set, number) in [(4, 14), (1, 1)] {
        assert_eq!(compare_begin(&mut random, [set, 7], [&[], &[]], STATE_BYTES), number);
        count += 1;
    }
    report("protocol: pair_begin at the lengths of every set", count);
}

/// Compares `pair_run` and gives its number back.
pub fn compare_run(random: &mut Random, input: &[u8], room: usize) -> u32 {
    let expected = program::pair_run(input, room);
    compare(random, "pair_run", [input], room, &expected, |[input], out| {
        interface::run(input, out)
    });
    expected.number
}

#[test]
fn whole_runs_in_one_call() {
    let mut random = Random::for_test("pair_run");
    let (rounds, least, mut count) = (3, SET_1.code_bytes(), 0);
    // Every choice of the file's faults, with a fit tape and an unfit one.
    for choice in (0..rounds).flat_map(|_| 0..FAULT_CHOICES) {
        for unfit_tape in [false, true] {
            let mut inputs = fit_inputs(&mut random, SET_1);
            damage_file(&mut random, SET_1, &mut inputs.file, &chosen_faults(choice));
            if unfit_tape {
                set_both_bits(&mut random, SET_1, &mut inputs.tape, SET_1.copied_bytes());
            }
            compare_run(&mut random, &inputs.bytes(), least);
            count += 1;
        }
    }
    for _ in 0..200 {
        let (inputs, room) = (fit_inputs(&mut random, SET_1), nearly(&mut random, least));
        let number = compare_run(&mut random, &inputs.bytes(), room);
        assert_eq!(number, u32::from(room < least));
        count += 1;
    }
    report("protocol: pair_run", count);
}

/// Other lengths than set 1's, the other sets' among them, are no input.
#[test]
fn whole_runs_of_every_length() {
    let mut random = Random::for_test("pair_run lengths");
    let long = [fit_inputs(&mut random, SET_1).bytes(), random.bytes(500)].concat();
    for length in 0..=7_000 {
        let number = compare_run(&mut random, &long[..length], SET_1.code_bytes());
        assert_eq!(number, u32::from(length != INPUT_BYTES));
    }
    for shape in SETS {
        let input = fit_inputs(&mut random, shape).bytes();
        let number = compare_run(&mut random, &input, SET_3.code_bytes());
        assert_eq!(number, u32::from(shape != SET_1));
    }
    report("protocol: pair_run at each length", 7_001 + SETS.len());
}
