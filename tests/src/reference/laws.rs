//! Laws that a right reading of the documents must have, tried on the reference.

use super::bits::{bit, part};
use super::dealer::{bytes_of, deal, deal_source, pairs_of, sample, tape_accepted};
use super::evaluator::{code, evaluate};
use super::frame::Shared;
use super::join::join;
use super::matrix::{file_of_rows, matrix_check, matrix_read, matrix_write};
use super::pairing::paired_tape;
use super::program::{pair_run, program, run_units, Inputs, SHARED};
use super::shape::{Shape, SETS, SET_1};
use super::trits::trits_fit;
use super::unit::{begin, step, Step};
use crate::random::Random;
use crate::samples::{accepted_tape, fit_file, fit_inputs, fit_rows, fit_vector};

/// The three sets, and shapes that are no whole words, with one digit and with one
/// more than a byte has places; their blocks hold one row, some or more than all.
fn shapes() -> Vec<Shape> {
    let odd = [(8, 1, 1), (16, 9, 4), (24, 1, 5), (24, 9, 3)];
    let shape = |(bits, digits, block_rows)| Shape { set: 200, bits, digits, block_rows };
    SETS.into_iter().chain(odd.map(shape)).collect()
}

/// Tries a law so often at each shape.
fn at_each_shape(name: &str, times: usize, mut law: impl FnMut(&mut Random, Shape)) {
    let mut random = Random::for_test(name);
    for shape in shapes() {
        (0..times).for_each(|_| law(&mut random, shape));
    }
}

#[test]
fn a_run_gives_the_code_of_the_summed_halves() {
    at_each_shape("run and evaluator", 20, |random, shape| {
        let inputs = fit_inputs(random, shape);
        let [key, label] = inputs.key_and_label();
        let evaluated = evaluate(shape, &key, &label, &inputs.file, shape.code_bytes());
        assert_eq!(evaluated.bytes, code(shape, &key, &label, &inputs.file));
        assert_eq!(run_units(&inputs, random.shared()), evaluated);
        if shape == SET_1 {
            assert_eq!(pair_run(&inputs.bytes(), shape.code_bytes()), evaluated);
        }
    });
}

#[test]
fn a_fit_matrix_survives_its_file() {
    at_each_shape("round trip", 20, |random, shape| {
        let rows = fit_rows(random, shape);
        let file = matrix_write(shape, &rows, shape.file_bytes()).bytes;
        assert_eq!(file.len(), shape.file_bytes());
        assert_eq!(matrix_check(shape, &file), 0);
        assert_eq!(matrix_read(shape, &file, shape.row_set_bytes()).bytes, rows);
        // A shape that differs in its set alone has other files.
        assert_eq!(matrix_check(Shape { set: shape.set + 1, ..shape }, &file), 9);
    });
}

/// No matrix has more rows than columns and is fit.
#[test]
fn more_rows_than_columns_are_tied() {
    let shape = Shape { set: 200, bits: 8, digits: 9, block_rows: 4 };
    let mut random = Random::for_test("more rows than columns");
    for _ in 0..200 {
        let rows: Vec<u8> = (0..9).flat_map(|_| fit_vector(&mut random, shape)).collect();
        assert_eq!(matrix_write(shape, &rows, shape.file_bytes()).number, 12);
        assert_eq!(matrix_check(shape, &file_of_rows(shape, &rows)), 12);
    }
}

/// Both units' three steps in turn, as the view of either is made of.
fn steps(inputs: &Inputs, shared: Shared) -> [Vec<Step>; 2] {
    let shape = inputs.shape;
    let dealt = deal(shape, shared, &inputs.tape, shape.dealt_bytes()).bytes;
    let mut frames = [0, 1].map(|side| part(&dealt, shape.deal_bytes() * side, shape.deal_bytes()));
    let mut units = [0, 1].map(|side| {
        let (key, label) = (&inputs.key_halves[side], &inputs.label_halves[side]);
        begin(shape, side as u32, shared, key, label).1
    });
    let mut views = [Vec::new(), Vec::new()];
    for _ in 0..3 {
        let taken =
            [0, 1].map(|side| step(&units[side], &frames[side], &inputs.file, shape.step_room()));
        for side in 0..2 {
            units[side] = taken[side].next.clone();
            frames[1 - side] = taken[side].written.clone();
            views[side].push(taken[side].clone());
        }
    }
    views
}

#[test]
fn paired_tapes_give_the_fixed_unit_one_view() {
    let mut trial = 0;
    at_each_shape("pairing", 20, |random, shape| {
        let fixed = trial % 2;
        trial += 1;
        let first = fit_inputs(random, shape);
        let mut second = first.clone();
        second.key_halves[1 - fixed] = random.contents(shape.string_bytes());
        second.label_halves[1 - fixed] = random.contents(shape.string_bytes());
        second.tape = paired_tape(fixed, &first, &second, &first.tape);
        assert!(tape_accepted(shape, &second.tape));
        assert_eq!(paired_tape(fixed, &second, &first, &second.tape), first.tape);
        let shared = random.shared();
        let views = [steps(&first, shared), steps(&second, shared)];
        assert_eq!(views[0][fixed], views[1][fixed]);
        // Each step was taken: a view of refusals would say nothing.
        assert!(views[0][fixed].iter().all(|step| step.number == 0));
    });
}

/// A source that makes a tape or is somewhat too short for one: about 13/12 n
/// bytes suffice.
fn any_source(random: &mut Random, shape: Shape) -> Vec<u8> {
    let length = shape.bits + random.below(shape.bits);
    random.bytes(length)
}

#[test]
fn dealing_from_a_source_deals_the_sampled_tape() {
    let (mut accepted, times) = (0, 50);
    at_each_shape("deal from source", times, |random, shape| {
        let (start, source) = (random.below(shape.bits) as u64, any_source(random, shape));
        let sampled = sample(shape, start, &source, shape.tape_bytes());
        let shared = random.shared();
        let dealt = deal_source(shape, shared, start, &source, shape.dealt_bytes());
        assert_eq!((dealt.number, dealt.count), (sampled.number, sampled.count));
        if sampled.number == 0 {
            assert!(tape_accepted(shape, &sampled.bytes));
            assert_eq!(dealt.bytes, deal(shape, shared, &sampled.bytes, shape.dealt_bytes()).bytes);
            accepted += 1;
        }
    });
    assert!(accepted > times, "only {accepted} draws were accepted");
}

#[test]
fn pairs_and_bytes_are_the_same_bits() {
    let mut random = Random::for_test("pairs");
    let bytes = random.bytes(300);
    let pairs = pairs_of(&bytes);
    for (k, pair) in pairs.iter().enumerate() {
        assert_eq!(*pair, bit(&bytes, 2 * k) + 2 * bit(&bytes, 2 * k + 1));
    }
    assert_eq!(bytes_of(&pairs), bytes);
}

/// A draw from a start is the draw from 0 of the pairs that come from there on.
#[test]
fn a_draw_sees_the_pairs_from_its_start_on() {
    at_each_shape("starts", 100, |random, shape| {
        let source = any_source(random, shape);
        let start = random.below(4 * source.len());
        // The moved source ends with threes where its last byte is not filled.
        let mut moved = pairs_of(&source)[start..].to_vec();
        moved.resize(moved.len().div_ceil(4) * 4, 3);
        let from_0 = sample(shape, 0, &bytes_of(&moved), shape.tape_bytes());
        let mut from_start = sample(shape, start as u64, &source, shape.tape_bytes());
        from_start.count = from_start.count.saturating_sub(start as u64);
        assert_eq!(from_start, from_0);
    });
}

#[test]
fn no_input_makes_the_reference_panic() {
    at_each_shape("total", 50, |random, shape| {
        let file = fit_file(random, shape);
        let tape = accepted_tape(random, shape);
        let length = random.below(700);
        let bytes = random.contents(length);
        let (_, state) = begin(shape, random.below(3) as u32, SHARED, &bytes, &bytes);
        step(&state, &bytes, &file, random.below(2 * shape.step_room()));
        step(&state, &bytes, &bytes, shape.step_room());
        join(shape, &bytes, &tape, shape.code_bytes());
        deal(shape, SHARED, &bytes, length);
        let start = random.word() >> random.below(64);
        deal_source(shape, SHARED, start, &bytes, shape.dealt_bytes());
        evaluate(shape, &bytes, &tape, &bytes, shape.code_bytes());
        matrix_write(shape, &bytes, length);
        matrix_read(shape, &bytes, length);
        program(&bytes);
        trits_fit(&bytes, usize::MAX);
        let inputs = Inputs::read(shape, &bytes);
        run_units(&inputs, SHARED);
        paired_tape(random.below(3), &inputs, &inputs, &bytes);
    });
}
