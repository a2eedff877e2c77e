//! "The program": both units, the dealer and join over one input.

use super::bits::{add, part};
use super::dealer::{deal, tape_fits};
use super::frame::Shared;
use super::join::join;
use super::matrix::file_conditions;
use super::numbers::{Answer, DONE, UNFIT_TRIT, WRONG_LENGTH};
use super::shape::{Shape, SET_1};
use super::trits::trit;
use super::unit::{begin, step};

/// "6,528 bytes in all"
pub const INPUT_BYTES: usize = 6_528;
/// "It runs both units in session 1"; "The dealer takes a line (the program's is 0)"
pub const SHARED: Shared = Shared { session: 1, line: 0 };

/// What a run is made of, besides its session, its line and its list of steps.
#[derive(Clone, Debug, PartialEq, Eq)]
pub struct Inputs {
    pub shape: Shape,
    pub key_halves: [Vec<u8>; 2],
    pub label_halves: [Vec<u8>; 2],
    pub tape: Vec<u8>,
    pub file: Vec<u8>,
}

impl Inputs {
    /// "two key halves, two label halves, tape, matrix file"
    pub fn read(shape: Shape, input: &[u8]) -> Inputs {
        let half = |i| part(input, shape.string_bytes() * i, shape.string_bytes());
        let tape_at = 4 * shape.string_bytes();
        Inputs {
            shape,
            key_halves: [half(0), half(1)],
            label_halves: [half(2), half(3)],
            tape: part(input, tape_at, shape.tape_bytes()),
            file: part(input, tape_at + shape.tape_bytes(), shape.file_bytes()),
        }
    }

    /// The program's input with these parts.
    pub fn bytes(&self) -> Vec<u8> {
        let halves = [self.key_halves.concat(), self.label_halves.concat()].concat();
        [&halves[..], &self.tape, &self.file].concat()
    }

    /// "The run's key and label are the sums modulo 2 of its two halves of each".
    pub fn key_and_label(&self) -> [Vec<u8>; 2] {
        [&self.key_halves, &self.label_halves].map(|halves| add(self.shape, &halves[0], &halves[1]))
    }
}

/// A whole run in turn: deal, beginnings, three steps of each unit, join. Any
/// refusal on the way is the answer.
pub fn run_units(inputs: &Inputs, shared: Shared) -> Answer {
    let shape = inputs.shape;
    let dealt = deal(shape, shared, &inputs.tape, shape.dealt_bytes());
    if dealt.number != DONE {
        return dealt;
    }
    let mut frames =
        [0, 1].map(|side| part(&dealt.bytes, shape.deal_bytes() * side, shape.deal_bytes()));
    let begun = |side: usize| {
        let (key, label) = (&inputs.key_halves[side], &inputs.label_halves[side]);
        begin(shape, side as u32, shared, key, label)
    };
    let [(number0, mut unit0), (number1, mut unit1)] = [begun(0), begun(1)];
    for number in [number0, number1] {
        if number != DONE {
            return Answer::refused(number);
        }
    }
    for _ in 0..3 {
        let step0 = step(&unit0, &frames[0], &inputs.file, shape.step_room());
        let step1 = step(&unit1, &frames[1], &inputs.file, shape.step_room());
        if step0.number != DONE || step1.number != DONE {
            return Answer::refused(step0.number.max(step1.number));
        }
        (unit0, unit1) = (step0.next, step1.next);
        // Each unit's frame is what the other takes next.
        frames = [step1.written, step0.written];
    }
    join(shape, &frames[1], &frames[0], shape.code_bytes())
}

/// The program as one call: "the program counts as one call that reads all its
/// input", so the lowest number is over tape and file together; "the program stays
/// with set 1".
pub fn pair_run(input: &[u8], room: usize) -> Answer {
    if input.len() != INPUT_BYTES || room < SET_1.code_bytes() {
        return Answer::refused(WRONG_LENGTH);
    }
    let inputs = Inputs::read(SET_1, input);
    let mut conditions = file_conditions(SET_1, &inputs.file);
    conditions.push((UNFIT_TRIT, !tape_fits(SET_1, &inputs.tape)));
    match Answer::unless(&conditions, Vec::new) {
        refusal if refusal.number != DONE => refusal,
        _ => run_units(&inputs, SHARED),
    }
}

/// "a line of 81 digits, digit 0 first", or of another set's.
pub fn digits(shape: Shape, code: &[u8]) -> String {
    (0..shape.digits).map(|i| char::from(b'0' + trit(code, shape.code_plane(), i))).collect()
}

/// "prints `result 0`, then a line of 81 digits, digit 0 first. A refusal prints
/// `result N` only."
pub fn program(input: &[u8]) -> String {
    let answer = pair_run(input, SET_1.code_bytes());
    match answer.number {
        DONE => format!("result 0\n{}\n", digits(SET_1, &answer.bytes)),
        number => format!("result {number}\n"),
    }
}
