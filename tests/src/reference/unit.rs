//! "The unit": state, beginning and step.

use super::bits::{add, multiply, part};
use super::dealer::Deal;
use super::evaluator::code_of;
use super::frame::{frame_of, read_frame, Frame, Shared, DEAL, MASK, OPEN, SHARE};
use super::matrix::file_conditions;
use super::numbers::{
    lowest, Condition, DONE, NOT_WAITED_FOR, NO_SET, NO_SIDE, OTHER_LINE, OTHER_SESSION,
    OTHER_SIDE, UNFIT_TRIT, WRONG_LENGTH,
};
use super::shape::{Shape, SET_1};
use super::trits::{inner_share, trits_fit};

/// What a unit waits for, or why it waits for nothing.
#[derive(Clone, Copy, Debug, PartialEq, Eq)]
pub enum Stage {
    Idle,
    WaitsForDeal,
    WaitsForOpen,
    WaitsForMask,
    Done,
}

/// "The state holds side, session, stage, the two halves, the deal and what
/// later steps need": its own mask. What is not yet known is zero. "The state
/// keeps its set", and units keep their line "in their state, done and idle
/// included".
#[derive(Clone, Debug, PartialEq, Eq)]
pub struct State {
    pub shape: Shape,
    pub side: u8,
    pub shared: Shared,
    pub stage: Stage,
    pub key_half: Vec<u8>,
    pub label_half: Vec<u8>,
    pub deal: Deal,
    pub mask: Vec<u8>,
}

/// The result of a step, the bytes written and the next state.
#[derive(Clone, Debug, PartialEq, Eq)]
pub struct Step {
    pub number: u32,
    pub written: Vec<u8>,
    pub next: State,
}

impl State {
    /// A state with "zeros for all else" than these.
    pub fn bare(shape: Shape, side: u8, shared: Shared, stage: Stage) -> State {
        State {
            shape,
            side,
            shared,
            stage,
            key_half: vec![0; shape.string_bytes()],
            label_half: vec![0; shape.string_bytes()],
            deal: Deal::none(shape),
            mask: vec![0; shape.string_bytes()],
        }
    }

    /// "an idle state, side 0 and session 0 with zeros for all else but the
    /// stage" and the set ("idle: 1"), whichever was named; the line is 0 too
    pub fn idle() -> State {
        State::bare(SET_1, 0, Shared { session: 0, line: 0 }, Stage::Idle)
    }

    /// The kind waited for; "Done and idle wait for no kind".
    pub fn waits_for(&self) -> Option<u8> {
        match self.stage {
            Stage::WaitsForDeal => Some(DEAL),
            Stage::WaitsForOpen => Some(OPEN),
            Stage::WaitsForMask => Some(MASK),
            Stage::Idle | Stage::Done => None,
        }
    }

    /// "key half + K̃i, label half + x̃i, modulo 2"
    fn open_body(&self) -> Vec<u8> {
        let key = add(self.shape, &self.key_half, &self.deal.key_mask);
        let label = add(self.shape, &self.label_half, &self.deal.label_mask);
        [key, label].concat()
    }

    /// "ŵi = K̂ × x̃i + K̃i × x̂ + zi modulo 2; side 0 also adds K̂ × x̂", with "K̂
    /// and x̂ the sums modulo 2 of both open bodies".
    fn mask_body(&self, other_open: &[u8]) -> Vec<u8> {
        let (shape, own_open) = (self.shape, self.open_body());
        let summed = |start| {
            let [own, other] =
                [&own_open[..], other_open].map(|body| part(body, start, shape.string_bytes()));
            add(shape, &own, &other)
        };
        let (key, label) = (summed(0), summed(shape.string_bytes()));
        let cross_label = multiply(shape, &key, &self.deal.label_mask);
        let cross_key = multiply(shape, &self.deal.key_mask, &label);
        let mask = add(shape, &add(shape, &cross_label, &cross_key), &self.deal.z);
        match self.side {
            0 => add(shape, &mask, &multiply(shape, &key, &label)),
            _ => mask,
        }
    }

    /// "Its code share is B times that", the inner share for "ŵ = ŵ0 + ŵ1".
    fn share_body(&self, other_mask: &[u8], file: &[u8]) -> Vec<u8> {
        let summed = add(self.shape, &self.mask, other_mask);
        let inner = inner_share(self.side, &summed, &self.deal.r, self.shape.string_bytes());
        code_of(self.shape, &inner, file)
    }
}

/// The side of the other unit.
pub fn other_side(side: u8) -> u8 {
    match side {
        0 => 1,
        _ => 0,
    }
}

/// "The beginning takes side, session, key half and label half", and "units begin
/// with" a line; "A refused beginning gives an idle state".
pub fn begin(
    shape: Shape,
    side: u32,
    shared: Shared,
    key_half: &[u8],
    label_half: &[u8],
) -> (u32, State) {
    let wrong = [key_half, label_half].iter().any(|half| half.len() != shape.string_bytes());
    let number = lowest(&[(WRONG_LENGTH, wrong), (NO_SIDE, side > 1)]);
    if number != DONE {
        return (number, State::idle());
    }
    let begun = State {
        key_half: key_half.to_vec(),
        label_half: label_half.to_vec(),
        ..State::bare(shape, side as u8, shared, Stage::WaitsForDeal)
    };
    (DONE, begun)
}

/// The beginning by the number of a set; 14 comes before its other numbers.
pub fn begin_with_set(
    set: u32,
    side: u32,
    shared: Shared,
    key_half: &[u8],
    label_half: &[u8],
) -> (u32, State) {
    match Shape::named(set) {
        Some(shape) => begin(shape, side, shared, key_half, label_half),
        None => (NO_SET, State::idle()),
    }
}

/// 5, 6, 7, a deal's 10 and 15, of a frame that was read.
fn frame_conditions(state: &State, frame: &Frame) -> [Condition; 5] {
    let side = match frame.kind {
        DEAL => state.side,
        _ => other_side(state.side),
    };
    let fits = || trits_fit(&Deal::read(state.shape, &frame.body).r, state.shape.bits);
    let unfit = frame.kind == DEAL && !fits();
    [
        (OTHER_SESSION, frame.shared.session != state.shared.session),
        (OTHER_SIDE, frame.side != side),
        (NOT_WAITED_FOR, state.waits_for() != Some(frame.kind)),
        (UNFIT_TRIT, unfit),
        (OTHER_LINE, frame.shared.line != state.shared.line),
    ]
}

/// The lowest number of a step; "A step reads the matrix file only if the
/// frame's first byte is 3."
pub fn step_number(state: &State, frame: &[u8], file: &[u8], room: usize) -> u32 {
    let mut conditions = vec![(WRONG_LENGTH, room < state.shape.step_room())];
    if frame.first() == Some(&MASK) {
        conditions.extend(file_conditions(state.shape, file));
    }
    match read_frame(state.shape, frame, &[DEAL, OPEN, MASK]) {
        Ok(read) => conditions.extend(frame_conditions(state, &read)),
        Err(number) => conditions.push((number, true)),
    }
    lowest(&conditions)
}

/// "Each step takes the unit's state and one frame and gives back the next
/// state."
pub fn step(state: &State, frame: &[u8], file: &[u8], room: usize) -> Step {
    let number = step_number(state, frame, file, room);
    match read_frame(state.shape, frame, &[DEAL, OPEN, MASK]) {
        Ok(read) if number == DONE => accepted(state, &read, file),
        _ => Step { number, written: Vec::new(), next: state.clone() },
    }
}

/// "it takes a deal and writes its open frame. It then takes the other's open
/// frame and writes its mask frame. It then takes the other's mask frame, reads
/// the matrix file, writes its share frame and is done".
fn accepted(state: &State, frame: &Frame, file: &[u8]) -> Step {
    let mut next = state.clone();
    let (kind, body) = match frame.kind {
        DEAL => {
            next.deal = Deal::read(state.shape, &frame.body);
            // No mask is known yet, whatever the state held.
            next.mask = vec![0; state.shape.string_bytes()];
            next.stage = Stage::WaitsForOpen;
            (OPEN, next.open_body())
        }
        OPEN => {
            next.mask = state.mask_body(&frame.body);
            next.stage = Stage::WaitsForMask;
            (MASK, next.mask.clone())
        }
        _ => {
            next = State::bare(state.shape, state.side, state.shared, Stage::Done);
            (SHARE, state.share_body(&frame.body, file))
        }
    };
    Step { number: DONE, written: frame_of(kind, state.side, state.shared, &body), next }
}
