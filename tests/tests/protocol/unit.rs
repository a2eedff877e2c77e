//! A run of two units in the library beside the same run in the reference;
//! every step is compared whole.

use crate::frames::{strange_file, strange_frame, strange_room};
use crate::interface;
use service_pair_tests::guarded::{compare_bytes, Guarded};
use service_pair_tests::random::{seed, Random};
use service_pair_tests::reference::frame::Shared;
use service_pair_tests::reference::numbers::DONE;
use service_pair_tests::reference::program::Inputs;
use service_pair_tests::reference::unit::{self, Stage, State};
use service_pair_tests::state_layout::{encode, LINE_AT, STATE_BYTES};

/// What one step is lent: frame, file and the length of the output slice.
#[derive(Clone, Debug, PartialEq, Eq)]
pub struct Lent {
    pub frame: Vec<u8>,
    pub file: Vec<u8>,
    pub room: usize,
}

/// What a step adds to a unit's view besides what it was lent.
#[derive(Clone, Debug, PartialEq, Eq)]
pub struct Outcome {
    pub number: u32,
    pub written: Vec<u8>,
    pub state: Vec<u8>,
}

/// A unit: the library's state slice and the reference's state.
#[derive(Clone, Debug)]
pub struct Unit {
    pub bytes: Vec<u8>,
    pub state: State,
}

impl Unit {
    /// An accepted beginning of both.
    pub fn begin(side: usize, shared: Shared, inputs: &Inputs) -> Unit {
        let (key, label) = (&inputs.key_halves[side], &inputs.label_halves[side]);
        let (shape, side) = (inputs.shape, side as u32);
        let mut bytes = vec![0xa5; STATE_BYTES];
        let number = interface::begin(shape.set, side, shared, key, label, &mut bytes);
        let (expected, state) = unit::begin(shape, side, shared, key, label);
        assert_eq!((number, expected), (DONE, DONE), "pair_begin, SEED={}", seed());
        assert_eq!(bytes, encode(&state), "the begun state, SEED={}", seed());
        Unit { bytes, state }
    }

    /// One step of both. The number, the count, the output slice, the state
    /// slice and what was only read are compared, with the guards around them.
    pub fn step(&mut self, random: &mut Random, lent: &Lent) -> Outcome {
        let expected = unit::step(&self.state, &lent.frame, &lent.file, lent.room);
        let mut slice = Guarded::lend(random, &self.bytes);
        // A refusal leaves the very bytes, also where two encodings were alike.
        let slice_after = match expected.number {
            DONE => slice.after(&encode(&expected.next)),
            _ => slice.clone(),
        };
        let (room, mut count) = (random.bytes(lent.room), random.word());
        let inputs = [&lent.frame[..], &lent.file];
        let bytes = &expected.written;
        let number = compare_bytes(random, "pair_step", inputs, &room, bytes, |inputs, out| {
            interface::step(slice.slice_mut(), inputs[0], inputs[1], out, &mut count)
        });
        let context = || format!("SEED={}\n{:?}\n{:?}", seed(), self.state, lent.frame);
        assert_eq!(number, expected.number, "pair_step's number, {}", context());
        assert_eq!(count, bytes.len() as u64, "pair_step's count, {}", context());
        assert!(slice == slice_after, "pair_step's state differs, {}", context());
        self.bytes = slice.slice().to_vec();
        self.state = expected.next;
        Outcome { number, written: expected.written, state: self.bytes.clone() }
    }
}

/// A run: its inputs, both units, and every frame written in it.
#[derive(Clone, Debug)]
pub struct Run {
    pub inputs: Inputs,
    pub shared: Shared,
    pub deals: [Vec<u8>; 2],
    pub units: [Unit; 2],
    pub sent: [Vec<Vec<u8>>; 2],
}

impl Run {
    /// "A run starts with the deal of its session and tape and with two units", and
    /// dealer and units have one line.
    pub fn start(inputs: Inputs, shared: Shared) -> Run {
        let shape = inputs.shape;
        let mut dealt = vec![0; shape.dealt_bytes()];
        let number = interface::deal(shape.set, shared, &inputs.tape, &mut dealt);
        assert_eq!(number, DONE, "pair_deal of an accepted tape, SEED={}", seed());
        let (deal0, deal1) = dealt.split_at(shape.deal_bytes());
        let deals = [deal0.to_vec(), deal1.to_vec()];
        let units = [0, 1].map(|side| Unit::begin(side, shared, &inputs));
        Run { inputs, shared, deals, units, sent: [Vec::new(), Vec::new()] }
    }

    /// "the frame is the one that the unit waits for, the dealer's for it or the
    /// other unit's open or mask frame", if it was written already.
    fn awaited(&self, side: usize) -> Option<&Vec<u8>> {
        match self.units[side].state.stage {
            Stage::WaitsForDeal => Some(&self.deals[side]),
            Stage::WaitsForOpen => self.sent[1 - side].first(),
            Stage::WaitsForMask => self.sent[1 - side].get(1),
            Stage::Idle | Stage::Done => None,
        }
    }

    /// An entry as sent, if the unit's frame was written already. The file is
    /// the run's where the step reads it, and any otherwise.
    pub fn as_sent(&self, random: &mut Random, side: usize) -> Option<Lent> {
        let frame = self.awaited(side)?.clone();
        let file = match self.units[side].state.stage {
            Stage::WaitsForMask => self.inputs.file.clone(),
            _ => strange_file(random, self.inputs.shape, &self.inputs.file),
        };
        Some(Lent { frame, file, room: self.inputs.shape.step_room() + random.below(40) })
    }

    /// Anything: the frame waited for or another of this run, whole or not, or
    /// one of no run; fit files or not.
    pub fn anything(&self, random: &mut Random, side: usize) -> Lent {
        let (shape, known) = (self.inputs.shape, self.frames());
        let mut frame = match self.awaited(side) {
            // The right frame, so that it is the line, the file or the slice that is not.
            Some(frame) if random.once_in(2) => frame.clone(),
            _ => strange_frame(random, shape, &known, self.shared),
        };
        if let (Some(line), true) = (frame.get_mut(LINE_AT), random.once_in(4)) {
            *line ^= 1 << random.below(8);
        }
        let file = strange_file(random, shape, &self.inputs.file);
        Lent { frame, file, room: strange_room(random, shape) }
    }

    /// Every frame of the run that was written.
    pub fn frames(&self) -> Vec<Vec<u8>> {
        [&self.deals[..], &self.sent[0], &self.sent[1]].concat()
    }

    /// Whether a frame is the one that the unit waits for.
    pub fn awaits(&self, side: usize, frame: &[u8]) -> bool {
        self.awaited(side).is_some_and(|awaited| awaited == frame)
    }

    /// Whether the reference refuses these for a unit.
    pub fn refuses(&self, side: usize, lent: &Lent) -> bool {
        let state = &self.units[side].state;
        unit::step_number(state, &lent.frame, &lent.file, lent.room) != DONE
    }

    /// One entry of the list.
    pub fn step(&mut self, random: &mut Random, side: usize, lent: &Lent) -> Outcome {
        let outcome = self.units[side].step(random, lent);
        if outcome.number == DONE {
            self.sent[side].push(outcome.written.clone());
        }
        outcome
    }

    /// A whole run, each unit's entries as sent and in turn.
    pub fn whole(random: &mut Random, inputs: Inputs, shared: Shared) -> Run {
        let mut run = Run::start(inputs, shared);
        for turn in 0..6 {
            let lent = run.as_sent(random, turn % 2).expect("the frame was sent");
            run.step(random, turn % 2, &lent);
        }
        run
    }

    pub fn both_done(&self) -> bool {
        self.units.iter().all(|unit| unit.state.stage == Stage::Done)
    }
}
