//! The line byte: frames of another line than the unit's, share frames of
//! differing lines, and what is told before them.

use crate::interface;
use crate::join::{compare_join, share};
use crate::runs::join_shares;
use crate::unit::{Lent, Run};
use service_pair_tests::random::{report, seed, Random};
use service_pair_tests::reference::frame::{Shared, DEAL, HEADER_BYTES, MASK};
use service_pair_tests::reference::numbers::{
    FRAME_LENGTH, NO_KIND, OTHER_LINE, OTHER_SESSION, OTHER_SIDE, UNFIT_TRIT, UNUSED_BIT,
};
use service_pair_tests::reference::program::Inputs;
use service_pair_tests::reference::shape::{SETS, SET_1, SET_2, SET_3};
use service_pair_tests::reference::unit::{Stage, State};
use service_pair_tests::samples::{
    damage_file, diagonal_file, fit_inputs, set_both_bits, FILE_FAULTS,
};
use service_pair_tests::state_layout::{encode, LINE_AT, SET_AT, STATE_BYTES};

/// Lines that are named, one that is free, and the last.
const LINES: [u8; 4] = [0, 1, 2, 255];

/// A run of this line, whose session is random.
fn run_of_line(random: &mut Random, inputs: Inputs, line: u8) -> Run {
    let shared = Shared { line, ..random.shared() };
    Run::start(inputs, shared)
}

/// What a step is lent as sent, with room and file for every kind.
fn awaited(random: &mut Random, run: &Run, side: usize) -> Lent {
    let lent = run.as_sent(random, side).expect("the frame was sent");
    Lent { file: run.inputs.file.clone(), ..lent }
}

/// The frame of a step in another line.
pub fn in_line(lent: &Lent, line: u8) -> Lent {
    let mut other = lent.clone();
    other.frame[LINE_AT] = line;
    other
}

/// The number of a step; the run stays as it is.
fn told(random: &mut Random, run: &Run, side: usize, lent: &Lent) -> u32 {
    run.clone().step(random, side, lent).number
}

/// Every bit of every header byte of every awaited frame, in each line.
#[test]
fn every_flipped_bit_of_headers_in_each_line() {
    let mut random = Random::for_test("flipped headers");
    let mut tried = 0;
    for (shape, line) in SETS.into_iter().flat_map(|shape| LINES.map(|line| (shape, line))) {
        let inputs = fit_inputs(&mut random, shape);
        let mut run = run_of_line(&mut random, inputs, line);
        for turn in 0..6 {
            let side = turn % 2;
            let lent = awaited(&mut random, &run, side);
            for place in 0..8 * HEADER_BYTES {
                let mut flipped = lent.clone();
                flipped.frame[place / 8] ^= 1 << (place % 8);
                // A refused step leaves the run, as `Unit::step` compares.
                let number = run.step(&mut random, side, &flipped).number;
                let expected = match place / 8 {
                    0 => [NO_KIND, FRAME_LENGTH].to_vec(),
                    1 => [OTHER_SIDE].to_vec(),
                    LINE_AT => [OTHER_LINE].to_vec(),
                    _ => [OTHER_SESSION].to_vec(),
                };
                assert!(expected.contains(&number), "bit {place}: {number}, SEED={}", seed());
                tried += 1;
            }
            assert_eq!(run.step(&mut random, side, &lent).number, 0, "SEED={}", seed());
        }
        join_shares(&run);
    }
    report("protocol: flipped bits of headers in each line", tried);
}

/// Two pairs of units of one session in one process, a line each, and every frame
/// of one handed to the units of the other.
#[test]
fn crossed_frames_of_two_lines() {
    let mut random = Random::for_test("crossed lines");
    let mut tried = 0;
    for shape in SETS {
        let shared = random.shared();
        let inputs = fit_inputs(&mut random, shape);
        let mut runs = [0, 1].map(|line| Run::start(inputs.clone(), Shared { line, ..shared }));
        for turn in 0..6 {
            let side = turn % 2;
            let own = runs.each_ref().map(|run| awaited(&mut random, run, side));
            // The halves, the session and the tape are alike: the line alone differs.
            assert_eq!(in_line(&own[0], 1).frame, own[1].frame, "SEED={}", seed());
            for line in 0..2 {
                let crossed = &own[1 - line];
                let number = runs[line].step(&mut random, side, crossed).number;
                assert_eq!(number, OTHER_LINE, "the other line's frame, SEED={}", seed());
                for frame in runs[1 - line].frames() {
                    let lent = Lent { frame, ..crossed.clone() };
                    let number = runs[line].step(&mut random, side, &lent).number;
                    assert_ne!(number, 0, "any frame of the other line, SEED={}", seed());
                    tried += 1;
                }
            }
            for (run, lent) in runs.iter_mut().zip(&own) {
                assert_eq!(run.step(&mut random, side, lent).number, 0, "SEED={}", seed());
            }
        }
        runs.iter().for_each(join_shares);
        let [first, second] = runs.each_ref().map(|run| run.sent.each_ref().map(|sent| &sent[2]));
        let room = shape.code_bytes();
        for (share0, share1) in [(first[0], second[1]), (second[0], first[1])] {
            let number = compare_join(&mut random, shape.set, share0, share1, room);
            assert_eq!(number, OTHER_LINE, "shares of two lines, SEED={}", seed());
            tried += 1;
        }
    }
    report("protocol: frames crossed between two lines", tried);
}

/// Every other fault of a frame of another line is told before its line.
#[test]
fn other_faults_are_told_before_the_line() {
    let mut random = Random::for_test("faults before the line");
    let mut tried = 0;
    for shape in (0..4).flat_map(|_| SETS) {
        let inputs = fit_inputs(&mut random, shape);
        let mut run = run_of_line(&mut random, inputs, 1);
        for turn in 0..6 {
            let side = turn % 2;
            let lent = awaited(&mut random, &run, side);
            let other = in_line(&lent, random.choose(&[0, 2, 255]));
            let mut faults = vec![(other.clone(), OTHER_LINE)];
            let put = |place: usize, bit: u8| {
                let mut faulty = other.clone();
                faulty.frame[place] ^= bit;
                faulty
            };
            faults.extend([(put(1, 1), OTHER_SIDE), (put(5, 0x80), OTHER_SESSION)]);
            faults.push((Lent { room: shape.step_room() - 1, ..other.clone() }, 1));
            for (length, number) in [(6, NO_KIND), (7, FRAME_LENGTH)] {
                let frame = other.frame[..length].to_vec();
                faults.push((Lent { frame, ..other.clone() }, number));
            }
            if other.frame[0] == DEAL {
                let mut unfit = other.clone();
                set_both_bits(&mut random, shape, &mut unfit.frame, shape.r_in_deal());
                faults.push((unfit, UNFIT_TRIT));
            }
            if other.frame[0] == MASK {
                for (fault, number) in FILE_FAULTS.into_iter().zip([8, 9, 9, 10, 12, 12]) {
                    let mut unfit = other.clone();
                    damage_file(&mut random, shape, &mut unfit.file, &[fault]);
                    faults.push((unfit, number));
                }
                let file = other.file[1..].to_vec();
                faults.push((Lent { file, ..other.clone() }, 1));
            }
            for (lent, number) in &faults {
                let found = run.step(&mut random, side, lent).number;
                assert_eq!(found, *number, "SEED={}\n{lent:?}", seed());
            }
            tried += faults.len();
            // A frame that is not waited for: what the unit has taken already.
            assert_eq!(run.step(&mut random, side, &lent).number, 0, "SEED={}", seed());
            assert_eq!(told(&mut random, &run, side, &other), 7, "SEED={}", seed());
        }
        join_shares(&run);
    }
    report("protocol: other faults of frames of another line", tried);
}

/// Join of all pairs of lines, fit and not.
#[test]
fn shares_of_all_pairs_of_lines() {
    let mut random = Random::for_test("pairs of lines");
    let mut tried = 0;
    for shape in SETS {
        let (shared, room, plane) = (random.shared(), shape.code_bytes(), shape.code_plane());
        let spare = (plane - 1, 0x80);
        let pairs = LINES.into_iter().flat_map(|line0| LINES.map(|line1| [line0, line1]));
        for lines in pairs {
            let [share0, share1] = [0, 1].map(|side: u8| {
                let line = lines[usize::from(side)];
                share(&mut random, shape, side, Shared { line, ..shared })
            });
            let number = compare_join(&mut random, shape.set, &share0, &share1, room);
            let differ = lines[0] != lines[1];
            assert_eq!(number, if differ { OTHER_LINE } else { 0 }, "{lines:?}, SEED={}", seed());
            // A digit with both bits set, and an unused bit, of either share.
            for (number, places) in [(UNFIT_TRIT, [(0, 1), (plane, 1)]), (UNUSED_BIT, [spare; 2])] {
                for side in 0..2 {
                    let mut unfit = [share0.clone(), share1.clone()];
                    for (place, bit) in places {
                        unfit[side][HEADER_BYTES + place] |= bit;
                    }
                    let found = compare_join(&mut random, shape.set, &unfit[0], &unfit[1], room);
                    assert_eq!(found, number, "{lines:?}, SEED={}", seed());
                }
            }
            tried += 5;
        }
    }
    report("protocol: shares of all pairs of lines", tried);
}

/// "others free": dealer and beginnings take every byte, and every frame carries it.
#[test]
fn every_line_is_accepted() {
    let mut random = Random::for_test("every line");
    for line in 0..=255 {
        let shape = random.choose(&SETS);
        let (inputs, shared) = (fit_inputs(&mut random, shape), random.shared());
        let run = Run::whole(&mut random, inputs, Shared { line, ..shared });
        assert!(run.frames().iter().all(|frame| frame[LINE_AT] == line), "SEED={}", seed());
        assert!(run.units.iter().all(|unit| unit.bytes[LINE_AT] == line), "SEED={}", seed());
        join_shares(&run);
    }
    report("protocol: whole runs of every line", 256);
}

/// A unit of set 1 with halves of zeros.
fn begun(side: u32, line: u8) -> (u32, Vec<u8>) {
    let mut state = vec![0xa5; STATE_BYTES];
    let shared = Shared { session: 1, line };
    let number = interface::begin(1, side, shared, &[0; 32], &[0; 32], &mut state);
    (number, state)
}

/// The number of a step of that unit, without a file.
fn answer(state: &[u8], frame: &[u8], room: usize) -> u32 {
    let (mut state, mut out) = (state.to_vec(), vec![0; room]);
    interface::step(&mut state, frame, &[], &mut out, &mut 0)
}

/// The deal frames of set 1, session 1 and a tape of zeros.
fn zero_deals(line: u8) -> Vec<u8> {
    let mut dealt = vec![0; SET_1.dealt_bytes()];
    let shared = Shared { session: 1, line };
    assert_eq!(interface::deal(1, shared, &[0; 256], &mut dealt), 0);
    dealt
}

#[test]
fn stated_numbers_of_set_1() {
    let dealt = zero_deals(0);
    assert_eq!(dealt.len(), 334);
    let (frame0, frame1) = dealt.split_at(167);
    assert_eq!(
        (&frame0[..7], &frame1[..7]),
        (&[1, 0, 1, 0, 0, 0, 0][..], &[1, 1, 1, 0, 0, 0, 0][..])
    );
    let (number, unit) = begun(0, 1);
    assert_eq!(number, 0);
    assert_eq!([answer(&unit, frame0, 71), answer(&unit, frame0, 70)], [15, 1]);
    let mut unfit = frame0.to_vec();
    (unfit[SET_1.r_in_deal()], unfit[SET_1.r_in_deal() + 32]) = (1, 1);
    assert_eq!(answer(&unit, &unfit, 71), 10);
    let others = [frame1, &frame0[..6], &frame0[..7]];
    assert_eq!(others.map(|frame| answer(&unit, frame, 71)), [6, 3, 4]);
    assert_eq!(answer(&unit, &zero_deals(1)[..167], 71), 0);
    let (number, refused) = begun(2, 9);
    assert_eq!((number, refused), (2, encode(&State::idle())));
}

#[test]
fn stated_frames_of_set_2() {
    let padded = |bytes: &[u8], length: usize| [bytes, &vec![0; length - bytes.len()]].concat();
    let string = |byte: u8| padded(&[byte], 8);
    let inputs = Inputs {
        shape: SET_2,
        key_halves: [string(0x01), string(0)],
        label_halves: [string(0x05), string(0)],
        tape: vec![0; 64],
        file: diagonal_file(SET_2),
    };
    let shared = Shared { session: 1, line: 1 };
    let run = Run::whole(&mut Random::for_test("line 1 of set 2"), inputs, shared);
    let header = |kind: u8| vec![kind, 0, 1, 0, 0, 0, 1];
    let open = [header(2), string(0x01), string(0x05)].concat();
    let mask = [header(3), string(0x05)].concat();
    let code = padded(&[0x05], 6);
    let shares = [header(4), code.clone()].concat();
    assert_eq!(run.sent[0], [open, mask, shares]);
    let mut joined = vec![0; 6];
    assert_eq!(interface::join(2, &run.sent[0][2], &run.sent[1][2], &mut joined), 0);
    assert_eq!(joined, code);
    let done = State::bare(SET_2, 0, shared, Stage::Done);
    assert_eq!(run.units[0].bytes, encode(&done));
    assert_eq!((run.units[0].bytes[LINE_AT], run.units[0].bytes[SET_AT]), (1, 2));
}

/// Least output slices of dealer and step, and the length of a state, in each set.
#[test]
fn stated_lengths() {
    for (shape, dealt_bytes, least) in [(SET_1, 334, 71), (SET_2, 94, 23), (SET_3, 654, 135)] {
        let (set, half) = (shape.set, vec![0; shape.string_bytes()]);
        let shared = Shared { session: 1, line: 1 };
        let mut dealt = vec![0; dealt_bytes];
        let tape = vec![0; shape.tape_bytes()];
        assert_eq!(interface::deal(set, shared, &tape, &mut dealt[1..]), 1);
        assert_eq!(interface::deal(set, shared, &tape, &mut dealt), 0);
        let mut state = vec![0; 520];
        assert_eq!(interface::begin(set, 0, shared, &half, &half, &mut state[1..]), 1);
        assert_eq!(interface::begin(set, 0, shared, &half, &half, &mut state), 0);
        let frame = &dealt[..dealt_bytes / 2];
        assert_eq!([answer(&state, frame, least - 1), answer(&state, frame, least)], [1, 0]);
    }
}
