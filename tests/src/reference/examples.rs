//! The twelve "Proved examples" of document 01, those of document 02, and the
//! program's sample.

use super::bits::{bit, multiply, pack};
use super::dealer::{self, tape_accepted, uncounted};
use super::evaluator::evaluate;
use super::frame::{frame_of, Shared, SHARE};
use super::join::join;
use super::matrix::{
    block_of, block_sums, check_differs, layout_differs, matrix_check, BLOCK_BYTES, CHECK_AT,
    SET_AT,
};
use super::numbers::{lowest, Answer, BLOCK_CHECK, BLOCK_LAYOUT, NO_SET, SHORT_SOURCE};
use super::program::{digits, program, Inputs, SHARED};
use super::shape::{with_set, Shape, SETS, SET_1, SET_2, SET_3};
use super::trits::{add_trits, inner_share, pack_trits, trit};
use super::unit::{begin_with_set, step, step_number, Stage, State};
use crate::random::Random;
use crate::samples::{diagonal_file, seal};

/// The sampler of set 1, whose examples these are.
fn sample(start: u64, source: &[u8], room: usize) -> Answer {
    dealer::sample(SET_1, start, source, room)
}

/// A key or label with these bits alone.
fn string_with(shape: Shape, bits: &[usize]) -> Vec<u8> {
    pack(shape.string_bytes(), |j| u8::from(bits.contains(&j)))
}

#[test]
fn example_1_key_bit_0_gives_the_label() {
    for shape in SETS {
        let label = Random::for_test("example 1").bytes(shape.string_bytes());
        assert_eq!(multiply(shape, &string_with(shape, &[0]), &label), label);
    }
}

#[test]
fn example_2_key_bit_1_moves_the_label() {
    for shape in SETS {
        let label = Random::for_test("example 2").bytes(shape.string_bytes());
        let w = multiply(shape, &string_with(shape, &[1]), &label);
        for i in 0..shape.bits {
            assert_eq!(bit(&w, i), bit(&label, (i + 1) % shape.bits));
        }
    }
}

#[test]
fn examples_3_to_6_convert_shares() {
    let table = [
        (1, [2, 2], [2, 1], 0),
        (1, [1, 2], [0, 1], 1),
        (0, [0, 1], [0, 1], 1),
        (0, [1, 2], [1, 2], 0),
    ];
    for (masked, r, shares, w) in table {
        let vector = |value: u8| pack_trits(1, |_| value);
        let mask = [if masked == 1 { 0xff } else { 0 }];
        let share0 = inner_share(0, &mask, &vector(r[0]), 1);
        let share1 = inner_share(1, &mask, &vector(r[1]), 1);
        assert_eq!(share0, vector(shares[0]));
        assert_eq!(share1, vector(shares[1]));
        assert_eq!(add_trits(&share0, &share1, 1), vector(w));
    }
}

/// A source whose first bytes are zero, then this byte as often as said.
fn source_of(byte: u8, times: usize) -> Vec<u8> {
    [vec![0; 192], vec![byte; times]].concat()
}

#[test]
fn example_7_source_byte_e4_gives_0_1_2() {
    let answer = sample(0, &source_of(0xe4, 86), 256);
    for j in 0..256 {
        assert_eq!(usize::from(trit(&answer.bytes[192..], 32, j)), j % 3);
    }
}

#[test]
fn example_8_source_byte_ff_gives_none() {
    assert_eq!(sample(0, &source_of(0xff, 5000), 256).number, SHORT_SOURCE);
    let skipped = [source_of(0xff, 100), vec![0xe4; 86]].concat();
    let answer = sample(0, &skipped, 256);
    assert_eq!((answer.number, answer.count), (0, 1_109 + 400));
    assert_eq!(answer.bytes, sample(0, &source_of(0xe4, 86), 256).bytes);
}

/// "Start 0 on the 278-byte example gives the same tape and reports 1,109."
#[test]
fn example_9_next_unread_pair() {
    let source = source_of(0xe4, 86);
    assert_eq!(source.len(), 278);
    let answer = sample(0, &source, 256);
    assert_eq!((answer.number, answer.count), (0, 1_109));
    let vector = pack_trits(32, |j| (j % 3) as u8);
    assert_eq!(answer.bytes, [vec![0; 192], vector].concat());
    assert!(tape_accepted(SET_1, &answer.bytes));
    let longer = sample(0, &source_of(0xe4, 600), 256);
    assert_eq!(longer, answer);
}

#[test]
fn example_10_short_source() {
    let answer = sample(0, &source_of(0xe4, 85), 256);
    assert_eq!((answer.number, answer.count), (13, 0));
    assert!(answer.bytes.is_empty());
}

/// The 278-byte example from other starts. 344 is the last that leaves 768 pairs.
#[test]
fn starts_of_the_example() {
    let source = source_of(0xe4, 86);
    let ends = |start| {
        let answer = sample(start, &source, 256);
        (answer.number, answer.count)
    };
    assert_eq!([0, 1, 2].map(ends), [(0, 1_109), (0, 1_110), (0, 1_111)]);
    for start in [3, 4, 344, 345, 1_112, 1_113, 1 << 62, 1 << 63, u64::MAX] {
        assert_eq!(ends(start), (13, 0), "start {start}");
    }
}

/// Copied byte i is pairs 4i to 4i + 3 from the start on. Of pairs 0, 1, 2, 3 in
/// turn E4 begins with the 0, 39 with the 1, 4E with the 2, 93 with the 3.
#[test]
fn copied_bytes_begin_inside_a_byte() {
    for (start, byte) in [(0, 0xe4), (1, 0x39), (2, 0x4e), (3, 0x93), (4, 0xe4)] {
        let answer = sample(start, &[0xe4; 300], 256);
        assert_eq!(answer.number, 0);
        assert_eq!(answer.bytes[..192], [byte; 192], "start {start}");
    }
}

/// "A draw begun where an accepted one ended shares no pair with it."
#[test]
fn the_example_twice() {
    let once = source_of(0xe4, 86);
    let source = [&once[..], &once, &[0xe4; 10]].concat();
    assert_eq!(sample(0, &source, 256), sample(0, &once, 256));
    let second = sample(1_109, &source, 256);
    assert_eq!((second.number, second.count), (0, 2_217));
}

#[test]
fn empty_sources_and_long_ones() {
    assert_eq!(sample(0, &[], 256).number, 13);
    assert_eq!(sample(0, &[], 255).number, 1);
    // No slice is as long, so the length is judged by itself.
    assert!(uncounted(1 << 62) && uncounted(usize::MAX));
    assert!(!uncounted((1 << 62) - 1));
}

#[test]
fn example_11_check_of_a_first_byte() {
    let block = [vec![1], vec![0; 511]].concat();
    assert_eq!(block_sums(&block), [1, 0]);
}

#[test]
fn example_12_a_block_of_zeros() {
    let block = vec![0; 512];
    assert!(!check_differs(&block));
    for shape in SETS {
        for number in 0..shape.blocks() {
            let differs = layout_differs(shape, &block, number);
            let conditions = [(BLOCK_CHECK, check_differs(&block)), (BLOCK_LAYOUT, differs)];
            assert_eq!(lowest(&conditions), 9);
        }
        assert_eq!(matrix_check(shape, &vec![0; shape.file_bytes()]), 9);
    }
}

/// The table of document 02's sets: "All lengths and 13's counts follow from n
/// and t", and "each frame and the step's least output grow by one" with the line.
#[test]
fn lengths_of_the_three_sets() {
    let lengths = |shape: Shape| {
        [
            shape.string_bytes(),
            shape.vector_bytes(),
            shape.code_bytes(),
            shape.tape_bytes(),
            shape.copied_bytes(),
            shape.row_set_bytes(),
            shape.file_bytes(),
            shape.blocks(),
            shape.deal_bytes(),
            shape.open_bytes(),
            shape.mask_bytes(),
            shape.share_bytes(),
            shape.step_room(),
            shape.dealt_bytes(),
            shape.copied_pairs(),
            shape.bits,
            shape.rows_in_block(shape.blocks() - 1),
        ]
    };
    let table = [
        [32, 64, 22, 256, 192, 5_184, 6_144, 12, 167, 71, 39, 29, 71, 334, 768, 256, 4],
        [8, 16, 6, 64, 48, 336, 512, 1, 47, 23, 15, 13, 23, 94, 192, 64, 21],
        [64, 128, 42, 512, 384, 20_736, 27_648, 54, 327, 135, 71, 49, 135, 654, 1_536, 512, 3],
    ];
    assert_eq!(SETS.map(lengths), table);
}

#[test]
fn blocks_of_diagonal_files() {
    let blocks = [
        (SET_2, 0, [0x42, 0x00, 0x15, 0x02], [0x78, 0xce]),
        (SET_3, 0, [0x42, 0x00, 0x03, 0x03], [0x4f, 0xcf]),
        (SET_3, 53, [0x42, 0x35, 0x03, 0x03], [0x01, 0x65]),
    ];
    for (shape, number, header, check) in blocks {
        let file = diagonal_file(shape);
        assert_eq!(matrix_check(shape, &file), 0);
        let block = block_of(&file, number);
        assert_eq!((&block[..4], &block[CHECK_AT..]), (&header[..], &check[..]));
    }
}

/// The digits of a key and a label of these bits, with the diagonal matrix.
fn diagonal_digits(shape: Shape, key: &[usize], label: &[usize]) -> String {
    let [key, label] = [key, label].map(|bits| string_with(shape, bits));
    let answer = evaluate(shape, &key, &label, &diagonal_file(shape), shape.code_bytes());
    assert_eq!(answer.number, 0);
    digits(shape, &answer.bytes)
}

#[test]
fn codes_with_diagonal_matrices() {
    for shape in SETS {
        let with_zeros = |first: &str| format!("{first:0<0$}", shape.digits);
        assert_eq!(diagonal_digits(shape, &[0], &[0, 2]), with_zeros("101"));
        let label = [0, 2, shape.bits - 1];
        assert_eq!(diagonal_digits(shape, &[1], &label), with_zeros("01"));
    }
}

#[test]
fn next_unread_pairs_of_the_other_sets() {
    for (shape, times, next) in [(SET_2, 22, 277), (SET_3, 171, 2_218)] {
        let draw = |times| {
            let source = [vec![0; shape.copied_bytes()], vec![0xe4; times]].concat();
            let answer = dealer::sample(shape, 0, &source, shape.tape_bytes());
            (answer.number, answer.count)
        };
        assert_eq!([draw(times), draw(times - 1)], [(0, next), (SHORT_SOURCE, 0)]);
    }
}

#[test]
fn a_file_named_as_another_set() {
    let check = |set: u32, file: &[u8]| {
        with_set(set, |shape| Answer::refused(matrix_check(shape, file))).number
    };
    let mut file = diagonal_file(SET_1);
    assert_eq!([0, 1, 2, 3, 4].map(|set| check(set, &file)), [NO_SET, 0, 1, 1, NO_SET]);
    file[BLOCK_BYTES * 5 + SET_AT] = 2;
    assert_eq!(check(1, &file), BLOCK_CHECK);
    seal(&mut file);
    assert_eq!(check(1, &file), BLOCK_LAYOUT);
}

#[test]
fn beginnings_with_no_set() {
    let begin = |set| begin_with_set(set, 7, SHARED, &[], &[]);
    assert_eq!([begin(4), begin(1)], [(NO_SET, State::idle()), (1, State::idle())]);
    assert_eq!(State::idle().shape, SET_1);
}

/// "The dealer takes a line": the headers of a tape of zeros.
#[test]
fn deal_frames_of_line_0_and_1() {
    for line in [0, 1] {
        let shared = Shared { session: 1, line };
        let dealt = dealer::deal(SET_1, shared, &[0; 256], 334);
        assert_eq!((dealt.number, dealt.bytes.len()), (0, 334));
        assert_eq!(dealt.bytes[..7], [1, 0, 1, 0, 0, 0, line]);
        assert_eq!(dealt.bytes[167..174], [1, 1, 1, 0, 0, 0, line]);
    }
}

/// "A frame of another line than the unit's ... gives 15": the highest that a
/// step gives, so every other fault is told first.
#[test]
fn a_unit_of_line_1_and_a_deal_of_line_0() {
    let dealt = dealer::deal(SET_1, SHARED, &[0; 256], 334).bytes;
    let (frame0, frame1) = dealt.split_at(167);
    let storage = Shared { session: 1, line: 1 };
    let (number, unit) = begin_with_set(1, 0, storage, &[0; 32], &[0; 32]);
    assert_eq!((number, unit.shared.line), (0, 1));
    let answer = |frame: &[u8], room| step_number(&unit, frame, &[], room);
    assert_eq!([answer(frame0, 71), answer(frame0, 70)], [15, 1]);
    let mut unfit = frame0.to_vec();
    (unfit[103], unfit[135]) = (1, 1);
    assert_eq!(answer(&unfit, 71), 10);
    assert_eq!([frame1, &frame0[..6], &frame0[..7]].map(|frame| answer(frame, 71)), [6, 3, 4]);
    let own = dealer::deal(SET_1, storage, &[0; 256], 334).bytes;
    assert_eq!(answer(&own[..167], 71), 0);
}

/// "two share frames of differing lines"
#[test]
fn share_frames_of_lines_0_and_1() {
    let zeros = [0; 22];
    let share = |side, line, code: &[u8]| frame_of(SHARE, side, Shared { session: 1, line }, code);
    let mut spare = zeros;
    spare[10] = 0x80;
    let first = share(0, 0, &zeros);
    let joined = |second: &[u8]| join(SET_1, &first, second, 22).number;
    assert_eq!(joined(&share(1, 1, &zeros)), 15);
    assert_eq!(joined(&share(1, 1, &spare)), 11);
    assert_eq!(joined(&share(1, 0, &zeros)), 0);
}

/// Units "keep it in their state, done and idle included (idle: 0)".
#[test]
fn lines_of_idle_and_done_units() {
    let named = Shared { session: 1, line: 9 };
    assert_eq!(begin_with_set(1, 2, named, &[0; 32], &[0; 32]), (2, State::idle()));
    assert_eq!(State::idle().shared.line, 0);
    let dealt = dealer::deal(SET_2, named, &[0; 64], 94).bytes;
    let mut frames = [&dealt[..47], &dealt[47..]].map(<[u8]>::to_vec);
    let mut units = [0, 1].map(|side| begin_with_set(2, side, named, &[1; 8], &[2; 8]).1);
    for _ in 0..3 {
        let [step0, step1] =
            [0, 1].map(|side| step(&units[side], &frames[side], &diagonal_file(SET_2), 23));
        (units, frames) = ([step0.next, step1.next], [step1.written, step0.written]);
    }
    for unit in units {
        assert_eq!((unit.stage, unit.shared), (Stage::Done, named));
    }
}

#[test]
fn the_program_prints_its_sample() {
    let zero = || vec![0; 32];
    let first = |byte: u8| [vec![byte], vec![0; 31]].concat();
    let inputs = Inputs {
        shape: SET_1,
        key_halves: [first(0x01), zero()],
        label_halves: [first(0x05), zero()],
        tape: vec![0; 256],
        file: diagonal_file(SET_1),
    };
    let input = inputs.bytes();
    assert_eq!(input.len(), 6528);
    let expected = format!("result 0\n101{}\n", "0".repeat(78));
    assert_eq!(program(&input), expected);
    assert_eq!(program(&input[..6527]), "result 1\n");
}
