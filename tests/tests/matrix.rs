//! Compares the four calls of the matrix file with the reference, in each set: writer,
//! reader, check and which rows are tied, on fit, damaged, cut and random files.

mod interface;
mod matrix_calls;

use matrix_calls::{compare_file, compare_fully, compare_rows};
use service_pair_tests::random::{report, Random};
use service_pair_tests::reference::matrix::{self, BLOCK_BYTES, CHECK_AT, ROWS_AT, SET_AT};
use service_pair_tests::reference::numbers::NO_SET;
use service_pair_tests::reference::shape::{Shape, SETS, SET_1, SET_2, SET_3};
use service_pair_tests::reference::trits::pack_trits;
use service_pair_tests::samples::{
    change, chosen_faults, damage_file, diagonal_file, fit_file, fit_rows, lengths_of_sets, seal,
    set_both_bits, FAULT_CHOICES, NO_SETS,
};

/// An output slice that is long enough, exactly or with bytes to spare.
fn enough(random: &mut Random, least: usize) -> usize {
    match random.below(3) {
        0 => least,
        _ => least + random.below(40),
    }
}

#[test]
fn fit_matrices_survive_their_files() {
    let mut random = Random::for_test("round trip");
    let count = 100;
    for shape in SETS {
        for _ in 0..count {
            let rows = fit_rows(&mut random, shape);
            let mut file = vec![0; shape.file_bytes()];
            assert_eq!(interface::matrix_write(shape.set, &rows, &mut file), 0);
            assert_eq!(interface::matrix_check(shape.set, &file), 0);
            let mut read = vec![0; shape.row_set_bytes()];
            assert_eq!(interface::matrix_read(shape.set, &file, &mut read), 0);
            assert_eq!(read, rows);
            let room = enough(&mut random, shape.file_bytes());
            assert_eq!(compare_rows(&mut random, shape.set, &rows, room), 0);
            let room = enough(&mut random, shape.row_set_bytes());
            assert_eq!(compare_file(&mut random, shape.set, &file, room), 0);
        }
    }
    report("matrix: rows written, checked and read", SETS.len() * count);
}

/// The blocks that document 02's sets name, of diagonal matrices.
#[test]
fn blocks_of_diagonal_files() {
    let mut random = Random::for_test("diagonal files");
    let blocks = [
        (SET_2, 0, [0x42, 0x00, 0x15, 0x02], [0x78, 0xce]),
        (SET_3, 0, [0x42, 0x00, 0x03, 0x03], [0x4f, 0xcf]),
        (SET_3, 53, [0x42, 0x35, 0x03, 0x03], [0x01, 0x65]),
    ];
    for (shape, number, header, check) in blocks {
        let rows = matrix::rows_of_file(shape, &diagonal_file(shape));
        assert_eq!(compare_rows(&mut random, shape.set, &rows, shape.file_bytes()), 0);
        let mut file = vec![0; shape.file_bytes()];
        assert_eq!(interface::matrix_write(shape.set, &rows, &mut file), 0);
        let block = matrix::block_of(&file, number);
        assert_eq!((&block[..ROWS_AT], &block[CHECK_AT..]), (&header[..], &check[..]));
    }
    report("matrix: blocks of diagonal files", blocks.len());
}

/// No file of a set is one of another: its length differs, and where no set is
/// named nothing else is looked at.
#[test]
fn files_named_as_every_set() {
    let mut random = Random::for_test("named sets");
    let mut count = 0;
    for shape in SETS {
        let mut damaged = fit_file(&mut random, shape);
        damage_file(&mut random, shape, &mut damaged, &chosen_faults(FAULT_CHOICES - 1));
        let (file, rows) = (fit_file(&mut random, shape), fit_rows(&mut random, shape));
        for set in SETS.map(|other| other.set) {
            let number = u32::from(set != shape.set);
            assert_eq!(compare_file(&mut random, set, &file, SET_3.row_set_bytes()), number);
            assert_eq!(compare_rows(&mut random, set, &rows, SET_3.file_bytes()), number);
            count += 2;
        }
        for set in NO_SETS {
            for file in [&file[..], &damaged, &file[1..], &[]] {
                for room in [0, shape.row_set_bytes() - 1, shape.row_set_bytes() + 1] {
                    assert_eq!(compare_file(&mut random, set, file, room), NO_SET);
                }
            }
            for rows in [&rows[..], &damaged[..rows.len()], &rows[1..], &[]] {
                for room in [0, shape.file_bytes() - 1, shape.file_bytes() + 1] {
                    assert_eq!(compare_rows(&mut random, set, rows, room), NO_SET);
                }
            }
            count += 24;
        }
    }
    let file = fit_file(&mut random, SET_1);
    let check = |set| interface::matrix_check(set, &file);
    assert_eq!([0, 1, 2, 3, 4].map(check), [14, 0, 1, 1, 14]);
    report("matrix: files and row sets named as every set", count);
}

/// Byte 3 of each block is the set.
#[test]
fn blocks_of_another_set() {
    let mut random = Random::for_test("byte 3");
    let mut count = 0;
    for shape in SETS {
        let fit = fit_file(&mut random, shape);
        for number in 0..shape.blocks() {
            let any = shape.set as u8 ^ (1 + random.below(255) as u8);
            let others = SETS.map(|other| other.set as u8);
            let bytes = others.into_iter().chain([0, 4, 0xff, any]);
            for byte in bytes.filter(|byte| u32::from(*byte) != shape.set) {
                let mut file = fit.clone();
                file[BLOCK_BYTES * number + SET_AT] = byte;
                seal(&mut file);
                assert_eq!(compare_fully(&mut random, shape, &file), 9);
                count += 1;
            }
        }
        for other in SETS.into_iter().filter(|other| *other != shape) {
            // In every block at once.
            let named = Shape { set: other.set, ..shape };
            let file = matrix::file_of_rows(named, &matrix::rows_of_file(shape, &fit));
            assert_eq!(compare_fully(&mut random, shape, &file), 9);
            count += 1;
        }
    }
    report("matrix: blocks of another set", count);
}

/// "the last block only what remains": a block that says more or fewer rows.
#[test]
fn blocks_with_other_numbers_of_rows() {
    let mut random = Random::for_test("byte 2");
    let mut count = 0;
    for shape in SETS {
        let fit = fit_file(&mut random, shape);
        for number in 0..shape.blocks() {
            let rows = shape.rows_in_block(number);
            let all = SETS.into_iter().flat_map(|other| [other.block_rows, other.rows_in_block(0)]);
            for other in all.chain([0, rows - 1, rows + 1]).filter(|other| *other != rows) {
                let mut file = fit.clone();
                file[BLOCK_BYTES * number + 2] = other as u8;
                seal(&mut file);
                assert_eq!(compare_fully(&mut random, shape, &file), 9);
                count += 1;
            }
        }
    }
    report("matrix: blocks with another number of rows", count);
}

/// A sum is 0 to 254, so a check byte of 255 is wrong, also where the sum is 0.
#[test]
fn a_check_of_255_is_no_0() {
    let mut random = Random::for_test("check of 255");
    let wanted = 8;
    for shape in SETS {
        let mut count = 0;
        while count < wanted {
            let fit = fit_file(&mut random, shape);
            let checks = (0..shape.blocks()).map(|number| BLOCK_BYTES * number + CHECK_AT);
            for place in checks.flat_map(|check| [check, check + 1]) {
                if fit[place] == 0 && count < wanted {
                    let mut file = fit.clone();
                    file[place] = 0xff;
                    assert_eq!(compare_fully(&mut random, shape, &file), 8);
                    count += 1;
                }
            }
        }
    }
    report("matrix: checks of 255 for 0", SETS.len() * wanted);
}

/// Every place of the first and the last block, and some of those between, of any
/// place in a block.
fn places(random: &mut Random, shape: Shape) -> Vec<usize> {
    let last = shape.file_bytes() - BLOCK_BYTES;
    // An odd step comes to every place of a block.
    let step = 2 * shape.blocks() / 6 + 1;
    let between = (BLOCK_BYTES + random.below(step)..last).step_by(step);
    (0..BLOCK_BYTES).chain(between).chain(last.max(BLOCK_BYTES)..shape.file_bytes()).collect()
}

#[test]
fn every_damaged_byte_is_seen() {
    let mut random = Random::for_test("damaged bytes");
    let mut count = 0;
    for shape in SETS {
        let fit = fit_file(&mut random, shape);
        let places = places(&mut random, shape);
        let mut refused = 0;
        for &place in &places {
            let mut file = fit.clone();
            change(&mut random, &mut file, place);
            // One damaged byte always moves a sum modulo 255, but for 0 and 255.
            refused += usize::from(compare_fully(&mut random, shape, &file) == 8);
            // The check mended: what lies behind it decides.
            seal(&mut file);
            compare_fully(&mut random, shape, &file);
        }
        let least = places.len() * 9 / 10;
        assert!(refused > least, "only {refused} of {} moved a check", places.len());
        count += 2 * places.len();
    }
    report("matrix: damaged bytes, with and without a mended check", count);
}

/// 0 and 255 are one value modulo 255, so the sums can't tell them apart; the
/// layout, the trits or the stored byte itself must.
#[test]
fn bytes_0_and_255_are_told_apart() {
    let mut random = Random::for_test("0 and 255");
    let mut count = 0;
    for shape in SETS {
        // A diagonal, and behind it planes of the bytes 255 and 0 in turn, and of zeros.
        let behind = 8 * shape.code_plane();
        let digit = |i, j| u8::from(if j < behind { i == j } else { j / 8 % 2 == 0 });
        let row = |i: usize| pack_trits(shape.string_bytes(), |j| digit(i, j));
        let rows: Vec<u8> = (0..shape.digits).flat_map(row).collect();
        let fit = matrix::file_of_rows(shape, &rows);
        assert_eq!(compare_fully(&mut random, shape, &fit), 0);
        for place in places(&mut random, shape) {
            let turned = match fit[place] {
                0 => 0xff,
                0xff => 0,
                _ => continue,
            };
            let mut file = fit.clone();
            file[place] = turned;
            compare_fully(&mut random, shape, &file);
            count += 1;
        }
    }
    report("matrix: bytes 0 and 255 exchanged", count);
}

/// Lengths near none and near those of all sets, and some between and past them.
fn lengths(length: impl Fn(Shape) -> usize) -> Vec<usize> {
    let near = SETS.map(&length).into_iter().flat_map(|length| length - 40..length + 40);
    let between = (40..length(SET_3) + 700).step_by(61);
    (0..40).chain(near).chain(between).chain(lengths_of_sets(&length)).collect()
}

#[test]
fn every_other_length_is_refused() {
    let mut random = Random::for_test("lengths");
    let mut count = 0;
    for shape in SETS {
        let longer = SET_3.file_bytes() + 700;
        let long_file = [fit_file(&mut random, shape), random.bytes(longer)].concat();
        let long_rows = [fit_rows(&mut random, shape), random.bytes(longer)].concat();
        for length in lengths(Shape::file_bytes) {
            let number = compare_fully(&mut random, shape, &long_file[..length]);
            assert_eq!(number, u32::from(length != shape.file_bytes()));
            count += 1;
        }
        for length in lengths(Shape::row_set_bytes) {
            let rows = &long_rows[..length];
            let number = compare_rows(&mut random, shape.set, rows, shape.file_bytes());
            assert_eq!(number, u32::from(length != shape.row_set_bytes()));
            count += 1;
        }
    }
    report("matrix: lengths of files and row sets", count);
}

#[test]
fn every_output_length_is_judged() {
    let mut random = Random::for_test("output lengths");
    let mut count = 0;
    for shape in SETS {
        let (file, rows) = (fit_file(&mut random, shape), fit_rows(&mut random, shape));
        for room in lengths(Shape::row_set_bytes) {
            compare_file(&mut random, shape.set, &file, room);
            count += 1;
        }
        for room in lengths(Shape::file_bytes) {
            let number = compare_rows(&mut random, shape.set, &rows, room);
            assert_eq!(number, u32::from(room < shape.file_bytes()));
            count += 1;
        }
    }
    report("matrix: lengths of output slices", count);
}

#[test]
fn the_lowest_of_several_faults_is_told() {
    let mut random = Random::for_test("several faults");
    let rounds = 13;
    for shape in SETS {
        let mut seen = [0; 13];
        for choice in (0..rounds).flat_map(|_| 0..FAULT_CHOICES) {
            let mut file = fit_file(&mut random, shape);
            damage_file(&mut random, shape, &mut file, &chosen_faults(choice));
            let room = shape.row_set_bytes() - usize::from(random.once_in(10));
            seen[compare_file(&mut random, shape.set, &file, room) as usize] += 1;
        }
        for number in [0, 8, 9, 10, 12] {
            assert!(seen[number] > 0, "no file of set {} gave {number}", shape.set);
        }
    }
    report("matrix: files with several faults", SETS.len() * rounds * FAULT_CHOICES);
}

/// The lowest number must be known over all blocks: faults of every two blocks,
/// in the set of many blocks of some.
#[test]
fn faults_of_two_blocks_in_either_order() {
    let mut random = Random::for_test("two blocks");
    let mut count = 0;
    for shape in SETS {
        let fit = fit_file(&mut random, shape);
        let step = shape.blocks() / 14 + 1;
        let blocks = (0..shape.blocks()).step_by(step).chain([shape.blocks() - 1]);
        for first in blocks.clone() {
            for second in blocks.clone() {
                let mut file = fit.clone();
                file[BLOCK_BYTES * first + random.below(4)] ^= 1;
                set_both_bits(&mut random, shape, &mut file, BLOCK_BYTES * second + ROWS_AT);
                seal(&mut file);
                assert_eq!(compare_fully(&mut random, shape, &file), 9);
                file[BLOCK_BYTES * second + CHECK_AT] ^= 1;
                assert_eq!(compare_fully(&mut random, shape, &file), 8);
                count += 2;
            }
        }
    }
    report("matrix: faults of two blocks", count);
}

#[test]
fn unfit_row_sets_are_not_written() {
    let mut random = Random::for_test("unfit rows");
    let mut count = 0;
    for shape in SETS {
        let (set, row, room) = (shape.set, shape.vector_bytes(), shape.file_bytes());
        for i in 0..shape.digits {
            let mut rows = fit_rows(&mut random, shape);
            rows[row * i..row * (i + 1)].fill(0);
            assert_eq!(compare_rows(&mut random, set, &rows, room), 12);
            let other = random.below(shape.digits);
            set_both_bits(&mut random, shape, &mut rows, row * other);
            assert_eq!(compare_rows(&mut random, set, &rows, room), 10);
            let short = random.below(room);
            assert_eq!(compare_rows(&mut random, set, &rows, short), 1);
            count += 3;
        }
    }
    report("matrix: unfit row sets", count);
}

#[test]
fn random_files_and_rows() {
    let mut random = Random::for_test("random files");
    let count = 400;
    for shape in SETS {
        for trial in 0..count {
            let mut file = random.contents(shape.file_bytes());
            if trial % 2 == 0 {
                seal(&mut file);
            }
            if trial % 4 == 0 {
                // The right layout around random rows: only 10 and 12 are left.
                file = matrix::file_of_rows(shape, &matrix::rows_of_file(shape, &file));
            }
            compare_fully(&mut random, shape, &file);
            let rows = random.contents(shape.row_set_bytes());
            compare_rows(&mut random, shape.set, &rows, shape.file_bytes());
        }
    }
    report("matrix: random files and row sets", 2 * SETS.len() * count);
}
