//! What `pair_tied_rows` refuses: by which number, that every lent byte stays as it was,
//! and that the count is 0 then, whatever it held.

use crate::matrix_calls::{compare_fully, compare_tie};
use service_pair_tests::matrices::{diagonal, file_of, fit, tie_any};
use service_pair_tests::random::{report, seed, Random};
use service_pair_tests::reference::matrix::{row_place, BLOCK_BYTES, CHECK_AT, ROWS_AT, SET_AT};
use service_pair_tests::reference::numbers::{
    BLOCK_CHECK, BLOCK_LAYOUT, DONE, NOT_TIED, NO_SET, TIED_ROWS, UNFIT_TRIT, WRONG_LENGTH,
};
use service_pair_tests::reference::shape::{Shape, SETS, SET_1, SET_3};
use service_pair_tests::samples::{
    change, chosen_faults, damage_file, diagonal_file, fit_file, lengths_of_sets, nearly, resized,
    seal, set_both_bits, FileFault, FAULT_CHOICES, NO_SETS,
};

/// A file whose only fault is a tie.
fn tied_file(random: &mut Random, shape: Shape) -> Vec<u8> {
    let mut rows = fit(random, shape);
    let most = random.choose(&[1, 3, shape.digits]);
    tie_any(random, &mut rows, most);
    file_of(shape, &rows)
}

/// Turns a trit of row i unfit, and makes the check good.
fn with_unfit_trit(random: &mut Random, shape: Shape, file: &[u8], i: usize) -> Vec<u8> {
    let mut unfit = file.to_vec();
    set_both_bits(random, shape, &mut unfit, row_place(shape, i));
    seal(&mut unfit);
    unfit
}

#[test]
fn stated_refusals() {
    let mut random = Random::for_test("stated refusals");
    let fit = diagonal_file(SET_1);
    let mut rows = diagonal(SET_1);
    rows[5] = rows[3].clone();
    let tied = file_of(SET_1, &rows);
    let unfit = with_unfit_trit(&mut random, SET_1, &tied, 9);
    let calls = [
        (1, &fit, 162, NOT_TIED),
        (1, &fit, 161, WRONG_LENGTH),
        (1, &tied, 162, DONE),
        (1, &tied, 161, WRONG_LENGTH),
        (1, &unfit, 162, UNFIT_TRIT),
        (4, &fit, 162, NO_SET),
        (4, &tied, 161, NO_SET),
    ];
    for (set, file, room, number) in calls {
        assert_eq!(compare_tie(&mut random, set, file, room), number);
    }
    report("ties: stated refusals", calls.len());
}

/// The number of a file with these faults, in their order. A later fault may overwrite
/// the row of the unfit trit: then the check gives 12.
fn number_of(faults: &[FileFault], checked: u32) -> u32 {
    match faults {
        [] => NOT_TIED,
        [FileFault::Check, ..] => BLOCK_CHECK,
        [FileFault::Header | FileFault::UnusedByte, ..] => BLOCK_LAYOUT,
        [FileFault::UnfitTrit, _, ..] if checked == TIED_ROWS => DONE,
        [FileFault::UnfitTrit, ..] => UNFIT_TRIT,
        [FileFault::ZeroRow | FileFault::TiedRows, ..] => DONE,
    }
}

/// 12 is never given: a file has the number of its other faults, and else 0 or 16; with
/// a short output slice it is 1, whatever the file.
#[test]
fn every_choice_of_faults() {
    let mut random = Random::for_test("faults of lists");
    let rounds = 12;
    for shape in SETS {
        for choice in (0..rounds).flat_map(|_| 0..FAULT_CHOICES) {
            let mut file = fit_file(&mut random, shape);
            let faults = chosen_faults(choice);
            damage_file(&mut random, shape, &mut file, &faults);
            let right = number_of(&faults, compare_fully(&mut random, shape, &file));
            let (enough, short) = (shape.tie_bytes(), random.below(shape.tie_bytes()));
            for (room, right) in [(enough, right), (short, WRONG_LENGTH)] {
                let number = compare_tie(&mut random, shape.set, &file, room);
                assert_eq!(number, right, "{faults:?}, SEED={}", seed());
            }
        }
    }
    report("ties: files with several faults", 3 * SETS.len() * rounds * FAULT_CHOICES);
}

/// A fault in every block and an unfit trit in every row, beside a tie.
#[test]
fn a_fault_beside_a_tie() {
    let mut random = Random::for_test("faults beside ties");
    let mut count = 0;
    for shape in SETS {
        let (set, room) = (shape.set, shape.tie_bytes());
        let tied = tied_file(&mut random, shape);
        for i in 0..shape.digits {
            let unfit = with_unfit_trit(&mut random, shape, &tied, i);
            assert_eq!(compare_tie(&mut random, set, &unfit, room), UNFIT_TRIT);
            count += 1;
        }
        for number in 0..shape.blocks() {
            let unfit = with_unfit_trit(&mut random, shape, &tied, 0);
            for (mut file, i) in [(tied.clone(), 0), (unfit.clone(), 1)] {
                let place = BLOCK_BYTES * number + random.below(ROWS_AT);
                change(&mut random, &mut file, place);
                seal(&mut file);
                let found = compare_tie(&mut random, set, &file, room);
                assert_eq!(found, BLOCK_LAYOUT, "{i}, SEED={}", seed());
                file[BLOCK_BYTES * number + CHECK_AT + i] ^= 1;
                assert_eq!(compare_tie(&mut random, set, &file, room), BLOCK_CHECK);
                assert_eq!(compare_tie(&mut random, set, &file, room - 1), WRONG_LENGTH);
                count += 3;
            }
        }
        let mut other = tied.clone();
        other[SET_AT] = (shape.set % 3 + 1) as u8;
        seal(&mut other);
        assert_eq!(compare_tie(&mut random, set, &other, room), BLOCK_LAYOUT);
        count += 1;
    }
    report("ties: faults beside ties", count);
}

/// Every output slice that is shorter than t rows need, and some longer ones; a list of
/// fewer rows would fit into many of the short ones.
#[test]
fn every_output_length() {
    let mut random = Random::for_test("room for lists");
    let mut count = 0;
    for shape in SETS {
        let (fit, tied) = (fit_file(&mut random, shape), tied_file(&mut random, shape));
        let unfit = with_unfit_trit(&mut random, shape, &tied, 0);
        let right = [(&fit, NOT_TIED), (&tied, DONE), (&unfit, UNFIT_TRIT)];
        let longer = [shape.file_bytes(), 5_000];
        for room in (0..shape.tie_bytes() + 40).chain(longer) {
            for (file, number) in right {
                let right = if room < shape.tie_bytes() { WRONG_LENGTH } else { number };
                assert_eq!(compare_tie(&mut random, shape.set, file, room), right);
                count += 1;
            }
        }
    }
    report("ties: lengths of output slices for lists", count);
}

/// Files of every length about those of all sets, and named as every set and as none.
#[test]
fn other_lengths_and_sets() {
    let mut random = Random::for_test("lengths of tied files");
    let mut count = 0;
    for shape in SETS {
        let tied = tied_file(&mut random, shape);
        let beside = shape.file_bytes() - 20..shape.file_bytes() + 20;
        for length in lengths_of_sets(Shape::file_bytes).into_iter().chain(beside).chain(0..20) {
            let file = resized(&mut random, tied.clone(), length);
            let number = compare_tie(&mut random, shape.set, &file, shape.tie_bytes());
            assert_eq!(number, u32::from(length != shape.file_bytes()), "{length}");
            count += 1;
        }
        for other in SETS {
            let number = compare_tie(&mut random, other.set, &tied, SET_3.tie_bytes());
            assert_eq!(number, u32::from(other != shape));
            count += 1;
        }
        for (set, room) in NO_SETS.into_iter().flat_map(|set| [(set, 0), (set, 324)]) {
            for file in [&tied[..], &tied[1..], &[]] {
                assert_eq!(compare_tie(&mut random, set, file, room), NO_SET);
                count += 1;
            }
        }
    }
    report("ties: lengths and sets of tied files", count);
}

/// Random bytes of any length, and such as are nearly a file: of its length, some with
/// good checks.
#[test]
fn random_bytes() {
    let mut random = Random::for_test("random bytes for lists");
    let count = 400;
    for shape in SETS {
        for trial in 0..count {
            let length = match trial % 4 {
                0 => random.below(SET_3.file_bytes() + 700),
                _ => nearly(&mut random, shape.file_bytes()),
            };
            let mut file = random.contents(length);
            if trial % 4 == 3 {
                seal(&mut file);
            }
            let room = nearly(&mut random, shape.tie_bytes());
            compare_tie(&mut random, shape.set, &file, room);
        }
    }
    report("ties: random bytes for lists", SETS.len() * count);
}
