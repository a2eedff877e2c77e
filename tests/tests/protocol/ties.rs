//! Tied rows at every call that reads a matrix file besides those of the file itself:
//! evaluator, step with a mask frame and `pair_run`.

use crate::calls::{compare_evaluate, compare_run};
use crate::lines::in_line;
use crate::runs::join_shares;
use crate::unit::{Lent, Run};
use service_pair_tests::matrices::{
    change_digit, file_of, fit, stated_matrix, stated_ties, tie_any, uniform,
};
use service_pair_tests::random::{report, seed, Random};
use service_pair_tests::reference::frame::MASK;
use service_pair_tests::reference::matrix::row_place;
use service_pair_tests::reference::numbers::{
    DONE, FRAME_LENGTH, OTHER_LINE, OTHER_SESSION, TIED_ROWS, UNFIT_TRIT, WRONG_LENGTH,
};
use service_pair_tests::reference::shape::{Shape, SETS, SET_1};
use service_pair_tests::samples::{diagonal_file, fit_inputs, seal, set_both_bits};
use service_pair_tests::state_layout::{LINE_AT, SESSION_AT};

/// Files with tied rows: the stated ones of the set, and some at random.
fn tied_files(random: &mut Random, shape: Shape) -> Vec<Vec<u8>> {
    let stated = stated_ties().into_iter().filter(|(of, ..)| *of == shape);
    let stated = stated.map(|(_, row, terms)| stated_matrix(shape, row, &terms));
    let mut files: Vec<Vec<u8>> = stated.map(|rows| file_of(shape, &rows)).collect();
    for most in [1, 2, 5, shape.digits] {
        let mut rows = fit(random, shape);
        tie_any(random, &mut rows, most);
        files.push(file_of(shape, &rows));
    }
    files
}

/// Fit files: the diagonal one, and such whose rows are tied but for the last column,
/// or but for the first.
fn fit_files(random: &mut Random, shape: Shape) -> Vec<Vec<u8>> {
    let mut files = vec![diagonal_file(shape)];
    for column in [0, shape.bits - 1] {
        let mut rows = uniform(random, shape);
        let row = tie_any(random, &mut rows, 2);
        change_digit(random, &mut rows[row][column]);
        files.push(file_of(shape, &rows));
    }
    files
}

/// The file with an unfit trit in some row, its check made good.
fn with_unfit_trit(random: &mut Random, shape: Shape, file: &[u8]) -> Vec<u8> {
    let mut unfit = file.to_vec();
    let place = row_place(shape, random.below(shape.digits));
    set_both_bits(random, shape, &mut unfit, place);
    seal(&mut unfit);
    unfit
}

#[test]
fn the_evaluator_refuses_tied_rows() {
    let mut random = Random::for_test("ties of the evaluator");
    let mut count = 0;
    for shape in SETS {
        let (set, room) = (shape.set, shape.code_bytes());
        let [key, label] = [0; 2].map(|_| random.contents(shape.string_bytes()));
        for file in tied_files(&mut random, shape) {
            let unfit = with_unfit_trit(&mut random, shape, &file);
            let calls = [
                ([&key[..], &label, &file], room, TIED_ROWS),
                ([&key, &label, &file], room - 1, WRONG_LENGTH),
                ([&key[1..], &label, &file], room, WRONG_LENGTH),
                ([&key, &label, &unfit], room, UNFIT_TRIT),
            ];
            for (inputs, room, number) in calls {
                assert_eq!(compare_evaluate(&mut random, set, inputs, room), number);
                count += 1;
            }
        }
        for file in fit_files(&mut random, shape) {
            let inputs = [&key[..], &label, &file];
            assert_eq!(compare_evaluate(&mut random, set, inputs, room), DONE);
            count += 1;
        }
    }
    report("protocol: tied rows at pair_evaluate", count);
}

/// What a step with tied rows gives, and with a fault of each other sort beside them.
fn faults(random: &mut Random, shape: Shape, lent: &Lent) -> Vec<(Lent, u32)> {
    let mut other_session = lent.clone();
    other_session.frame[SESSION_AT] ^= 1;
    let longer = [&lent.frame[..], &[0]].concat();
    let unfit = with_unfit_trit(random, shape, &lent.file);
    vec![
        (lent.clone(), TIED_ROWS),
        // The line alone comes after it.
        (in_line(lent, lent.frame[LINE_AT] ^ 1), TIED_ROWS),
        (other_session, OTHER_SESSION),
        (Lent { frame: longer, ..lent.clone() }, FRAME_LENGTH),
        (Lent { room: shape.step_room() - 1, ..lent.clone() }, WRONG_LENGTH),
        (Lent { file: unfit, ..lent.clone() }, UNFIT_TRIT),
    ]
}

/// A mask frame with tied rows is refused and leaves the unit, which goes on with a fit
/// file; deal and open frames don't read it.
#[test]
fn steps_with_tied_rows() {
    let mut random = Random::for_test("ties of steps");
    let mut count = 0;
    for shape in SETS {
        let (tied, fit) = (tied_files(&mut random, shape), fit_files(&mut random, shape));
        for (file, round) in fit.into_iter().zip(0..) {
            let mut inputs = fit_inputs(&mut random, shape);
            inputs.file = file;
            let mut run = Run::start(inputs, random.shared());
            for turn in 0..6 {
                let side = turn % 2;
                let lent = run.as_sent(&mut random, side).expect("the frame was sent");
                if lent.frame[0] != MASK {
                    let lent = Lent { file: tied[round].clone(), ..lent };
                    assert_eq!(run.step(&mut random, side, &lent).number, DONE);
                    count += 1;
                    continue;
                }
                for file in &tied {
                    let lent = Lent { file: file.clone(), ..lent.clone() };
                    for (lent, number) in faults(&mut random, shape, &lent) {
                        let found = run.step(&mut random, side, &lent).number;
                        assert_eq!(found, number, "SEED={}", seed());
                        count += 1;
                    }
                }
                let other = in_line(&lent, lent.frame[LINE_AT] ^ 1);
                assert_eq!(run.step(&mut random, side, &other).number, OTHER_LINE);
                assert_eq!(run.step(&mut random, side, &lent).number, DONE, "SEED={}", seed());
                count += 2;
            }
            join_shares(&run);
        }
    }
    report("protocol: tied rows at steps", count);
}

#[test]
fn whole_runs_with_tied_rows() {
    let mut random = Random::for_test("ties of pair_run");
    let (mut count, room) = (0, SET_1.code_bytes());
    let tied = tied_files(&mut random, SET_1).into_iter().map(|file| (file, TIED_ROWS));
    let fit = fit_files(&mut random, SET_1).into_iter().map(|file| (file, DONE));
    for (file, number) in tied.chain(fit) {
        let mut inputs = fit_inputs(&mut random, SET_1);
        inputs.file = file;
        assert_eq!(compare_run(&mut random, &inputs.bytes(), room), number, "SEED={}", seed());
        assert_eq!(compare_run(&mut random, &inputs.bytes(), room - 1), WRONG_LENGTH);
        // An unfit trit of the file or of the tape comes before.
        let mut unfit = inputs.clone();
        unfit.file = with_unfit_trit(&mut random, SET_1, &inputs.file);
        assert_eq!(compare_run(&mut random, &unfit.bytes(), room), UNFIT_TRIT);
        set_both_bits(&mut random, SET_1, &mut inputs.tape, SET_1.copied_bytes());
        assert_eq!(compare_run(&mut random, &inputs.bytes(), room), UNFIT_TRIT);
        count += 4;
    }
    report("protocol: tied rows at pair_run", count);
}
