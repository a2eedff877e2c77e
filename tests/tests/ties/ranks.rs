//! Matrices whose rank is the number of rows, one less and two less, with ties among
//! few rows and many, among the last ones, and of rows that hardly have a digit.

use crate::judged;
use service_pair_tests::matrices::{fit, nonzero_digit, shuffled, tie, tie_to, uniform, Rows};
use service_pair_tests::random::{report, seed, Random};
use service_pair_tests::reference::elimination::rank;
use service_pair_tests::reference::shape::{Shape, SETS};

/// Makes so many rows of a fit matrix sums of some or all of the others.
fn with_missing(random: &mut Random, rows: &mut Rows, missing: usize) {
    let order = shuffled(random, rows.len());
    let (tied, others) = order.split_at(missing);
    for row in tied {
        let most = random.choose(&[2, 5, others.len()]);
        let count = 1 + random.below(most);
        tie_to(random, rows, *row, &others[..count]);
    }
}

/// Adds rows to others: the rank stays, and a tie is one of more rows.
fn stir(random: &mut Random, rows: &mut Rows) {
    for _ in 0..rows.len() {
        let (to, from) = (random.below(rows.len()), random.below(rows.len()));
        if to != from {
            tie(rows, to, &[(to, 1), (from, nonzero_digit(random))]);
        }
    }
}

#[test]
fn ranks_of_all_rows_and_of_one_or_two_less() {
    let mut random = Random::for_test("ranks");
    let count = 60;
    for shape in SETS {
        for trial in 0..count {
            let missing = trial % 3;
            let mut rows = fit(&mut random, shape);
            with_missing(&mut random, &mut rows, missing);
            if random.once_in(2) {
                stir(&mut random, &mut rows);
            }
            assert_eq!(rank(rows.clone()), shape.digits - missing, "SEED={}", seed());
            let number = judged(&mut random, shape, &rows);
            let expected = if missing == 0 { 0 } else { 12 };
            assert_eq!(number, expected, "{missing} less, SEED={}", seed());
        }
    }
    report("ties: matrices of three ranks", SETS.len() * count);
}

/// Rows before the tied ones are not: it is seen only when nearly all are cleared.
#[test]
fn ties_among_the_last_rows() {
    let mut random = Random::for_test("last rows");
    let mut count = 0;
    for shape in SETS {
        let last = shape.digits - 1;
        for tied in 1..8 {
            for row in [last, last - tied / 2, last - tied] {
                let mut rows = uniform(&mut random, shape);
                let others: Vec<usize> = (last - tied..=last).filter(|i| *i != row).collect();
                tie_to(&mut random, &mut rows, row, &others);
                assert_eq!(judged(&mut random, shape, &rows), 12, "SEED={}", seed());
                count += 1;
            }
        }
    }
    report("ties: among the last rows", count);
}

/// Every row in turn is a sum of all others, of those before it, or of those after it.
/// The turns count from the last row, which has none after it: no sum is empty.
#[test]
fn every_row_tied_to_many() {
    let mut random = Random::for_test("many rows");
    let mut count = 0;
    for shape in SETS {
        let fit = uniform(&mut random, shape);
        for row in 0..shape.digits {
            let others: Vec<usize> = match (shape.digits - 1 - row) % 3 {
                0 => (0..shape.digits).filter(|i| *i != row).collect(),
                1 => (0..row).collect(),
                _ => (row + 1..shape.digits).collect(),
            };
            let mut rows = fit.clone();
            tie_to(&mut random, &mut rows, row, &others);
            assert_eq!(judged(&mut random, shape, &rows), 12, "row {row}, SEED={}", seed());
            count += 1;
        }
    }
    report("ties: of every row and many", count);
}

/// Rows of a few digits other than 0 in some of the columns.
fn thin(random: &mut Random, shape: Shape) -> Rows {
    let columns = shape.digits + random.below(shape.bits - shape.digits);
    let most = 1 + random.below(4);
    let row = |_| {
        let mut row = vec![0; shape.bits];
        for _ in 0..1 + random.below(most) {
            row[random.below(columns)] = nonzero_digit(random);
        }
        row
    };
    (0..shape.digits).map(row).collect()
}

/// Matrices of thin rows alone, with some among others, and without any: whatever the
/// reference finds.
#[test]
fn thin_rows() {
    let mut random = Random::for_test("thin rows");
    let count = 150;
    for shape in SETS {
        let mut found = [0; 13];
        for trial in 0..count {
            let mut rows = match trial % 3 {
                0 => thin(&mut random, shape),
                _ => fit(&mut random, shape),
            };
            if trial % 3 == 1 {
                // Some rows of a fit matrix become thin ones.
                let thin = thin(&mut random, shape);
                for _ in 0..1 + random.below(4) {
                    let row = random.below(shape.digits);
                    rows[row].clone_from(&thin[row]);
                }
            }
            found[judged(&mut random, shape, &rows) as usize] += 1;
        }
        assert!(found[0] > count / 10 && found[12] > count / 10, "{found:?}, SEED={}", seed());
    }
    report("ties: matrices with thin rows", SETS.len() * count);
}
