//! Ties in some of the columns: rows that are not tied because of one column, of the
//! last ones or of the first ones alone.

use crate::judged;
use service_pair_tests::matrices::{
    change_digit, nonzero_digit, shuffled, tie_any, tie_to, uniform, Rows,
};
use service_pair_tests::random::{report, seed, Random};
use service_pair_tests::reference::elimination::tied;
use service_pair_tests::reference::shape::{Shape, SETS};

/// Every column in turn is the only one in which the rows of a tie differ from it: a
/// column that is not looked at gives 12.
#[test]
fn ties_but_for_one_column() {
    let mut random = Random::for_test("one column");
    let mut count = 0;
    for shape in SETS {
        let others = uniform(&mut random, shape);
        for column in 0..shape.bits {
            let mut rows = others.clone();
            let row = tie_any(&mut random, &mut rows, 3);
            // In set 3 the calls are compared on every second one of these.
            if shape.bits < 512 || column % 2 == 0 {
                assert_eq!(judged(&mut random, shape, &rows), 12, "SEED={}", seed());
                count += 1;
            }
            change_digit(&mut random, &mut rows[row][column]);
            assert_eq!(judged(&mut random, shape, &rows), 0, "column {column}, SEED={}", seed());
            count += 1;
        }
    }
    report("ties: but for one column", count);
}

/// Where words end, and some places between.
fn borders(random: &mut Random, shape: Shape) -> Vec<usize> {
    let words = (0..shape.bits / 64).flat_map(|word| [64 * word, 64 * word + 1, 64 * word + 63]);
    let near = [shape.digits - 1, shape.digits, shape.digits + 1];
    let any = [0; 4].map(|_| 1 + random.below(shape.bits - 1));
    let all = words.chain(near).chain(any);
    all.filter(|column| *column > 0).collect()
}

/// New digits of a row in these columns, until the rows are not tied.
fn with_others(random: &mut Random, rows: &Rows, row: usize, columns: &[usize]) -> Rows {
    loop {
        let mut other = rows.clone();
        columns.iter().for_each(|j| other[row][*j] = random.below(3) as u8);
        if !tied(other.clone()) {
            return other;
        }
    }
}

/// Rows that are tied in the first columns, and not in all; and in the last ones.
#[test]
fn ties_in_first_and_last_columns() {
    let mut random = Random::for_test("first columns");
    let mut count = 0;
    for shape in SETS {
        for border in borders(&mut random, shape) {
            for last in [false, true] {
                let mut rows = uniform(&mut random, shape);
                let row = tie_any(&mut random, &mut rows, 3);
                let columns: Vec<usize> = match last {
                    true => (0..border).collect(),
                    false => (border..shape.bits).collect(),
                };
                let rows = with_others(&mut random, &rows, row, &columns);
                assert_eq!(judged(&mut random, shape, &rows), 0, "at {border}, SEED={}", seed());
                count += 1;
            }
        }
    }
    report("ties: in the first and in the last columns", count);
}

/// Several rows are tied in the first columns, and two others in all of them, wherever
/// they stand: what is told of the first columns alone is not enough.
#[test]
fn ties_in_all_columns_beside_ties_in_some() {
    let mut random = Random::for_test("both sorts");
    let (rounds, mut count) = (4, 0);
    for shape in SETS {
        let borders: Vec<usize> = (0..rounds).flat_map(|_| borders(&mut random, shape)).collect();
        for border in borders {
            let mut rows = uniform(&mut random, shape);
            let order = shuffled(&mut random, shape.digits);
            for pair in order[..6].chunks(2) {
                let first = rows[pair[0]][..border].to_vec();
                rows[pair[1]][..border].copy_from_slice(&first);
            }
            let number = judged(&mut random, shape, &rows);
            // In few columns what is left of the pairs may be tied too.
            if border + 40 < shape.bits {
                assert_eq!(number, 0, "at {border}, SEED={}", seed());
            }
            tie_to(&mut random, &mut rows, order[7], &order[6..7]);
            assert_eq!(judged(&mut random, shape, &rows), 12, "at {border}, SEED={}", seed());
            count += 2;
        }
    }
    report("ties: in all columns beside ties in some", count);
}

/// All rows have zeros, or the same digits, in as many first columns as can be.
#[test]
fn rows_alike_in_many_columns() {
    let mut random = Random::for_test("alike");
    let mut count = 0;
    for shape in SETS {
        for alike in [shape.bits - shape.digits, 64.min(shape.bits - shape.digits), 1] {
            for zeros in [true, false] {
                let mut rows = uniform(&mut random, shape);
                let first = if zeros { vec![0; alike] } else { rows[0][..alike].to_vec() };
                rows.iter_mut().for_each(|row| row[..alike].copy_from_slice(&first));
                // Some of these are tied by chance, as the reference finds.
                judged(&mut random, shape, &rows);
                // With a diagonal behind that none is.
                for (i, row) in rows.iter_mut().enumerate() {
                    row[alike..].fill(0);
                    row[alike + i] = nonzero_digit(&mut random);
                }
                assert_eq!(judged(&mut random, shape, &rows), 0, "SEED={}", seed());
                count += 2;
            }
        }
    }
    report("ties: rows alike in many columns", count);
}
