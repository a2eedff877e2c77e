//! Which rows are tied: stated examples, ties of every number of rows, two ties at once
//! and zero rows. The lists are known by how the rows were made.

use crate::matrix_calls::{compare_fully, compare_list, compare_tie};
use service_pair_tests::matrices::{
    any_tie, file_of, fit, list_of_terms, plant, shuffled, stated_lists, tie, tie_to, uniform,
    Rows, Terms,
};
use service_pair_tests::random::{report, seed, Random};
use service_pair_tests::reference::elimination::{adds_to_zero, tied};
use service_pair_tests::reference::numbers::{DONE, TIED_ROWS};
use service_pair_tests::reference::shape::{Shape, SETS};
use service_pair_tests::reference::tied_rows::listed;

/// Compares with this list, and with the reference's, where the output slice is just
/// long enough or longer.
fn compare(random: &mut Random, shape: Shape, rows: &[Vec<u8>], list: &[u8]) {
    let file = file_of(shape, rows);
    let room = shape.tie_bytes() + random.choose(&[0, 0, 1, 7, 400]);
    compare_list(random, shape.set, &file, room, &listed(list.to_vec()));
    assert_eq!(compare_tie(random, shape.set, &file, room), DONE, "SEED={}", seed());
}

#[test]
fn stated_lists_are_written() {
    let mut random = Random::for_test("stated lists");
    let lists = stated_lists();
    for (shape, rows, list) in &lists {
        compare(&mut random, *shape, rows, list);
        let number = compare_fully(&mut random, *shape, &file_of(*shape, rows));
        assert_eq!(number, TIED_ROWS);
    }
    assert!(SETS.iter().all(|set| lists.iter().any(|(shape, ..)| shape == set)));
    report("ties: stated lists", lists.len());
}

/// The rows so multiplied add to the zero row.
fn expect_zero(rows: &[Vec<u8>], tie: &[(usize, u8)]) {
    let (of_tie, digits): (Rows, Vec<u8>) =
        tie.iter().map(|(row, digit)| (rows[*row].clone(), *digit)).unzip();
    assert!(adds_to_zero(&of_tie, &digits), "{tie:?}, SEED={}", seed());
}

/// Without any one of its rows the others of a tie are not tied, by their rank.
fn expect_least(rows: &[Vec<u8>], tie: &[(usize, u8)]) {
    for left_out in 0..tie.len() {
        let mut others: Rows = tie.iter().map(|(row, _)| rows[*row].clone()).collect();
        others.remove(left_out);
        assert!(!tied(others), "row {left_out} of {tie:?}, SEED={}", seed());
    }
}

/// Ties of one row, which is zero then, to ties of all rows, at any places of a matrix
/// whose rows are otherwise not tied.
#[test]
fn ties_of_every_number_of_rows() {
    let mut random = Random::for_test("numbers of rows");
    let mut count = 0;
    for shape in SETS {
        let rounds = 1 + 80 / shape.digits;
        for size in (0..rounds).flat_map(|_| 1..=shape.digits) {
            let tie = any_tie(&mut random, size, shape.digits);
            let mut rows = fit(&mut random, shape);
            plant(&mut random, &mut rows, &tie);
            compare(&mut random, shape, &rows, &list_of_terms(&tie));
            expect_zero(&rows, &tie);
            // In set 3 every fourth time: a rank takes long there.
            if shape.bits < 512 || size % 4 == 1 {
                expect_least(&rows, &tie);
            }
            count += 2;
        }
    }
    report("ties: lists of every number of rows", count);
}

/// The last row of a tie, with which the beginning ends that has it.
fn last(tie: &[(usize, u8)]) -> Option<usize> {
    tie.iter().map(|(row, _)| *row).max()
}

/// Two ties that have no row in common, whichever ends first.
fn apart(random: &mut Random, shape: Shape) -> [Terms; 2] {
    let most = (shape.digits / 2).min(1 + random.below(shape.digits));
    let [one, other] = [0; 2].map(|_| 1 + random.below(most));
    let both = any_tie(random, one + other, shape.digits);
    let (one, other) = both.split_at(one);
    [one.to_vec(), other.to_vec()]
}

/// The tie whose last row comes first has the shortest beginning: the other one is not
/// told, nor is a tie of rows of both.
#[test]
fn of_two_ties_the_first() {
    let mut random = Random::for_test("two ties");
    let count = 150;
    let mut orders = [0; 2];
    for shape in SETS {
        for _ in 0..count {
            let [one, other] = apart(&mut random, shape);
            let mut rows = uniform(&mut random, shape);
            plant(&mut random, &mut rows, &one);
            plant(&mut random, &mut rows, &other);
            let first = last(&other) < last(&one);
            orders[usize::from(first)] += 1;
            let told = if first { &other } else { &one };
            compare(&mut random, shape, &rows, &list_of_terms(told));
        }
    }
    assert!(orders.iter().all(|times| *times > count / 4), "{orders:?}, SEED={}", seed());
    report("ties: two at once", 2 * SETS.len() * count);
}

/// Two rows that are sums of the same others: the list ends with the first of them.
#[test]
fn two_sums_of_the_same_rows() {
    let mut random = Random::for_test("two sums");
    let count = 60;
    for shape in SETS {
        for _ in 0..count {
            // The last two of the chosen rows become sums.
            let size = 3 + random.below(shape.digits - 2);
            let mut chosen = shuffled(&mut random, shape.digits);
            chosen.truncate(size);
            chosen.sort_unstable();
            let (others, sums) = chosen.split_at(size - 2);
            let mut terms: Terms = others.iter().map(|row| (*row, 1)).collect();
            let mut rows = uniform(&mut random, shape);
            tie(&mut rows, sums[0], &terms);
            tie_to(&mut random, &mut rows, sums[1], others);
            // The sum less the row is the zero row, and 2 is -1.
            terms.push((sums[0], 2));
            compare(&mut random, shape, &rows, &list_of_terms(&terms));
        }
    }
    report("ties: two sums of the same rows", 2 * SETS.len() * count);
}

/// Each row in turn is the last of the shortest beginning, and whatever follows does
/// not count: rows of zeros, the same row again, or the first ones again.
#[test]
fn what_follows_the_shortest_beginning() {
    let mut random = Random::for_test("what follows");
    let mut count = 0;
    for shape in SETS {
        let fit = uniform(&mut random, shape);
        for end in 0..shape.digits {
            let size = 1 + random.below(end + 1);
            let mut tie = any_tie(&mut random, size - 1, end);
            tie.push((end, 1 + (end % 2) as u8));
            let mut rows = fit.clone();
            plant(&mut random, &mut rows, &tie);
            let (sort, same) = (random.below(3), rows[end].clone());
            for (row, other) in rows[end + 1..].iter_mut().zip(&fit) {
                match sort {
                    0 => row.fill(0),
                    1 => row.clone_from(&same),
                    _ => row.clone_from(other),
                }
            }
            compare(&mut random, shape, &rows, &list_of_terms(&tie));
            count += 2;
        }
    }
    report("ties: what follows the shortest beginning", count);
}

/// Every row in turn zero, alone and with later zero rows: one row, with digit 1.
#[test]
fn zero_rows() {
    let mut random = Random::for_test("zero rows");
    let mut count = 0;
    for shape in SETS {
        for row in 0..shape.digits {
            let mut rows = fit(&mut random, shape);
            for zero in [row, row + random.below(shape.digits - row)] {
                rows[zero].fill(0);
                compare(&mut random, shape, &rows, &[row as u8, 1]);
                count += 2;
            }
        }
        let all = vec![vec![0; shape.bits]; shape.digits];
        compare(&mut random, shape, &all, &[0, 1]);
        count += 2;
    }
    report("ties: zero rows", count);
}
