//! Which rows are tied, beside a search through all choices of digits: matrices of few
//! rows and few columns, put into those of the sets, whose other rows have digits in
//! columns of their own besides.

use crate::matrix_calls::compare_list;
use service_pair_tests::matrices::{all_small, file_of, nonzero_digit, shuffled, small, Rows};
use service_pair_tests::random::{report, seed, Random};
use service_pair_tests::reference::numbers::{Answer, NOT_TIED};
use service_pair_tests::reference::shape::{Shape, SETS, SET_2};
use service_pair_tests::reference::tied_rows::{listed, ties_by_search};

/// Where small rows and columns stand in the matrix of a set: the first ones, or any
/// rows in their order and any columns.
struct Places {
    rows: Vec<usize>,
    columns: Vec<usize>,
}

impl Places {
    fn first(shape: Shape) -> Places {
        Places { rows: (0..shape.digits).collect(), columns: (0..shape.bits).collect() }
    }

    fn any(random: &mut Random, shape: Shape, height: usize) -> Places {
        let mut rows = shuffled(random, shape.digits);
        rows[..height].sort_unstable();
        Places { rows, columns: shuffled(random, shape.bits) }
    }
}

/// A matrix of the set with these rows. Every other row has a digit in a column of its
/// own, in which no other row has one, so that it is in no tie.
fn embedded(random: &mut Random, shape: Shape, small: &Rows, places: &Places) -> Rows {
    let width = small[0].len();
    let (inner, others) = places.rows.split_at(small.len());
    let mut rows = vec![vec![0; shape.bits]; shape.digits];
    for (row, digits) in inner.iter().zip(small) {
        places.columns.iter().zip(digits).for_each(|(column, digit)| rows[*row][*column] = *digit);
    }
    for (row, own) in others.iter().zip(&places.columns[width..]) {
        rows[*row][*own] = nonzero_digit(random);
        for column in &places.columns[..width] {
            rows[*row][*column] = random.below(3) as u8;
        }
    }
    rows
}

/// The answer by the search, for the rows at their places.
fn searched(small: &Rows, places: &Places) -> Answer {
    let found = ties_by_search(small);
    assert!(found.len() < 2, "two lists: {small:?}");
    let Some(digits) = found.first() else {
        return Answer::refused(NOT_TIED);
    };
    let rows = places.rows.iter().zip(digits).filter(|(_, digit)| **digit != 0);
    listed(rows.flat_map(|(row, digit)| [*row as u8, *digit]).collect())
}

/// Compares with the search; gives the number.
fn compare(random: &mut Random, shape: Shape, small: &Rows, places: &Places) -> u32 {
    let expected = searched(small, places);
    let file = file_of(shape, &embedded(random, shape, small, places));
    compare_list(random, shape.set, &file, shape.tie_bytes(), &expected);
    expected.number
}

/// Each stands as the first rows of a matrix of set 2.
#[test]
fn every_matrix_of_few_rows_and_columns() {
    let mut random = Random::for_test("all small matrices");
    let (places, mut count) = (Places::first(SET_2), 0);
    for small in all_small() {
        compare(&mut random, SET_2, &small, &places);
        count += 1;
    }
    report("ties: all small matrices and a search", count);
}

#[test]
fn lists_by_a_search() {
    let mut random = Random::for_test("small matrices");
    let count = 1_500;
    for shape in SETS {
        let mut untied = 0;
        for trial in 0..count {
            let (height, width) = (1 + random.below(6), 1 + random.below(7));
            let small = small(&mut random, height, width);
            let places = match trial % 2 {
                0 => Places::first(shape),
                _ => Places::any(&mut random, shape, height),
            };
            untied += usize::from(compare(&mut random, shape, &small, &places) == NOT_TIED);
        }
        let both = [untied, count - untied];
        assert!(both.iter().all(|times| *times > count / 10), "{both:?}, SEED={}", seed());
    }
    report("ties: small matrices and a search", SETS.len() * count);
}
