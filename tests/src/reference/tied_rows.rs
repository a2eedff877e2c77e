//! "Which rows are tied": the list of a file that is refused only with 12.

use super::elimination::{add, choices_to_zero};
use super::matrix::{digit_rows, matrix_check, rows_of_file};
use super::numbers::{lowest, Answer, DONE, NOT_TIED, TIED_ROWS, WRONG_LENGTH};
use super::shape::Shape;

/// Rows as columns.
fn transposed(rows: &[Vec<u8>]) -> Vec<Vec<u8>> {
    let columns = rows.first().map_or(0, Vec::len);
    (0..columns).map(|j| rows.iter().map(|row| row[j]).collect()).collect()
}

/// Multiplies digits by 1 or 2 so that the first one other than 0 is 1: 2 × 2 is 1.
fn with_first_1(digits: &[u8]) -> Vec<u8> {
    let first = digits.iter().find(|digit| **digit != 0).unwrap_or(&1);
    digits.iter().map(|digit| digit * first % 3).collect()
}

/// The digits of the rows of "the shortest tied beginning of the matrix", 0 for those
/// that are not in the list. Columns are added to other columns, which neither ties
/// rows nor unties them, until each row has a 1 in a column of its own and 0 in all
/// others. A row that has digits in columns of rows before it alone is the first that
/// is tied, and the digits tell the rows that it is the sum of.
pub fn tie_digits(rows: &[Vec<u8>]) -> Option<Vec<u8>> {
    let mut columns = transposed(rows);
    let mut own: Vec<usize> = Vec::new();
    for i in 0..rows.len() {
        let mut others = (0..columns.len()).filter(|j| !own.contains(j));
        let Some(found) = others.find(|j| columns[*j][i] != 0) else {
            // The sum less the row itself: 2 is -1.
            let digits: Vec<u8> = own.iter().map(|j| columns[*j][i]).chain([2]).collect();
            return Some(with_first_1(&digits));
        };
        // It has 0 in the rows before, so this digit is its first.
        let column = with_first_1(&columns[found]);
        for other in &mut columns {
            while other[i] != 0 {
                add(other, &column);
            }
        }
        columns[found] = column;
        own.push(found);
    }
    None
}

/// "the row numbers, rising, and their digits": "Each row takes two bytes, row number
/// then digit".
pub fn list_of_digits(digits: &[u8]) -> Vec<u8> {
    let rows = digits.iter().enumerate().filter(|(_, digit)| **digit != 0);
    rows.flat_map(|(i, digit)| [i as u8, *digit]).collect()
}

/// "The tied file gives 0 here, a fit one 16"; other files give what the check does.
pub fn tied_rows(shape: Shape, file: &[u8], room: usize) -> Answer {
    let number = match matrix_check(shape, file) {
        TIED_ROWS => DONE,
        DONE => NOT_TIED,
        number => number,
    };
    match lowest(&[(WRONG_LENGTH, room < shape.tie_bytes()), (number, number != DONE)]) {
        DONE => {
            let rows = digit_rows(shape, &rows_of_file(shape, file));
            listed(list_of_digits(&tie_digits(&rows).unwrap_or_default()))
        }
        number => Answer::refused(number),
    }
}

/// The answer with a list: "the count of rows is reported".
pub fn listed(bytes: Vec<u8>) -> Answer {
    let count = bytes.len() as u64 / 2;
    Answer { number: DONE, bytes, count }
}

/// The words of the request, for few rows: of the shortest beginning that some choice
/// of digits ties, all choices whose first digit other than 0 is 1.
pub fn ties_by_search(rows: &[Vec<u8>]) -> Vec<Vec<u8>> {
    let mut tied = (1..=rows.len()).map(|count| choices_to_zero(&rows[..count]));
    let mut shortest = tied.find(|found| !found.is_empty()).unwrap_or_default();
    shortest.retain(|digits| digits.iter().find(|digit| **digit != 0) == Some(&1));
    shortest
}

#[cfg(test)]
mod tests {
    use super::{listed, tie_digits, tied_rows, ties_by_search};
    use crate::matrices::{diagonal, file_of, fit, small, stated_lists, tie_any};
    use crate::random::{report, seed, Random};
    use crate::reference::elimination::{adds_to_zero, tied};
    use crate::reference::matrix::row_place;
    use crate::reference::shape::{with_set, SETS, SET_1};
    use crate::samples::{diagonal_file, seal};

    #[test]
    fn a_search_finds_the_same_list_and_no_other() {
        let mut random = Random::for_test("lists by search");
        let (count, mut found) = (4_000, [0; 2]);
        for _ in 0..count {
            let (height, columns) = (random.below(7), 1 + random.below(7));
            let rows = small(&mut random, height, columns);
            let right = ties_by_search(&rows);
            assert!(right.len() < 2, "two lists: {rows:?}");
            found[right.len()] += 1;
            assert_eq!(tie_digits(&rows), right.first().cloned(), "{rows:?}");
        }
        assert!(found.iter().all(|times| *times > count / 10), "{found:?}");
        report("reference: lists of tied rows by search", count);
    }

    /// The rank says where the shortest tied beginning ends, and that no row of the
    /// list can be left out.
    #[test]
    fn the_rank_agrees() {
        let mut random = Random::for_test("lists by rank");
        let count = 10;
        for shape in (0..count).flat_map(|_| SETS) {
            let mut rows = fit(&mut random, shape);
            assert_eq!(tie_digits(&rows), None);
            tie_any(&mut random, &mut rows, shape.digits);
            let digits = tie_digits(&rows).expect("the rows are tied");
            let end = digits.len();
            assert!(adds_to_zero(&rows[..end], &digits) && digits[end - 1] != 0);
            assert!(!tied(rows[..end - 1].to_vec()), "SEED={}", seed());
            let list: Vec<usize> = (0..end).filter(|i| digits[*i] != 0).collect();
            for left_out in &list {
                let others = list.iter().filter(|i| *i != left_out);
                assert!(!tied(others.map(|i| rows[*i].clone()).collect()), "SEED={}", seed());
            }
        }
        report("reference: lists of tied rows by rank", SETS.len() * count);
    }

    #[test]
    fn stated_lists_are_given() {
        for (shape, rows, list) in stated_lists() {
            let found = tied_rows(shape, &file_of(shape, &rows), shape.tie_bytes());
            assert_eq!(found, listed(list));
        }
    }

    #[test]
    fn stated_numbers_are_given() {
        let fit = diagonal_file(SET_1);
        let number = |file: &[u8], room| tied_rows(SET_1, file, room).number;
        assert_eq!([162, 161].map(|room| number(&fit, room)), [16, 1]);
        assert_eq!(with_set(4, |shape| tied_rows(shape, &fit, 162)).number, 14);
        let mut rows = diagonal(SET_1);
        rows[5] = rows[3].clone();
        let mut file = file_of(SET_1, &rows);
        assert_eq!([162, 161].map(|room| number(&file, room)), [0, 1]);
        let row_9 = row_place(SET_1, 9);
        (file[row_9], file[row_9 + SET_1.string_bytes()]) = (1, 1);
        assert_eq!(number(&file, 162), 8);
        seal(&mut file);
        assert_eq!(number(&file, 162), 10);
    }
}
