//! Matrices as rows of digits, a byte each: fit ones, and ties put into them.

use crate::random::Random;
use crate::reference::elimination::tied;
use crate::reference::matrix::{digit_rows, file_of_rows};
use crate::reference::shape::{Shape, SET_1, SET_2, SET_3};
use crate::reference::trits::pack_trits;

/// The rows of a matrix, of one length.
pub type Rows = Vec<Vec<u8>>;

/// A row of a row set or a file.
pub fn packed_row(shape: Shape, row: &[u8]) -> Vec<u8> {
    pack_trits(shape.string_bytes(), |j| row[j])
}

/// The row set.
pub fn packed(shape: Shape, rows: &[Vec<u8>]) -> Vec<u8> {
    rows.iter().flat_map(|row| packed_row(shape, row)).collect()
}

/// The file, whether it is fit or not.
pub fn file_of(shape: Shape, rows: &[Vec<u8>]) -> Vec<u8> {
    file_of_rows(shape, &packed(shape, rows))
}

/// A row with this digit in one column alone.
fn single(shape: Shape, column: usize, digit: u8) -> Vec<u8> {
    (0..shape.bits).map(|j| if j == column { digit } else { 0 }).collect()
}

/// "matrix row i having trit 1 in column i alone"
pub fn diagonal(shape: Shape) -> Rows {
    (0..shape.digits).map(|i| single(shape, i, 1)).collect()
}

fn uniform_row(random: &mut Random, shape: Shape) -> Vec<u8> {
    (0..shape.bits).map(|_| random.below(3) as u8).collect()
}

/// 1 or 2.
pub fn nonzero_digit(random: &mut Random) -> u8 {
    1 + random.below(2) as u8
}

/// Turns a digit into one of the other two.
pub fn change_digit(random: &mut Random, digit: &mut u8) {
    *digit = (*digit + nonzero_digit(random)) % 3;
}

/// The numbers below a limit in any order.
pub fn shuffled(random: &mut Random, limit: usize) -> Vec<usize> {
    let mut numbers: Vec<usize> = (0..limit).collect();
    for i in (1..limit).rev() {
        numbers.swap(i, random.below(i + 1));
    }
    numbers
}

/// The first draw whose rows are not tied.
fn untied(shape: Shape, mut draw: impl FnMut() -> Rows) -> Rows {
    assert!(shape.digits <= shape.bits, "more rows than columns are always tied");
    loop {
        let rows = draw();
        if !tied(rows.clone()) {
            return rows;
        }
    }
}

/// A fit matrix of uniform digits: nearly every draw is one.
pub fn uniform(random: &mut Random, shape: Shape) -> Rows {
    untied(shape, || (0..shape.digits).map(|_| uniform_row(random, shape)).collect())
}

/// Rows with a single 1 or 2, the nearest to zero rows, each in another column.
fn singles(random: &mut Random, shape: Shape) -> Rows {
    let columns = shuffled(random, shape.bits);
    let row = |column: &usize| single(shape, *column, nonzero_digit(random));
    columns.iter().take(shape.digits).map(row).collect()
}

/// Rows of which each has a digit in a column where those after it have 0, or those
/// before it.
fn triangle(random: &mut Random, shape: Shape) -> Rows {
    let columns = shuffled(random, shape.bits);
    let row = |i: usize| {
        let mut row = uniform_row(random, shape);
        columns[..i].iter().for_each(|column| row[*column] = 0);
        row[columns[i]] = nonzero_digit(random);
        row
    };
    let mut rows: Rows = (0..shape.digits).map(row).collect();
    if random.once_in(2) {
        rows.reverse();
    }
    rows
}

/// Uniform rows, and among them one of equal digits and some with a single one.
fn mixed(random: &mut Random, shape: Shape) -> Rows {
    let mut rows = singles(random, shape);
    for row in &mut rows {
        if !random.once_in(8) {
            *row = uniform_row(random, shape);
        }
    }
    let plain = random.below(shape.digits);
    rows[plain] = vec![nonzero_digit(random); shape.bits];
    rows
}

/// A fit matrix, now and then of a plain sort.
pub fn fit(random: &mut Random, shape: Shape) -> Rows {
    match random.below(8) {
        0 => singles(random, shape),
        1 => triangle(random, shape),
        2 => untied(shape, || mixed(random, shape)),
        _ => uniform(random, shape),
    }
}

/// Rows so multiplied, and added.
pub type Terms = Vec<(usize, u8)>;

/// Makes a row this sum of others.
pub fn tie(rows: &mut [Vec<u8>], row: usize, terms: &[(usize, u8)]) {
    let term = |(i, times): &(usize, u8), j: usize| rows[*i][j] * times;
    let sum = |j: usize| terms.iter().fold(0, |sum, other| (sum + term(other, j)) % 3);
    rows[row] = (0..rows[row].len()).map(sum).collect();
}

/// Makes a row the sum of these others, each once or twice.
pub fn tie_to(random: &mut Random, rows: &mut [Vec<u8>], row: usize, others: &[usize]) {
    let terms: Terms = others.iter().map(|i| (*i, nonzero_digit(random))).collect();
    tie(rows, row, &terms);
}

/// The same with some others, at most so many; gives the row's number.
pub fn tie_any(random: &mut Random, rows: &mut [Vec<u8>], most: usize) -> usize {
    let chosen = shuffled(random, rows.len());
    let count = (1 + random.below(most)).min(rows.len() - 1);
    tie_to(random, rows, chosen[0], &chosen[1..=count]);
    chosen[0]
}

/// So many of the rows below a limit, each once or twice: a tie to be planted.
pub fn any_tie(random: &mut Random, count: usize, limit: usize) -> Terms {
    let rows = shuffled(random, limit);
    rows[..count].iter().map(|row| (*row, nonzero_digit(random))).collect()
}

/// Makes rows so multiplied add to the zero row, by changing one of them.
pub fn plant(random: &mut Random, rows: &mut [Vec<u8>], terms: &[(usize, u8)]) {
    let (row, digit) = random.choose(terms);
    let others = terms.iter().filter(|(other, _)| *other != row);
    // A row that counts twice is the sum of the others: 2 is -1. One that counts once
    // is their negative.
    let sum: Terms = others.map(|(other, times)| (*other, times * (3 - digit) % 3)).collect();
    tie(rows, row, &sum);
}

/// The list of rows that so multiplied add to the zero row: row number and digit of
/// each, the rows rising and the first digit 1.
pub fn list_of_terms(terms: &[(usize, u8)]) -> Vec<u8> {
    let mut rising = terms.to_vec();
    rising.sort_unstable();
    let first = rising[0].1;
    rising.iter().flat_map(|(row, digit)| [*row as u8, digit * first % 3]).collect()
}

/// Few rows of few columns, with ties of every sort: few digits other than 0 make them.
pub fn small(random: &mut Random, height: usize, columns: usize) -> Rows {
    let full = 3 + random.below(5);
    let mut digit = || 2 - random.below(full).min(2) as u8;
    (0..height).map(|_| (0..columns).map(|_| digit()).collect()).collect()
}

/// Every matrix of so many rows and columns: the digits of a number each.
fn all_of_size(height: usize, columns: usize) -> impl Iterator<Item = Rows> {
    let size = (height * columns) as u32;
    (0..3usize.pow(size)).map(move |number| {
        let digits: Vec<u8> = (0..size).map(|k| (number / 3usize.pow(k) % 3) as u8).collect();
        digits.chunks(columns).map(<[u8]>::to_vec).collect()
    })
}

/// All matrices of few rows and few columns, as many as can be searched.
pub fn all_small() -> impl Iterator<Item = Rows> {
    let of_one_column = (1..=6).map(|height| (height, 1));
    let sizes = of_one_column.chain([(1, 2), (2, 2), (3, 2), (4, 2), (2, 3), (3, 3)]);
    sizes.flat_map(|(height, columns)| all_of_size(height, columns))
}

/// A tie among the rows of a row set: the number of the row that it changes, and that
/// row's new bytes.
pub fn tie_in_rows(random: &mut Random, shape: Shape, rows: &[u8]) -> (usize, Vec<u8>) {
    let mut digits = digit_rows(shape, rows);
    let row = tie_any(random, &mut digits, 4);
    (row, packed_row(shape, &digits[row]))
}

/// The ties that the request W-204 names, in each set: a row of the diagonal matrix,
/// and the sum that it is made.
pub fn stated_ties() -> Vec<(Shape, usize, Terms)> {
    vec![
        (SET_1, 5, vec![(3, 2)]),
        (SET_1, 5, vec![(3, 1)]),
        (SET_1, 80, (0..80).map(|i| (i, 1)).collect()),
        (SET_1, 7, vec![(1, 1), (6, 2)]),
        (SET_2, 20, vec![(0, 1)]),
        (SET_3, 161, vec![(0, 1), (160, 1)]),
    ]
}

/// The diagonal matrix with one of them.
pub fn stated_matrix(shape: Shape, row: usize, terms: &[(usize, u8)]) -> Rows {
    with_sums(shape, &[(row, terms)])
}

/// The diagonal matrix with rows made sums, one after the other.
fn with_sums(shape: Shape, sums: &[(usize, &[(usize, u8)])]) -> Rows {
    let mut rows = diagonal(shape);
    sums.iter().for_each(|(row, terms)| tie(&mut rows, *row, terms));
    rows
}

/// Examples of W-205's list: matrices, and their lists of tied rows.
pub fn stated_lists() -> Vec<(Shape, Rows, Vec<u8>)> {
    let before_80: Terms = (0..80).map(|i| (i, 1)).collect();
    let all = (0..80).flat_map(|i| [i, 1]).chain([80, 2]).collect();
    let set_1 = |sums: &[(usize, &[(usize, u8)])], list| (SET_1, with_sums(SET_1, sums), list);
    vec![
        set_1(&[(5, &[(3, 2)])], vec![3, 1, 5, 1]),
        set_1(&[(5, &[(3, 1)])], vec![3, 1, 5, 2]),
        set_1(&[(7, &[(1, 1), (6, 2)])], vec![1, 1, 6, 2, 7, 2]),
        // Row 1 is doubled before it is a term.
        set_1(&[(1, &[(1, 2)]), (7, &[(1, 1), (6, 1)])], vec![1, 1, 6, 1, 7, 2]),
        set_1(&[(80, &before_80)], all),
        set_1(&[(4, &[])], vec![4, 1]),
        set_1(&[(2, &[]), (5, &[(3, 1)])], vec![2, 1]),
        (SET_2, with_sums(SET_2, &[(20, &[(0, 1)])]), vec![0, 1, 20, 2]),
        (SET_3, with_sums(SET_3, &[(161, &[(0, 1), (160, 1)])]), vec![0, 1, 160, 1, 161, 2]),
    ]
}
