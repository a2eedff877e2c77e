//! The circulant product and row products.

use crate::lengths::{self, near, pairs, try_two_inputs};
use crate::library;
use crate::truths::{digit_count, set_place};
use service_pair_tests::guarded::compare_bytes;
use service_pair_tests::random::{report, Random};
use service_pair_tests::reference::{bits, trits};

/// Lengths up to this are tried with all inputs near the one that fits. The
/// reference takes a bit at a time, a millisecond for 140 bytes, so longer ones
/// are tried with some of them.
const ALL_INPUTS: usize = 72;

/// Key and label fit, one of them does, or neither.
fn circulant_inputs(random: &mut Random, n: usize) -> Vec<[usize; 2]> {
    let keys: Vec<_> = near(random, n).into_iter().map(|key| [key, n]).collect();
    let labels: Vec<_> = near(random, n).into_iter().map(|label| [n, label]).collect();
    let any = pairs(random, [n; 2]);
    let some: Vec<_> = (0..20).map(|_| random.choose(&any)).collect();
    let inputs = [keys, labels, some].concat();
    if n <= ALL_INPUTS {
        return inputs;
    }
    let drawn = (0..2000 / n).map(|_| random.choose(&inputs));
    [[n; 2]].into_iter().chain(drawn).collect()
}

#[test]
fn circulant_product() {
    try_two_inputs(
        "circulant_product",
        circulant_inputs,
        library::circulant_product,
        |key, label, room| bits::circulant_product(key, label, room.len()),
    );
}

/// Numbers of rows: about the digits of a byte and those of the codes of 21, 81
/// and 162 digits.
const ROWS: [usize; 18] = [0, 1, 2, 6, 7, 8, 9, 10, 16, 20, 21, 22, 80, 81, 82, 161, 162, 163];

/// Compares one product of `t` rows, of which these many bytes are there.
fn compare_rows(random: &mut Random, [rows, v, room]: [usize; 3], t: usize) {
    let [rows, v, room] = [rows, v, room].map(|length| random.contents(length));
    let expected = trits::matrix_product(&rows, &v, t, v.len() / 2, room.len() / 2);
    let name = "matrix_product";
    compare_bytes(random, name, [&rows, &v], &room, &expected, |[rows, v], out| {
        library::matrix_product(rows, v, t, out)
    });
}

/// Lengths of t rows over a vector: all of them, a byte, a plane, a row or any
/// part of them missing, and more than them.
fn lengths_of_rows(random: &mut Random, t: usize, v: usize) -> [usize; 7] {
    let (plane, whole) = (v / 2, t * 2 * (v / 2));
    let less = [1, plane, 2 * plane, random.below(whole)].map(|less| whole.saturating_sub(less));
    [whole, less[0], less[1], less[2], less[3], whole + 1, whole + random.below(2 * v + 1)]
}

#[test]
fn matrix_product() {
    let mut random = Random::for_test("matrix_product");
    let mut count = 0;
    for v in lengths::all() {
        // Every number of rows with room for its digits, and all sorts of rows.
        for t in ROWS {
            let fit = 2 * t.div_ceil(8);
            let all = lengths_of_rows(&mut random, t, v);
            let sorts = if v % 16 == 0 && v <= 128 { &all[..] } else { &all[..2] };
            let any = random.choose(&all);
            for rows in [sorts, &[any]].concat() {
                let room = random.choose(&[fit, fit, fit, fit + 1, fit + 2, fit.saturating_sub(1)]);
                compare_rows(&mut random, [rows, v, room], t);
                count += 1;
            }
        }
        // Any room and any number of rows, also one of which no multiple fits a word.
        for _ in 0..20 {
            let room = random.below(50);
            let t = digit_count(&mut random, 8 * (room / 2));
            let all = lengths_of_rows(&mut random, t.min(90), v);
            let rows = random.choose(&all);
            compare_rows(&mut random, [rows, v, room], t);
            count += 1;
        }
    }
    report("linear: matrix_product", count);
}

/// Every pair of digits, also unfit ones, in every place of a row and a vector:
/// planes of whole words, and planes with one to seven bytes more.
#[test]
fn digit_products() {
    let name = "digit_products";
    let mut random = Random::for_test(name);
    let mut count = 0;
    for m in (1..=17).chain(31..=33).chain(63..=65) {
        for case in 0..16 * 8 * m {
            let (place, digits) = (case / 16, [case % 4, case / 4 % 4]);
            let [row, v] = digits.map(|digit| one_digit(m, place, digit));
            let expected = trits::matrix_product(&row, &v, 1, m, 1);
            compare_bytes(&mut random, name, [&row, &v], &[0xff; 2], &expected, |[row, v], out| {
                library::matrix_product(row, v, 1, out)
            });
            count += 1;
        }
    }
    report("linear: digit_products", count);
}

/// A vector of m bytes a plane with one digit, 3 if both bits are set, and zeros.
fn one_digit(m: usize, place: usize, digit: usize) -> Vec<u8> {
    let mut vector = vec![0; 2 * m];
    set_place(&mut vector, place, [digit % 2 == 1, digit / 2 == 1]);
    vector
}
