//! What tells whether trits are fit or zero.

use crate::lengths;
use crate::library;
use service_pair_tests::guarded::compare_bytes;
use service_pair_tests::random::{report, seed, Random};
use service_pair_tests::reference::trits;

/// A vector and a number of digits.
type Case = (Vec<u8>, usize);

/// Which planes get a bit.
const PLANES: [[bool; 2]; 3] = [[true, false], [false, true], [true, true]];

/// A number of digits: near the number of places, or so large that its
/// multiples do not fit a machine word.
pub fn digit_count(random: &mut Random, places: usize) -> usize {
    match random.below(8) {
        0 => usize::MAX - random.below(9),
        1 => (1 << (56 + random.below(8))) + random.below(9),
        _ => random.below(places + 10),
    }
}

/// Sets a bit of both planes at a place, or of one of them.
pub fn set_place(vector: &mut [u8], place: usize, planes: [bool; 2]) {
    let m = vector.len() / 2;
    for (plane, set) in planes.into_iter().enumerate() {
        if set && place < 8 * m {
            vector[m * plane + place / 8] |= 1 << (place % 8);
        }
    }
}

/// A vector of any length, its trits as given; an odd last byte is no part of
/// any, and random.
fn vector(random: &mut Random, length: usize, mut trit: impl FnMut(&mut Random) -> u8) -> Vec<u8> {
    let digits: Vec<u8> = (0..8 * (length / 2)).map(|_| trit(random)).collect();
    let mut vector = trits::pack_trits(length / 2, |j| digits[j]);
    vector.resize_with(length, || random.byte());
    vector
}

/// Compares truth values at all lengths, with a bit or two in each place of a
/// vector of such trits and with any contents; both answers must come up often.
fn try_truth(
    name: &str,
    trit: fn(&mut Random) -> u8,
    planes: &[[bool; 2]],
    function: fn(&[u8], usize) -> u8,
    reference: fn(&[u8], usize) -> bool,
) {
    let mut random = Random::for_test(name);
    let [mut held, mut count] = [0; 2];
    for length in lengths::all() {
        for (vector, t) in cases(&mut random, length, trit, planes) {
            let call = |[v]: [&[u8]; 1], _: &mut [u8]| function(v, t);
            let found = compare_bytes(&mut random, name, [&vector], &[], &[], call);
            let expected = reference(&vector, t);
            held += usize::from(expected);
            count += 1;
            let seed = seed();
            assert_eq!(found, u8::from(expected), "{name} of {vector:?}, t = {t}, SEED={seed}");
        }
    }
    assert!((count / 10..count - count / 10).contains(&held), "{name}: one-sided inputs");
    report(&format!("linear: {name} ({held} of them hold)"), count);
}

fn cases(
    random: &mut Random,
    length: usize,
    trit: fn(&mut Random) -> u8,
    planes: &[[bool; 2]],
) -> Vec<Case> {
    let places = 8 * (length / 2);
    let mut cases = Vec::new();
    for place in 0..places {
        // The place is the first from t on, the last before t, or anywhere.
        for t in [place, place + 1, digit_count(random, places)] {
            let mut vector = vector(random, length, trit);
            set_place(&mut vector, place, random.choose(planes));
            cases.push((vector, t));
        }
    }
    for _ in 0..places / 2 + 20 {
        let t = digit_count(random, places);
        cases.push((vector(random, length, trit), t));
        cases.push((random.contents(length), t));
    }
    cases
}

/// A trit that is fit.
fn fit(random: &mut Random) -> u8 {
    random.below(3) as u8
}

#[test]
fn trits_fit() {
    try_truth("trits_fit", fit, &PLANES[2..], library::trits_fit, trits::trits_fit);
}

#[test]
fn spare_bits_clear() {
    let function = library::spare_bits_clear;
    try_truth("spare_bits_clear", |_| 0, &PLANES, function, trits::spare_bits_clear);
}

#[test]
fn row_is_zero() {
    let function = |row: &[u8], _| library::row_is_zero(row);
    try_truth("row_is_zero", |_| 0, &PLANES, function, |row, _| trits::row_is_zero(row));
}

/// Whether a row is zero is what is expected, and no lent byte changes.
fn expect_row(random: &mut Random, row: &[u8], zero: bool) {
    let call = |[row]: [&[u8]; 1], _: &mut [u8]| library::row_is_zero(row);
    let found = compare_bytes(random, "row_is_zero", [row], &[], &[], call);
    assert_eq!(found, u8::from(zero), "row_is_zero of {row:?}, SEED={}", seed());
}

/// Zeros are a zero row, whatever an odd last byte holds, which is no part of it; with
/// one trit of 1 or 2, or with both bits set, at any of its places they are none.
#[test]
fn rows_with_one_trit() {
    let mut random = Random::for_test("rows with one trit");
    let mut count = 0;
    for length in lengths::all() {
        let (mut row, end) = (vec![0; length], 2 * (length / 2));
        for last in [0, 1, 0x80, 0xff, random.byte()] {
            row[end..].fill(last);
            expect_row(&mut random, &row, true);
            count += 1;
        }
        for place in 0..4 * end {
            for planes in PLANES {
                let mut other = row.clone();
                set_place(&mut other, place, planes);
                expect_row(&mut random, &other, false);
                count += 1;
            }
        }
    }
    report("linear: rows with one trit", count);
}
