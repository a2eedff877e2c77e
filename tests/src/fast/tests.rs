//! The fast functions give the reference's bytes, at each size.

use super::{bits, codes, rows, trits};
use crate::random::{report, Random};
use crate::reference;

const MANY: usize = 2_000;

/// Calls a function of two strings on an output slice of random bytes.
fn output(
    random: &mut Random,
    function: fn(&[u8], &[u8], &mut [u8]),
    inputs: [&[u8]; 2],
    room: usize,
) -> Vec<u8> {
    let mut out = random.bytes(room);
    function(inputs[0], inputs[1], &mut out);
    out
}

fn strings<const W: usize>(random: &mut Random) {
    let n = 8 * W;
    let [a, b] = [n; 2].map(|n| random.contents(n));
    let mut sum = a.clone();
    bits::add_bits_to::<W>(&b, &mut sum);
    assert_eq!(sum, reference::bits::add_bits(&a, &b, n));
    assert_eq!(output(random, bits::add_bits::<W>, [&a, &b], n), sum);
    let product = output(random, bits::circulant_product_words::<W>, [&a, &b], n);
    assert_eq!(product, reference::bits::circulant_product(&a, &b, n));
}

fn vectors<const W: usize>(random: &mut Random) {
    let (n, plane) = (16 * W, 8 * W);
    let (w, r) = (random.contents(plane), random.contents(n));
    let difference = output(random, trits::subtract_trits::<W>, [&w, &r], n);
    assert_eq!(difference, reference::trits::subtract_trits(&w, &r, plane));
    assert_eq!(trits::trits_fit::<W>(&r), reference::trits::trits_fit(&r, 64 * W));
    assert_eq!(trits::row_is_zero::<W>(&r), reference::trits::row_is_zero(&r));
    assert!(trits::trits_fit::<W>(&difference));
    for side in [0, 1] {
        let mut share = random.bytes(n);
        trits::inner_share::<W>(side, &w, &r, &mut share);
        assert_eq!(share, reference::trits::inner_share(side, &w, &r, plane));
    }
}

fn codes<const DIGITS: usize>(random: &mut Random) {
    let plane = DIGITS.div_ceil(8);
    let [a, b] = [2 * plane; 2].map(|n| random.contents(n));
    let sum = output(random, codes::add_codes::<DIGITS>, [&a, &b], 2 * plane);
    assert_eq!(sum, reference::trits::add_trits(&a, &b, plane));
    assert_eq!(codes::code_fits::<DIGITS>(&a), reference::trits::trits_fit(&a, DIGITS));
    let clear = reference::trits::spare_bits_clear(&a, DIGITS);
    assert_eq!(codes::spare_bits_clear::<DIGITS>(&a), clear);
    // A sum is fit, and stays so with both of a spare place's bits set.
    let spare = 1 << (7 - random.below(8 * plane - DIGITS));
    let with_spare = |k: usize| if k % plane == plane - 1 { sum[k] | spare } else { sum[k] };
    assert!(codes::code_fits::<DIGITS>(&(0..2 * plane).map(with_spare).collect::<Vec<u8>>()));
}

fn size<const W: usize, const DIGITS: usize, const PLACES: usize>() {
    let mut random = Random::for_test(&format!("fast, {W}"));
    for _ in 0..MANY {
        strings::<W>(&mut random);
        vectors::<W>(&mut random);
        codes::<DIGITS>(&mut random);
    }
    report(&format!("fast: the functions of linear, keys of {} bytes", 8 * W), MANY);
    for _ in 0..100 {
        let (b, v) = (random.contents(DIGITS * 16 * W), random.contents(16 * W));
        let found = output(&mut random, rows::row_products::<W, PLACES>, [&b, &v], PLACES / 4);
        let right = reference::trits::matrix_product(&b, &v, DIGITS, 8 * W, PLACES / 8);
        assert_eq!(found, right);
    }
    report(&format!("fast: row products, rows of {} bytes", 16 * W), 100);
}

#[test]
fn the_fast_functions_give_the_reference() {
    size::<1, 21, 24>();
    size::<4, 81, 88>();
    size::<8, 162, 168>();
}

#[test]
fn strings_of_other_words_give_the_reference() {
    let mut random = Random::for_test("fast strings");
    for _ in 0..100 {
        strings::<2>(&mut random);
        strings::<3>(&mut random);
        strings::<5>(&mut random);
        strings::<6>(&mut random);
        strings::<7>(&mut random);
    }
    report("fast: sums and circulant products of other words", 500);
}
