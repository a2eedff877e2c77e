//! The functions of `linear` at the sizes of all three sets: keys of 8, 32 and
//! 64 bytes, vectors and rows of 16, 64 and 128, codes of 21, 81 and 162 digits.

use crate::library;
use crate::timing::{kept, shared, Table};
use service_pair_tests::fast::{bits, codes, rows, trits};
use service_pair_tests::random::Random;
use service_pair_tests::reference::trits::pack_trits;
use std::hint::black_box;

/// Calls a function of W words, digits and places of a code for each set.
macro_rules! each_size {
    ($rows:ident, $random:expr, $table:expr) => {{
        $rows::<1, 21, 24>($random, $table);
        $rows::<4, 81, 88>($random, $table);
        $rows::<8, 162, 168>($random, $table);
    }};
}

/// Adds the rows of both products.
pub fn products(random: &mut Random, table: &mut Table) {
    each_size!(circulant_products, random, table);
    each_size!(row_products, random, table);
}

/// Adds the rows of the others, each of a few nanoseconds: a call and its checks
/// of lengths, which Rust's of one size needs not, are much of that.
pub fn others(random: &mut Random, table: &mut Table) {
    each_size!(sums_of_bits, random, table);
    each_size!(sums_in_place, random, table);
    each_size!(sums_of_trits, random, table);
    each_size!(differences, random, table);
    each_size!(inner_shares, random, table);
    each_size!(fit_vectors, random, table);
    each_size!(fit_codes, random, table);
    each_size!(spare_bits, random, table);
    each_size!(zero_rows, random, table);
}

/// The row of a function of two strings and its counterpart.
#[inline(always)]
fn two_inputs(
    table: &mut Table,
    name: String,
    [a, b]: [&'static [u8]; 2],
    room: usize,
    ours: impl Fn(&[u8], &[u8], &mut [u8]) + 'static,
    rust: impl Fn(&[u8], &[u8], &mut [u8]) + 'static,
) {
    let (mut out, mut other) = (vec![0; room], vec![0; room]);
    ours(a, b, &mut out);
    rust(a, b, &mut other);
    assert_eq!(out, other, "{name}: the two sides differ");
    table.compare(
        &name,
        move || ours(black_box(a), black_box(b), black_box(&mut out)),
        move || rust(black_box(a), black_box(b), black_box(&mut other)),
    );
}

/// The row of a test of a vector and its counterpart.
#[inline(always)]
fn truth(
    table: &mut Table,
    name: String,
    v: &'static [u8],
    ours: impl Fn(&[u8]) -> u8 + 'static,
    rust: impl Fn(&[u8]) -> bool + 'static,
) {
    assert_eq!(ours(v), u8::from(rust(v)), "{name}: the two sides differ");
    table.compare(&name, move || kept(ours(black_box(v))), move || kept(rust(black_box(v))));
}

fn bytes(random: &mut Random, n: usize) -> &'static [u8] {
    shared(random.bytes(n))
}

/// Vectors of fit trits, one after the other, with planes of this many bytes.
fn fit(random: &mut Random, count: usize, plane: usize) -> &'static [u8] {
    let mut vector = || {
        let digits: Vec<u8> = (0..8 * plane).map(|_| random.below(3) as u8).collect();
        pack_trits(plane, |j| digits[j])
    };
    shared((0..count).flat_map(|_| vector()).collect::<Vec<u8>>())
}

fn circulant_products<const W: usize, const D: usize, const P: usize>(
    random: &mut Random,
    table: &mut Table,
) {
    let (n, strings) = (8 * W, [bytes(random, 8 * W), bytes(random, 8 * W)]);
    let (ours, rust) = (library::circulant_product, bits::circulant_product_words::<W>);
    two_inputs(table, format!("circulant product, {n} bytes"), strings, n, ours, rust);
}

fn row_products<const W: usize, const D: usize, const P: usize>(
    random: &mut Random,
    table: &mut Table,
) {
    let inputs = [fit(random, D, 8 * W), fit(random, 1, 8 * W)];
    let ours = |b: &[u8], v: &[u8], out: &mut [u8]| library::matrix_product(b, v, D, out);
    let name = format!("row products of one share, {D} rows of {} bytes", 16 * W);
    two_inputs(table, name, inputs, P / 4, ours, rows::row_products::<W, P>);
}

fn sums_of_bits<const W: usize, const D: usize, const P: usize>(
    random: &mut Random,
    table: &mut Table,
) {
    let (n, strings) = (8 * W, [bytes(random, 8 * W), bytes(random, 8 * W)]);
    let (ours, rust) = (library::add_bits, bits::add_bits::<W>);
    two_inputs(table, format!("sum of bits, {n} bytes"), strings, n, ours, rust);
}

fn sums_in_place<const W: usize, const D: usize, const P: usize>(
    random: &mut Random,
    table: &mut Table,
) {
    two_inputs(
        table,
        format!("sum of bits in place, {} bytes", 8 * W),
        [bytes(random, 8 * W), &[]],
        8 * W,
        |a, _, out| library::add_bits_to(a, out),
        |a, _, out| bits::add_bits_to::<W>(a, out),
    );
}

fn sums_of_trits<const W: usize, const D: usize, const P: usize>(
    random: &mut Random,
    table: &mut Table,
) {
    let (n, inputs) = (P / 4, [bytes(random, P / 4), bytes(random, P / 4)]);
    let (ours, rust) = (library::add_trits, codes::add_codes::<D>);
    two_inputs(table, format!("sum of trits, {n} bytes"), inputs, n, ours, rust);
}

fn differences<const W: usize, const D: usize, const P: usize>(
    random: &mut Random,
    table: &mut Table,
) {
    let (n, inputs) = (16 * W, [bytes(random, 8 * W), fit(random, 1, 8 * W)]);
    let (ours, rust) = (library::subtract_trits, trits::subtract_trits::<W>);
    let name = format!("difference of bits and trits, {n} bytes");
    two_inputs(table, name, inputs, n, ours, rust);
}

fn inner_shares<const W: usize, const D: usize, const P: usize>(
    random: &mut Random,
    table: &mut Table,
) {
    two_inputs(
        table,
        format!("inner share, {} bytes", 16 * W),
        [bytes(random, 8 * W), fit(random, 1, 8 * W)],
        16 * W,
        |w, r, out| library::inner_share(0, w, r, out),
        |w, r, out| trits::inner_share::<W>(0, w, r, out),
    );
}

fn fit_vectors<const W: usize, const D: usize, const P: usize>(
    random: &mut Random,
    table: &mut Table,
) {
    let (name, v) = (format!("trits fit, {} bytes", 16 * W), fit(random, 1, 8 * W));
    truth(table, name, v, |v| library::trits_fit(v, 64 * W), trits::trits_fit::<W>);
}

fn fit_codes<const W: usize, const D: usize, const P: usize>(
    random: &mut Random,
    table: &mut Table,
) {
    let (name, v) = (format!("trits fit, {} bytes", P / 4), fit(random, 1, P / 8));
    truth(table, name, v, |v| library::trits_fit(v, D), codes::code_fits::<D>);
}

fn spare_bits<const W: usize, const D: usize, const P: usize>(_: &mut Random, table: &mut Table) {
    let (name, v) = (format!("spare bits clear, {} bytes", P / 4), shared(vec![0; P / 4]));
    truth(table, name, v, |v| library::spare_bits_clear(v, D), codes::spare_bits_clear::<D>);
}

/// Of a zero row, which is read to its end, and of one whose first trit is 1, where
/// the loop is left at once.
fn zero_rows<const W: usize, const D: usize, const P: usize>(_: &mut Random, table: &mut Table) {
    for (first, which) in [(0, ""), (1, ", first trit 1")] {
        let mut row = vec![0; 16 * W];
        row[0] = first;
        let name = format!("row is zero{which}, {} bytes", 16 * W);
        truth(table, name, shared(row), library::row_is_zero, trits::row_is_zero::<W>);
    }
}
