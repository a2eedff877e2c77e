//! How the cost of both products grows with their sizes, beside the three sets'.
//! Only ours: the Rust written for speed has the sets' sizes alone.

use crate::library;
use crate::timing::Table;
use service_pair_tests::random::Random;
use std::hint::black_box;

/// Bytes of a key and a label; the sets have 8, 32 and 64.
const STRINGS: [usize; 7] = [16, 24, 31, 33, 48, 65, 128];
/// Rows, and bytes of a row and the vector; the sets have 21 of 16, 81 of 64 and
/// 162 of 128.
const MATRICES: [(usize, usize); 6] =
    [(81, 14), (81, 32), (81, 62), (81, 66), (162, 64), (81, 256)];

/// Adds the rows.
pub fn rows(random: &mut Random, table: &mut Table) {
    for n in STRINGS {
        let [key, label] = [n; 2].map(|n| random.bytes(n));
        let mut out = vec![0; n];
        table.alone(&format!("circulant product, {n} bytes"), move || {
            library::circulant_product(black_box(&key), black_box(&label), &mut out)
        });
    }
    for (t, row) in MATRICES {
        let (rows, v) = (random.bytes(t * row), random.bytes(row));
        let mut out = vec![0; 2 * t.div_ceil(8)];
        table.alone(&format!("row products, {t} rows of {row} bytes"), move || {
            library::matrix_product(black_box(&rows), black_box(&v), t, &mut out)
        });
    }
}
