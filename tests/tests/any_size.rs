//! The tie of rows of any size, by the static library `elimination_ties`, beside a search
//! through all choices of digits: matrices of few rows and few columns. Then rows that carry
//! four words, beside the reference, and sizes for which there is no room.

#[cfg(missing_elimination_ties)]
compile_error!(
    "libelimination_ties.a is not in target/staticlib (or in the folder that SERVICE_PAIR_LIB \
     names): run `./library elimination_ties` in the repository's root to make it."
);

use service_pair_tests::guarded::Guarded;
use service_pair_tests::matrices::{all_small, any_tie, list_of_terms, plant, small, Rows};
use service_pair_tests::random::{report, seed, Random};
use service_pair_tests::reference::tied_rows::{list_of_digits, tie_digits, ties_by_search};

mod linked {
    #[link(name = "elimination_ties", kind = "static")]
    extern "C" {
        pub fn tie_of_rows(
            rows: *const u8,
            rows_n: usize,
            bytes: usize,
            t: usize,
            words: *mut u64,
            words_n: usize,
            out: *mut u8,
            out_n: usize,
        ) -> usize;
    }
}

/// Sound because every slice goes with its own length.
fn tie_of_rows(rows: &[u8], bytes: usize, t: usize, words: &mut [u64], out: &mut [u8]) -> usize {
    let (work, work_n, written, room) =
        (words.as_mut_ptr(), words.len(), out.as_mut_ptr(), out.len());
    unsafe { linked::tie_of_rows(rows.as_ptr(), rows.len(), bytes, t, work, work_n, written, room) }
}

/// The words that `t` rows of so many bytes to a plane take with what they carry.
fn words_of(bytes: usize, t: usize) -> usize {
    2 * (bytes / 8 + t.div_ceil(64)) * t
}

/// Rows in planes of so many bytes, one row after the other.
fn in_planes(rows: &Rows, bytes: usize) -> Vec<u8> {
    let mut packed = vec![0; 2 * bytes * rows.len()];
    for (i, row) in rows.iter().enumerate() {
        for (j, digit) in row.iter().enumerate() {
            let low = 2 * bytes * i + j / 8;
            packed[low] |= (digit & 1) << (j % 8);
            packed[low + bytes] |= (digit >> 1) << (j % 8);
        }
    }
    packed
}

/// What a call is lent besides the rows: more or less of it than it takes.
struct Lent {
    bytes: usize,
    t: usize,
    words: usize,
    out: usize,
}

/// Calls with slices between guards and compares every byte with this list; no list stands
/// for a call without room.
fn compare(random: &mut Random, rows: &[u8], lent: &Lent, list: Option<&[u8]>) {
    let lent_rows = Guarded::lend(random, rows);
    let mut out = Guarded::room(random, lent.out);
    // Without room all words stay, and else those past the slice's end.
    let (list, changed) = list.map_or((&[][..], 0), |list| (list, lent.words));
    let expected = (lent_rows.clone(), out.after(list));
    // Words that stand there before count for nothing.
    let mut words: Vec<u64> = (0..lent.words + 4).map(|_| random.word()).collect();
    let before = words.clone();
    let work = &mut words[..lent.words];
    let count = tie_of_rows(lent_rows.slice(), lent.bytes, lent.t, work, out.slice_mut());
    assert_eq!(count, list.len() / 2, "SEED={}", seed());
    assert_eq!((lent_rows, out), expected, "SEED={}", seed());
    assert_eq!(words[changed..], before[changed..], "SEED={}", seed());
}

/// Compares rows with this list, in slices that are just long enough or longer.
fn compare_rows(random: &mut Random, rows: &Rows, bytes: usize, list: &[u8]) {
    let t = rows.len();
    let lent = Lent {
        bytes,
        t,
        words: words_of(bytes, t) + random.below(3),
        out: 2 * t + random.below(5),
    };
    compare(random, &in_planes(rows, bytes), &lent, Some(list));
}

/// Compares rows with the search; gives whether they are tied.
fn compare_searched(random: &mut Random, rows: &Rows, bytes: usize) -> bool {
    let found = ties_by_search(rows);
    assert!(found.len() < 2, "two lists: {rows:?}");
    let list = found.first().map_or(Vec::new(), |digits| list_of_digits(digits));
    compare_rows(random, rows, bytes, &list);
    !list.is_empty()
}

#[test]
fn every_matrix_of_few_rows_and_columns() {
    let mut random = Random::for_test("any size: all small matrices");
    let mut count = 0;
    for rows in all_small() {
        compare_searched(&mut random, &rows, 8);
        count += 1;
    }
    report("any size: all small matrices and a search", count);
}

#[test]
fn matrices_of_up_to_six_rows() {
    let mut random = Random::for_test("any size: small matrices");
    let (count, mut tied) = (6_000, 0);
    for _ in 0..count {
        let (t, columns) = (random.below(7), 1 + random.below(7));
        // The few columns stand at the beginning of any word of a plane, or at its end.
        let (words, last) = (1 + random.below(8), random.below(9));
        let rows = small(&mut random, t, columns);
        let bytes = 8 * words;
        let before = (64 * last).min(8 * bytes - columns);
        let moved = |row: &Vec<u8>| [vec![0; before], row.clone()].concat();
        let moved = rows.iter().map(moved).collect();
        tied += usize::from(compare_searched(&mut random, &moved, bytes));
    }
    assert!([tied, count - tied].iter().all(|times| *times > count / 10), "SEED={}", seed());
    report("any size: small matrices and a search", count);
}

/// From 193 rows on each carries four words. Random rows are not tied in so many columns:
/// the list is the tie that is planted, as the reference finds too.
#[test]
fn rows_that_carry_four_words() {
    let mut random = Random::for_test("any size: four words");
    let (bytes, rounds, mut count) = (56, 2, 0);
    for t in (0..rounds).flat_map(|_| [193, 230, 256]) {
        let any = 2 + random.below(t - 1);
        for size in [2, any, t] {
            let mut row = || (0..8 * bytes).map(|_| random.below(3) as u8).collect();
            let mut rows: Rows = (0..t).map(|_| row()).collect();
            let tie = any_tie(&mut random, size, t);
            plant(&mut random, &mut rows, &tie);
            let found = tie_digits(&rows).map(|digits| list_of_digits(&digits));
            let list = list_of_terms(&tie);
            assert_eq!(found.as_ref(), Some(&list), "SEED={}", seed());
            compare_rows(&mut random, &rows, bytes, &list);
            count += 1;
        }
    }
    report("any size: rows that carry four words", count);
}

/// Zero rows are tied, so that a call without room would be seen.
#[test]
fn without_room_nothing_is_written() {
    let mut random = Random::for_test("any size: no room");
    let mut count = 0;
    let mut refused = |bytes: usize, t: usize, rows: usize, words: usize, out: usize| {
        compare(&mut random, &vec![0; rows], &Lent { bytes, t, words, out }, None);
        count += 1;
    };
    for (bytes, t) in [(8, 1), (8, 5), (32, 81), (64, 162), (56, 200), (8, 256)] {
        let (rows, words, out) = (2 * bytes * t, words_of(bytes, t), 2 * t);
        refused(bytes, t, rows - 1, words, out);
        refused(bytes, t, rows, words - 1, out);
        refused(bytes, t, rows, words, out - 1);
        refused(bytes, t, 0, words, out);
        refused(bytes, t, rows, 0, out);
        refused(bytes, t, rows, words, 0);
        for other in [bytes - 1, bytes + 1, bytes + 4, 1 << 60, usize::MAX] {
            refused(other, t, 2 * rows, 2 * words, out);
        }
        for more in [1 << 32, 1 << 60, usize::MAX / 2, usize::MAX] {
            refused(bytes, more, rows, words, out);
        }
    }
    // Twelve words to a plane, and more rows than a byte can number.
    for (bytes, t) in [(88, 1), (80, 65), (72, 129), (64, 193), (8, 257), (8, 300)] {
        refused(bytes, t, 2 * bytes * t, words_of(bytes, t), 2 * t);
    }
    // With room the first of so many zero rows is the tie; a row without columns is one too.
    for (bytes, t) in [(0, 5), (8, 1), (8, 256), (80, 64), (64, 192), (56, 256)] {
        let lent = Lent { bytes, t, words: words_of(bytes, t), out: 2 * t };
        compare(&mut random, &vec![0; 2 * bytes * t], &lent, Some(&[0, 1]));
    }
    report("any size: no room", count);
}
