//! The lengths that every function is tried at, and a function of two inputs
//! at all of them.

use service_pair_tests::guarded::compare_bytes;
use service_pair_tests::random::{report, Random};

/// Every length from 0 to this is tried.
const LONGEST: usize = 140;
/// Some longer ones: many words, and a byte less and more than many.
const LONGER: [usize; 6] = [192, 255, 256, 257, 511, 512];
/// How many bytes an input is shorter or longer than what fits.
const BESIDE: [usize; 8] = [1, 2, 7, 8, 9, 15, 16, 17];

/// All lengths.
pub fn all() -> impl Iterator<Item = usize> {
    (0..=LONGEST).chain(LONGER)
}

/// Lengths of an input: the one that fits, those beside it, an empty one, and
/// two of any lengths, below and above.
pub fn near(random: &mut Random, fit: usize) -> Vec<usize> {
    let shorter = BESIDE.iter().filter_map(|less| fit.checked_sub(*less));
    let longer = BESIDE.iter().map(|more| fit + more);
    let drawn = [random.below(fit), fit + random.below(2 * fit + 20)];
    [fit, 0].into_iter().chain(drawn).chain(shorter).chain(longer).collect()
}

/// Any two of the lengths near those that fit.
pub fn pairs(random: &mut Random, fit: [usize; 2]) -> Vec<[usize; 2]> {
    let [firsts, seconds] = fit.map(|fit| near(random, fit));
    firsts.iter().flat_map(|a| seconds.iter().map(|b| [*a, *b])).collect()
}

/// Tries a function of two inputs at all lengths of its output: `inputs` draws
/// the inputs' lengths for one of them, and the reference is given what the
/// output held before.
pub fn try_two_inputs(
    name: &str,
    inputs: impl Fn(&mut Random, usize) -> Vec<[usize; 2]>,
    function: impl Fn(&[u8], &[u8], &mut [u8]),
    reference: impl Fn(&[u8], &[u8], &[u8]) -> Vec<u8>,
) {
    let mut random = Random::for_test(name);
    let mut count = 0;
    for room in all() {
        for [a, b] in inputs(&mut random, room) {
            let [a, b, room] = [a, b, room].map(|length| random.contents(length));
            let expected = reference(&a, &b, &room);
            compare_bytes(&mut random, name, [&a, &b], &room, &expected, |[a, b], out| {
                function(a, b, out)
            });
            count += 1;
        }
    }
    report(&format!("linear: {name}"), count);
}
