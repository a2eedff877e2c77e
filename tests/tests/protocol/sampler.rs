//! The sampler, alone and under the dealer: all-3 sources, each boundary, every
//! sort of start, the unread rest, and draws one after the other.

use crate::interface;
use service_pair_tests::guarded::compare_counted;
use service_pair_tests::random::{report, seed, Random};
use service_pair_tests::reference::dealer::{self, bytes_of, pairs_of};
use service_pair_tests::reference::numbers::{Answer, DONE, SHORT_SOURCE};
use service_pair_tests::reference::shape::{with_set, Shape, SETS, SET_1, SET_2, SET_3};
use service_pair_tests::reference::trits::pack_trits;
use service_pair_tests::samples::lengths_of_sets;

/// The fewest pairs that make a tape.
fn least_pairs(shape: Shape) -> usize {
    shape.copied_pairs() + shape.bits
}

/// Compares the sampler on one source from one start, alone and under the dealer,
/// whose output slice is longer by what it writes more.
pub fn compare_sample(
    random: &mut Random,
    set: u32,
    start: u64,
    source: &[u8],
    room: usize,
) -> Answer {
    let expected = with_set(set, |shape| dealer::sample(shape, start, source, room));
    let name = format!("set {set}, pair_sample from {start}");
    compare_counted(random, &name, [source], room, &expected, |[source], out, next| {
        interface::sample(set, start, source, out, next)
    });
    let more = Shape::named(set).map_or(0, |shape| shape.dealt_bytes() - shape.tape_bytes());
    let (shared, room) = (random.shared(), room + more);
    let dealt = with_set(set, |shape| dealer::deal_source(shape, shared, start, source, room));
    let name = format!("set {set}, pair_deal_source from {start}");
    compare_counted(random, &name, [source], room, &dealt, |[source], out, next| {
        interface::deal_source(set, shared, start, source, out, next)
    });
    expected
}

/// `compare_sample` with an output slice that is just long enough.
fn draw(random: &mut Random, shape: Shape, start: u64, source: &[u8]) -> Answer {
    compare_sample(random, shape.set, start, source, shape.tape_bytes())
}

/// The bytes of pairs; threes fill the last one.
fn packed(mut pairs: Vec<u8>) -> Vec<u8> {
    pairs.resize(pairs.len().next_multiple_of(4), 3);
    bytes_of(&pairs)
}

/// A source of any pairs up to the copied ones' end, and after them so many of
/// value 3, but for these places.
fn source_with(
    random: &mut Random,
    shape: Shape,
    start: u64,
    later: usize,
    places: &[usize],
) -> Vec<u8> {
    let first = start as usize + shape.copied_pairs();
    let mut pairs = pairs_of(&random.contents(first.div_ceil(4)));
    pairs.truncate(first);
    pairs.resize(first + later, 3);
    for place in places {
        pairs[first + place] = random.below(3) as u8;
    }
    packed(pairs)
}

/// Different places below a limit, in any order.
fn draw_places(random: &mut Random, count: usize, limit: usize) -> Vec<usize> {
    let mut places: Vec<usize> = (0..limit).collect();
    for i in 0..count {
        let j = i + random.below(limit - i);
        places.swap(i, j);
    }
    places.truncate(count);
    places
}

/// The source of example 9, with so many bytes E4.
fn example_source(shape: Shape, times: usize) -> Vec<u8> {
    [vec![0; shape.copied_bytes()], vec![0xe4; times]].concat()
}

#[test]
fn examples() {
    let mut random = Random::for_test("sampler examples");
    let (source, short) = (example_source(SET_1, 86), example_source(SET_1, 85));
    let twice = [&source[..], &source, &[0xe4; 10]].concat();
    let refused = [3, 4, 344, 1_112, u64::MAX].map(|start| (start, &source[..], 13, 0));
    let others: [(u64, &[u8], u32, u64); 7] = [
        (0, &source, 0, 1_109),
        (1, &source, 0, 1_110),
        (2, &source, 0, 1_111),
        (0, &short, 13, 0),
        (0, &[], 13, 0),
        (0, &twice, 0, 1_109),
        (1_109, &twice, 0, 2_217),
    ];
    for (start, source, number, next) in refused.into_iter().chain(others) {
        let answer = draw(&mut random, SET_1, start, source);
        assert_eq!((answer.number, answer.count), (number, next), "start {start}");
    }
    assert_eq!(compare_sample(&mut random, 1, 0, &[], SET_1.tape_bytes() - 1).number, 1);
    for (shape, times, next) in [(SET_1, 86, 1_109), (SET_2, 22, 277), (SET_3, 171, 2_218)] {
        let answer = draw(&mut random, shape, 0, &example_source(shape, times));
        assert_eq!((answer.number, answer.count), (0, next));
        let vector = pack_trits(shape.string_bytes(), |j| (j % 3) as u8);
        assert_eq!(answer.bytes, [vec![0; shape.copied_bytes()], vector].concat());
        let short = example_source(shape, times - 1);
        assert_eq!(draw(&mut random, shape, 0, &short).number, 13);
    }
    report("protocol: examples of the sampler", 19);
}

#[test]
fn sources_of_threes_give_13() {
    let mut random = Random::for_test("all threes");
    let mut count = 0;
    for shape in SETS {
        // A step that is odd comes to every number of pairs in a byte.
        for pairs in (0..11 * shape.bits).step_by(shape.bits / 128 + 1) {
            let start = pairs as u64 % 5;
            let source = source_with(&mut random, shape, start, pairs, &[]);
            assert_eq!(draw(&mut random, shape, start, &source).number, 13);
            count += 1;
        }
        // The copied pairs are no trits, and a long source of threes is still short.
        let copied = vec![0; shape.copied_bytes()];
        for source in [vec![0xff; 100_000], [copied, vec![0xff; 65_536]].concat()] {
            assert_eq!(draw(&mut random, shape, 0, &source).number, 13);
            count += 1;
        }
    }
    report("protocol: sources of threes", count);
}

#[test]
fn sources_of_every_length() {
    let mut random = Random::for_test("source lengths");
    let mut count = 0;
    for shape in SETS {
        let some = (0..shape.bits * 7 / 3).step_by(shape.bits / 128 + 1);
        let about = lengths_of_sets(|other| least_pairs(other) / 4);
        for length in some.chain(about) {
            for start in 0..4 {
                let random_source = random.bytes(length);
                draw(&mut random, shape, start, &random_source);
                // Without a pair of 3 the first n pairs after the copied ones suffice.
                let source = vec![0x55; length];
                let answer = draw(&mut random, shape, start, &source);
                let next = start + least_pairs(shape) as u64;
                let expected = if 4 * length as u64 >= next { (0, next) } else { (13, 0) };
                assert_eq!((answer.number, answer.count), expected);
                count += 2;
            }
        }
    }
    report("protocol: sources of each length", count);
}

#[test]
fn one_trit_more_or_less() {
    let mut random = Random::for_test("trit counts");
    let count = 900;
    for trial in 0..count {
        let shape = SETS[trial / 3 % SETS.len()];
        let start = random.below(12) as u64;
        let pairs = shape.bits + 4 + random.below(3 * shape.bits);
        let trits = shape.bits - 1 + trial % 3;
        let places = draw_places(&mut random, trits, pairs);
        let source = source_with(&mut random, shape, start, pairs, &places);
        let answer = draw(&mut random, shape, start, &source);
        assert_eq!(answer.number == 13, trits < shape.bits);
    }
    report("protocol: sources with n - 1, n and n + 1 trits", count);
}

#[test]
fn the_last_trit_at_each_place() {
    let mut random = Random::for_test("last trit");
    let mut count = 0;
    for shape in SETS {
        // All trits but one, and the last one later.
        let first: Vec<usize> = (0..shape.bits - 1).collect();
        for last in (shape.bits - 1..shape.bits + 200).step_by(shape.bits / 128 + 1) {
            for start in 0..4 {
                let places = [&first[..], &[last]].concat();
                let source = source_with(&mut random, shape, start, last + 1, &places);
                let answer = draw(&mut random, shape, start, &source);
                let next = start + (shape.copied_pairs() + last + 1) as u64;
                assert_eq!((answer.number, answer.count), (0, next));
                // The rest is unread: whatever follows the last trit's pair, also
                // in its byte.
                let length = random.below(50);
                let later = pairs_of(&random.contents(length));
                let longer = packed([&pairs_of(&source)[..next as usize], &later].concat());
                assert_eq!(draw(&mut random, shape, start, &longer), answer);
                let short = &source[..source.len() - 1];
                assert_eq!(draw(&mut random, shape, start, short).number, 13);
                count += 3;
            }
        }
    }
    report("protocol: last trits at each place", count);
}

#[test]
fn short_outputs_come_before_short_sources() {
    let mut random = Random::for_test("sample outputs");
    let mut count = 0;
    for shape in SETS {
        let fit = vec![0x1b; 2 * shape.bits];
        for room in (0..600).step_by(3).chain(lengths_of_sets(Shape::tape_bytes)) {
            let length = random.below(2 * shape.bits);
            let (start, source) = (random.word() >> random.below(64), random.contents(length));
            let answer = compare_sample(&mut random, shape.set, start, &source, room);
            assert_eq!(answer.number == 1, room < shape.tape_bytes());
            let answer = compare_sample(&mut random, shape.set, start % 4, &fit, room);
            assert_eq!(answer.number, u32::from(room < shape.tape_bytes()));
            count += 2;
        }
    }
    report("protocol: output slices of the sampler", count);
}

/// Starts about each boundary of a source of so many pairs: its beginning, the
/// last one that may be accepted, its end, and where bits, bytes or the copied
/// pairs' end would be more than 64 bits count.
fn boundary_starts(shape: Shape, pairs: u64) -> Vec<u64> {
    let (least, copied) = (least_pairs(shape) as u64, shape.copied_pairs() as u64);
    let last = pairs.saturating_sub(least + 4);
    let powers = [60, 61, 62, 63].map(|power| 1 << power);
    let about_powers = powers.into_iter().flat_map(|power: u64| power - 4..power + 8);
    let wrapping = (u64::MAX - least - 4..=u64::MAX).step_by(3);
    let small = (0..5).chain(copied - 5..copied + 5);
    let late = (last + 12..pairs + 8).step_by(5);
    small.chain(last..last + 12).chain(late).chain(about_powers).chain(wrapping).collect()
}

#[test]
fn starts_about_each_boundary() {
    let mut random = Random::for_test("boundary starts");
    let (mut count, mut accepted) = (0, 0);
    for shape in SETS {
        let (copied, n) = (shape.copied_bytes(), shape.bits);
        for length in [0, 1, copied, n - 1, n, n + 1, n + n / 12 + 1, 5 * n / 2] {
            // Without threes a start is accepted if 4n pairs are left.
            let random_source = random.bytes(length);
            for source in [vec![0x11; length], random_source] {
                for start in boundary_starts(shape, 4 * length as u64) {
                    let answer = draw(&mut random, shape, start, &source);
                    accepted += usize::from(answer.number == DONE);
                    count += 1;
                }
            }
        }
    }
    assert!(accepted > 50, "only {accepted} were accepted");
    report(&format!("protocol: starts about each boundary ({accepted} accepted)"), count);
}

/// The first pair that is not read, and the tape, as one list of pairs has them
/// where each is taken once: nothing if it ends before.
fn taken_in_turn(shape: Shape, pairs: &[u8], start: usize) -> Option<(usize, Vec<u8>)> {
    let mut rest = pairs.get(start..)?.iter().copied();
    let copied: Vec<u8> = rest.by_ref().take(shape.copied_pairs()).collect();
    let trits: Vec<u8> = rest.by_ref().filter(|pair| *pair != 3).take(shape.bits).collect();
    let vector = pack_trits(shape.string_bytes(), |j| *trits.get(j).unwrap_or(&0));
    let tape = [bytes_of(&copied), vector];
    (trits.len() == shape.bits).then(|| (pairs.len() - rest.len(), tape.concat()))
}

/// A source, with one pair in two or a few of value 3.
fn any_source(random: &mut Random, length: usize) -> Vec<u8> {
    match random.below(3) {
        0 => (0..length).map(|_| random.byte() | random.byte()).collect(),
        1 => (0..length).map(|_| random.byte() & random.byte()).collect(),
        _ => random.bytes(length),
    }
}

/// Draws begun where the last one ended take one list of pairs in turn, until it
/// has no more tape.
#[test]
fn draws_one_after_the_other() {
    let mut random = Random::for_test("draws in turn");
    let (mut count, mut residues) = (0, [0; 4]);
    for shape in (0..60).flat_map(|_| SETS) {
        let length = shape.bits + random.below(9 * shape.bits);
        let source = any_source(&mut random, length);
        let pairs = pairs_of(&source);
        let mut start = random.below(6);
        loop {
            let answer = draw(&mut random, shape, start as u64, &source);
            count += 1;
            let Some((next, tape)) = taken_in_turn(shape, &pairs, start) else {
                assert_eq!(answer.number, SHORT_SOURCE, "SEED={}", seed());
                break;
            };
            assert_eq!((answer.number, answer.count), (0, next as u64), "SEED={}", seed());
            assert_eq!(answer.bytes, tape, "SEED={}", seed());
            residues[start % 4] += 1;
            start = next;
        }
    }
    assert!(residues.iter().all(|n| *n > 20), "accepted draws at each residue: {residues:?}");
    report("protocol: draws one after the other", count);
}

/// The pairs with each of these changed to another value.
fn with_others(random: &mut Random, pairs: &[u8], places: impl Iterator<Item = usize>) -> Vec<u8> {
    let mut others = pairs.to_vec();
    for place in places {
        others[place] ^= 1 + random.below(3) as u8;
    }
    others
}

/// A source's pairs and an accepted draw of them: where it starts, and its answer.
fn accepted_draw(random: &mut Random, shape: Shape) -> (Vec<u8>, usize, Answer) {
    loop {
        let length = shape.bits * 5 / 4 + random.below(shape.bits * 7 / 3);
        let (start, source) = (random.below(shape.bits * 5 / 8), random.bytes(length));
        let answer = draw(random, shape, start as u64, &source);
        if answer.number == DONE {
            return (pairs_of(&source), start, answer);
        }
    }
}

/// A draw reads the pairs from its start to where it ends: all of them, so that
/// none is wasted, and no other.
#[test]
fn a_draw_is_made_of_the_pairs_between() {
    let mut random = Random::for_test("pairs between");
    let count = 180;
    for trial in 0..count {
        let shape = SETS[trial % SETS.len()];
        let (pairs, start, answer) = accepted_draw(&mut random, shape);
        let end = answer.count as usize;
        assert!(start + least_pairs(shape) <= end && end <= pairs.len());
        // Other pairs outside, and another number of them.
        let outside = (0..start).chain(end..pairs.len());
        let mut others = with_others(&mut random, &pairs, outside);
        others.truncate(end + random.below(pairs.len() - end + 1));
        let length = random.below(40);
        others.extend(pairs_of(&random.bytes(length)));
        let same = draw(&mut random, shape, start as u64, &packed(others));
        assert!(same == answer, "a pair outside is read, SEED={}", seed());
        // Another pair inside.
        for place in [start, end - 1, start + random.below(end - start)] {
            let others = bytes_of(&with_others(&mut random, &pairs, place..=place));
            let other = draw(&mut random, shape, start as u64, &others);
            assert!(other != answer, "pair {place} is not read, SEED={}", seed());
        }
    }
    report("protocol: pairs inside and outside of a draw", 5 * count);
}

/// What was read is not read again: number, tape and place from a draw's end on
/// are the same whatever stands before it.
#[test]
fn a_draw_from_an_end_sees_nothing_before_it() {
    let mut random = Random::for_test("pairs before");
    let (count, mut accepted) = (180, 0);
    for trial in 0..count {
        let shape = SETS[trial % SETS.len()];
        let (pairs, _, Answer { count: end, .. }) = accepted_draw(&mut random, shape);
        let answer = draw(&mut random, shape, end, &bytes_of(&pairs));
        let others = bytes_of(&with_others(&mut random, &pairs, 0..end as usize));
        let same = draw(&mut random, shape, end, &others);
        assert!(same == answer, "a pair before the start is read, SEED={}", seed());
        accepted += usize::from(answer.number == DONE);
    }
    assert!(accepted > count / 10 && accepted < count, "{accepted} of {count} were accepted");
    report(&format!("protocol: draws from an end ({accepted} accepted)"), 2 * count);
}
