//! Join on shares of whole runs, made up, flipped, cut and exchanged.

use crate::interface;
use service_pair_tests::guarded::compare;
use service_pair_tests::random::{report, Random};
use service_pair_tests::reference::frame::{frame_of, Shared, HEADER_BYTES, SHARE};
use service_pair_tests::reference::join;
use service_pair_tests::reference::numbers::DONE;
use service_pair_tests::reference::shape::{with_set, Shape, SETS, SET_3};
use service_pair_tests::reference::trits::pack_trits;
use service_pair_tests::samples::{change, lengths_of_sets};
use service_pair_tests::state_layout::LINE_AT;

/// Compares join on two frames and gives its number back.
pub fn compare_join(
    random: &mut Random,
    set: u32,
    share0: &[u8],
    share1: &[u8],
    room: usize,
) -> u32 {
    let expected = with_set(set, |shape| join::join(shape, share0, share1, room));
    let inputs = [share0, share1];
    compare(random, "pair_join", inputs, room, &expected, |[share0, share1], out| {
        interface::join(set, share0, share1, out)
    });
    expected.number
}

/// A fit share frame: t trits, unused bits zero.
pub fn share(random: &mut Random, shape: Shape, side: u8, shared: Shared) -> Vec<u8> {
    let trits: Vec<u8> = (0..shape.digits).map(|_| random.below(3) as u8).collect();
    let body = pack_trits(shape.code_plane(), |j| trits.get(j).copied().unwrap_or(0));
    frame_of(SHARE, side, shared, &body)
}

pub fn two_shares(random: &mut Random, shape: Shape) -> [Vec<u8>; 2] {
    let shared = random.shared();
    [0, 1].map(|side| share(random, shape, side, shared))
}

#[test]
fn fit_shares_are_joined() {
    let mut random = Random::for_test("fit shares");
    let count = 1_500;
    for shape in (0..count).flat_map(|_| SETS) {
        let [share0, share1] = two_shares(&mut random, shape);
        let room = shape.code_bytes() + random.below(20);
        assert_eq!(compare_join(&mut random, shape.set, &share0, &share1, room), DONE);
        let other = compare_join(&mut random, shape.set, &share1, &share0, room);
        assert_eq!(other, 6);
    }
    report("protocol: fit shares", 2 * SETS.len() * count);
}

/// Frames carry no set: those of another set have another length.
#[test]
fn shares_of_another_set() {
    let mut random = Random::for_test("shares of another set");
    let mut tried = 0;
    for shape in SETS {
        let [share0, share1] = two_shares(&mut random, shape);
        for other in SETS.into_iter().filter(|other| *other != shape) {
            let [other0, other1] = two_shares(&mut random, other);
            let pairs = [(&other0, &other1), (&other0, &share1), (&share0, &other1)];
            for (first, second) in pairs {
                let room = SET_3.code_bytes();
                assert_eq!(compare_join(&mut random, shape.set, first, second, room), 4);
                tried += 1;
            }
        }
    }
    report("protocol: shares of another set", tried);
}

#[test]
fn every_flipped_bit_cut_and_output_length() {
    let mut random = Random::for_test("flipped shares");
    let mut tried = 0;
    for shape in (0..6).flat_map(|_| SETS) {
        let (set, least) = (shape.set, shape.code_bytes());
        let shares = two_shares(&mut random, shape);
        for place in 0..2 * shape.share_bytes() * 8 {
            let mut flipped = shares.clone();
            flipped[place % 2][place / 16] ^= 1 << (place / 2 % 8);
            compare_join(&mut random, set, &flipped[0], &flipped[1], least);
            tried += 1;
        }
        for length in (0..60).chain(lengths_of_sets(Shape::share_bytes)) {
            let mut cut = shares.clone();
            let which = random.below(2);
            cut[which].resize(length, 0);
            let number = compare_join(&mut random, set, &cut[0], &cut[1], least);
            assert_eq!(number == DONE, length == shape.share_bytes());
            let number = compare_join(&mut random, set, &shares[0], &shares[1], length);
            assert_eq!(number, u32::from(length < least));
            tried += 2;
        }
    }
    report("protocol: flipped and cut shares, output lengths", tried);
}

/// One of the faults of join's numbers, put into either frame.
fn put_fault(random: &mut Random, shape: Shape, frame: &mut Vec<u8>) {
    let (length, digits) = (frame.len(), shape.digits);
    let spare = digits + random.below(8 * shape.code_plane() - digits);
    match random.below(9) {
        0 => frame.truncate(random.below(length)),
        1 => frame.resize(length + 1 + random.below(9), 0),
        2 => change(random, frame, 0),
        3 => change(random, frame, 1),
        4 => {
            let place = 2 + random.below(4);
            change(random, frame, place);
        }
        5 => set_bits(frame, shape, random.below(digits), [true, true]),
        6 => set_bits(frame, shape, spare, [true, true]),
        7 => change(random, frame, LINE_AT),
        _ => {
            let planes = random.choose(&[[true, false], [false, true]]);
            set_bits(frame, shape, spare, planes);
        }
    }
}

/// Sets the bits of one place of a share's planes, where the frame has them.
fn set_bits(frame: &mut [u8], shape: Shape, place: usize, planes: [bool; 2]) {
    for (plane, set) in planes.into_iter().enumerate() {
        let at = HEADER_BYTES + shape.code_plane() * plane + place / 8;
        if let (true, Some(byte)) = (set, frame.get_mut(at)) {
            *byte |= 1 << (place % 8);
        }
    }
}

#[test]
fn the_lowest_of_several_faults_is_told() {
    let mut random = Random::for_test("faults of shares");
    let count = 5_000;
    for shape in SETS {
        let (least, mut seen) = (shape.code_bytes(), [0; 16]);
        for _ in 0..count {
            let mut shares = two_shares(&mut random, shape);
            for _ in 0..random.below(4) {
                let which = random.below(2);
                put_fault(&mut random, shape, &mut shares[which]);
            }
            let room = if random.once_in(12) { random.below(least) } else { least };
            let number = compare_join(&mut random, shape.set, &shares[0], &shares[1], room);
            seen[number as usize] += 1;
        }
        for number in [0, 1, 3, 4, 5, 6, 10, 11, 15] {
            assert!(seen[number] > 0, "no shares of set {} gave {number}", shape.set);
        }
    }
    report("protocol: shares with several faults", SETS.len() * count);
}

#[test]
fn random_bytes_are_no_shares() {
    let mut random = Random::for_test("random shares");
    let count = 3_000;
    for shape in (0..count).flat_map(|_| SETS) {
        let lengths = [random.below(60), random.below(60)];
        let [share0, share1] = lengths.map(|length| random.contents(length));
        let room = random.below(60);
        compare_join(&mut random, shape.set, &share0, &share1, room);
    }
    report("protocol: random bytes for shares", SETS.len() * count);
}
