//! "Tape and deal": the tape's parts, the deals, the dealer, and the sampler of
//! document 02.

use super::bits::{add, multiply, part};
use super::frame::{frame_of, Shared, DEAL};
use super::numbers::{Answer, SHORT_SOURCE, UNFIT_TRIT, WRONG_LENGTH};
use super::shape::Shape;
use super::trits::{pack_trits, subtract_trits, trits_fit};

/// "six bit strings K̃0, K̃1, x̃0, x̃1, w̃, z0, then the trit vector r0"
#[derive(Clone, Debug, PartialEq, Eq)]
pub struct Tape {
    pub shape: Shape,
    pub key_masks: [Vec<u8>; 2],
    pub label_masks: [Vec<u8>; 2],
    pub inner_mask: Vec<u8>,
    pub z0: Vec<u8>,
    pub r0: Vec<u8>,
}

impl Tape {
    /// The parts of a tape, in the stated order.
    pub fn read(shape: Shape, tape: &[u8]) -> Tape {
        let string = |i| part(tape, shape.string_bytes() * i, shape.string_bytes());
        Tape {
            shape,
            key_masks: [string(0), string(1)],
            label_masks: [string(2), string(3)],
            inner_mask: string(4),
            z0: string(5),
            r0: part(tape, shape.copied_bytes(), shape.vector_bytes()),
        }
    }

    /// The bytes of a tape, in the stated order.
    pub fn bytes(&self) -> Vec<u8> {
        let masks = [self.key_masks.concat(), self.label_masks.concat()].concat();
        [&masks[..], &self.inner_mask, &self.z0, &self.r0].concat()
    }

    /// "K̃ × x̃" with "K̃ = K̃0 + K̃1 (as a circulant) and x̃ = x̃0 + x̃1"
    pub fn mask_product(&self) -> Vec<u8> {
        let key_mask = add(self.shape, &self.key_masks[0], &self.key_masks[1]);
        let label_mask = add(self.shape, &self.label_masks[0], &self.label_masks[1]);
        multiply(self.shape, &key_mask, &label_mask)
    }

    /// "z1 = z0 + K̃ × x̃ + w̃ modulo 2"
    pub fn z1(&self) -> Vec<u8> {
        let masked = add(self.shape, &self.z0, &self.mask_product());
        add(self.shape, &masked, &self.inner_mask)
    }

    /// "r1 = w̃ − r0 modulo 3"
    pub fn r1(&self) -> Vec<u8> {
        subtract_trits(&self.inner_mask, &self.r0, self.shape.string_bytes())
    }

    /// "Unit i's deal is K̃i, x̃i, zi, ri."
    pub fn deals(&self) -> [Deal; 2] {
        let [key_mask0, key_mask1] = self.key_masks.clone();
        let [label_mask0, label_mask1] = self.label_masks.clone();
        let unit0 = Deal {
            key_mask: key_mask0,
            label_mask: label_mask0,
            z: self.z0.clone(),
            r: self.r0.clone(),
        };
        let unit1 =
            Deal { key_mask: key_mask1, label_mask: label_mask1, z: self.z1(), r: self.r1() };
        [unit0, unit1]
    }
}

/// The deal of one unit.
#[derive(Clone, Debug, PartialEq, Eq)]
pub struct Deal {
    pub key_mask: Vec<u8>,
    pub label_mask: Vec<u8>,
    pub z: Vec<u8>,
    pub r: Vec<u8>,
}

impl Deal {
    /// The deal in a deal frame's body.
    pub fn read(shape: Shape, body: &[u8]) -> Deal {
        let string = |i| part(body, shape.string_bytes() * i, shape.string_bytes());
        Deal {
            key_mask: string(0),
            label_mask: string(1),
            z: string(2),
            r: part(body, 3 * shape.string_bytes(), shape.vector_bytes()),
        }
    }

    /// The body of a deal frame.
    pub fn bytes(&self) -> Vec<u8> {
        [&self.key_mask[..], &self.label_mask, &self.z, &self.r].concat()
    }

    /// The deal part of a state that has none: zeros.
    pub fn none(shape: Shape) -> Deal {
        Deal::read(shape, &[])
    }
}

/// "A tape is accepted when it has the stated length and no trit of its r0 has
/// both bits set."
pub fn tape_accepted(shape: Shape, tape: &[u8]) -> bool {
    tape.len() == shape.tape_bytes() && tape_fits(shape, tape)
}

/// Whether no trit of the tape's r0 has both bits set.
pub fn tape_fits(shape: Shape, tape: &[u8]) -> bool {
    trits_fit(&Tape::read(shape, tape).r0, shape.bits)
}

/// "writes unit 0's deal frame, then unit 1's"
fn deal_frames(shape: Shape, shared: Shared, tape: &[u8]) -> Vec<u8> {
    let [deal0, deal1] = Tape::read(shape, tape).deals();
    let frame0 = frame_of(DEAL, 0, shared, &deal0.bytes());
    let frame1 = frame_of(DEAL, 1, shared, &deal1.bytes());
    [frame0, frame1].concat()
}

/// "The dealer takes a session and a tape", and "a line".
pub fn deal(shape: Shape, shared: Shared, tape: &[u8], room: usize) -> Answer {
    let right = tape.len() == shape.tape_bytes();
    let conditions = [
        (WRONG_LENGTH, !right || room < shape.dealt_bytes()),
        (UNFIT_TRIT, right && !tape_fits(shape, tape)),
    ];
    Answer::unless(&conditions, || deal_frames(shape, shared, tape))
}

/// "The dealer's form over source bytes follows": the tape is "what the sampler
/// makes of them", from this start on, and it "reports the next unread pair".
pub fn deal_source(shape: Shape, shared: Shared, start: u64, source: &[u8], room: usize) -> Answer {
    if room < shape.dealt_bytes() {
        return Answer::refused(WRONG_LENGTH);
    }
    let sampled = sample(shape, start, source, shape.tape_bytes());
    match sampled.number {
        0 => Answer { count: sampled.count, ..deal(shape, shared, &sampled.bytes, room) },
        number => Answer::refused(number),
    }
}

/// "four pairs of bits, lowest first", of each byte in turn: pair k of a source
/// is bits 2k and 2k + 1.
pub fn pairs_of(source: &[u8]) -> Vec<u8> {
    source.iter().flat_map(|byte| (0..4).map(move |k| byte >> (2 * k) & 3)).collect()
}

/// "lowest first": the bytes that these pairs are, four to a byte.
pub fn bytes_of(pairs: &[u8]) -> Vec<u8> {
    let byte = |four: &[u8]| four.iter().rev().fold(0, |byte, pair| 4 * byte + pair);
    pairs.chunks(4).map(byte).collect()
}

/// The pairs of a source from a start on; none where it begins past the end.
fn pairs_from(source: &[u8], start: u64) -> Vec<u8> {
    let pairs = pairs_of(source);
    let start = usize::try_from(start).unwrap_or(usize::MAX);
    pairs.get(start..).unwrap_or(&[]).to_vec()
}

/// "a source of 2^62 bytes or more (64 bits would not count its pairs)"
pub fn uncounted(bytes: usize) -> bool {
    bytes as u64 >= 1 << 62
}

/// "pairs of value 3 are skipped and the others are the trits of r0 in turn":
/// the first n trits of these pairs, each with the place of its pair.
fn trits_of(pairs: &[u8], n: usize) -> Vec<(usize, u8)> {
    let places = pairs.iter().copied().enumerate();
    places.filter(|(_, pair)| *pair != 3).take(n).collect()
}

/// "The sampler shall take a starting pair and report the next unread pair. The
/// 192 copied bytes are then 768 pairs, lowest first", 3n in each set. The trits
/// are drawn from the pairs after those, and places are counted from the source's
/// beginning.
pub fn sample(shape: Shape, start: u64, source: &[u8], room: usize) -> Answer {
    let pairs = pairs_from(source, start);
    let (copied, later) = pairs.split_at(shape.copied_pairs().min(pairs.len()));
    let trits = trits_of(later, shape.bits);
    let short = copied.len() < shape.copied_pairs() || trits.len() < shape.bits;
    let conditions = [
        (WRONG_LENGTH, room < shape.tape_bytes()),
        (SHORT_SOURCE, uncounted(source.len()) || short),
    ];
    let trit_at = |j: usize| trits.get(j).map_or(0, |(_, trit)| *trit);
    let mut answer = Answer::unless(&conditions, || {
        [bytes_of(copied), pack_trits(shape.string_bytes(), trit_at)].concat()
    });
    if let (0, Some((last, _))) = (answer.number, trits.last()) {
        answer.count = start + (shape.copied_pairs() + last + 1) as u64;
    }
    answer
}
