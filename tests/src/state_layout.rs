//! The bytes in which the C interface keeps a unit's state. Document 01 leaves
//! them free, so this is the one place to change if the library's differ.

use crate::reference::bits::part;
use crate::reference::dealer::Deal;
use crate::reference::frame::{Shared, HEADER_BYTES};
use crate::reference::shape::{Shape, SET_1, SET_3};
use crate::reference::unit::{Stage, State};

/// Where the stage, the side, the session and the line stand: as kind, side,
/// session and line do in a frame. The set comes after them.
pub const STAGE_AT: usize = 0;
pub const SIDE_AT: usize = 1;
pub const SESSION_AT: usize = 2;
pub const LINE_AT: usize = 6;
pub const SET_AT: usize = HEADER_BYTES;
const FIELDS_AT: usize = SET_AT + 1;

/// Key half, label half, key mask, label mask and z; r and the own mask follow.
const STRINGS_BEFORE_R: usize = 5;

/// `PAIR_STATE_BYTES` of the C interface: in every set each field has the room of
/// the largest.
pub const STATE_BYTES: usize =
    FIELDS_AT + (STRINGS_BEFORE_R + 1) * SET_3.string_bytes() + SET_3.vector_bytes();

/// The stages in the order of their numbers: each waiting stage has the number
/// of the kind that it waits for.
const STAGES: [Stage; 5] =
    [Stage::Idle, Stage::WaitsForDeal, Stage::WaitsForOpen, Stage::WaitsForMask, Stage::Done];

/// Where each field starts, how many bytes of it a set has, and how many there is
/// room for.
fn fields(shape: Shape) -> [(usize, usize, usize); STRINGS_BEFORE_R + 2] {
    let string = (shape.string_bytes(), SET_3.string_bytes());
    let mut at = FIELDS_AT;
    std::array::from_fn(|i| {
        let (length, room) = match i {
            STRINGS_BEFORE_R => (shape.vector_bytes(), SET_3.vector_bytes()),
            _ => string,
        };
        at += room;
        (at - room, length, room)
    })
}

/// The places behind each field's bytes, which hold zeros and are not read.
pub fn padding(shape: Shape) -> Vec<usize> {
    fields(shape).into_iter().flat_map(|(at, length, room)| at + length..at + room).collect()
}

/// Stage, side, session, line, set, key half, label half, deal, own mask.
pub fn encode(state: &State) -> Vec<u8> {
    let stage = STAGES.iter().position(|stage| *stage == state.stage);
    let mut bytes = vec![stage.unwrap_or(0) as u8, state.side];
    bytes.extend(state.shared.session.to_le_bytes());
    bytes.push(state.shared.line);
    bytes.push(state.shape.set as u8);
    let deal = &state.deal;
    let strings = [&state.key_half, &state.label_half, &deal.key_mask, &deal.label_mask, &deal.z];
    let contents = strings.into_iter().chain([&deal.r, &state.mask]);
    for ((_, _, room), content) in fields(state.shape).into_iter().zip(contents) {
        bytes.extend(part(content, 0, room));
    }
    bytes
}

/// The set of a state: what is neither 2 nor 3 counts as 1.
pub fn counted_set(byte: u8) -> Shape {
    Shape::named(u32::from(byte)).unwrap_or(SET_1)
}

/// The state that these bytes stand for, if they have the right length, a side
/// and a stage; what other bytes stand for is the library's choice.
pub fn decode(bytes: &[u8]) -> Option<State> {
    let [stage, side @ (0 | 1), a, b, c, d, line, set, ..] = bytes else {
        return None;
    };
    if bytes.len() != STATE_BYTES {
        return None;
    }
    let shape = counted_set(*set);
    let [key_half, label_half, key_mask, label_mask, z, r, mask] =
        fields(shape).map(|(at, length, _)| part(bytes, at, length));
    Some(State {
        shape,
        side: *side,
        shared: Shared { session: u32::from_le_bytes([*a, *b, *c, *d]), line: *line },
        stage: *STAGES.get(usize::from(*stage))?,
        key_half,
        label_half,
        deal: Deal { key_mask, label_mask, z, r },
        mask,
    })
}

#[cfg(test)]
mod tests {
    use super::{counted_set, decode, encode, padding, SET_AT, SIDE_AT, STAGE_AT, STATE_BYTES};
    use crate::random::Random;
    use crate::reference::shape::{SETS, SET_1, SET_2, SET_3};
    use crate::reference::unit::{begin, State};

    #[test]
    fn decoding_an_encoded_state_gives_it_back() {
        let mut random = Random::for_test("state layout");
        for shape in SETS {
            let [key, label] = [shape.string_bytes(); 2].map(|length| random.bytes(length));
            let (_, begun) = begin(shape, 1, random.shared(), &key, &label);
            for state in [begun, State::idle()] {
                assert_eq!(encode(&state).len(), STATE_BYTES);
                assert_eq!(decode(&encode(&state)), Some(state));
            }
        }
        assert_eq!(decode(&[]), None);
    }

    /// The layout in the header of the C interface.
    #[test]
    fn every_set_has_520_bytes() {
        assert_eq!(STATE_BYTES, 520);
        assert_eq!(SETS.map(|shape| padding(shape).len()), [6 * 32 + 64, 6 * 56 + 112, 0]);
        let idle = encode(&State::idle());
        let nonzero = (0..STATE_BYTES).filter(|at| idle[*at] != 0);
        assert_eq!(nonzero.map(|at| (at, idle[at])).collect::<Vec<_>>(), [(7, 1)]);
        for byte in 0..=255 {
            let counted = [SET_1, SET_2, SET_3][if let 2 | 3 = byte { byte - 1 } else { 0 }];
            assert_eq!(counted_set(byte as u8), counted);
        }
    }

    /// But for the padding, which is not read and becomes zeros.
    #[test]
    fn encoding_a_decoded_state_gives_its_bytes_back() {
        let mut random = Random::for_test("state bytes");
        for shape in SETS {
            let mut bytes = random.bytes(STATE_BYTES);
            (bytes[SIDE_AT], bytes[STAGE_AT], bytes[SET_AT]) = (1, 3, shape.set as u8);
            let state = decode(&bytes).expect("side 1 and stage 3 are a state");
            padding(shape).into_iter().for_each(|place| bytes[place] = 0);
            assert_eq!(encode(&state), bytes);
            bytes[STAGE_AT] = 5;
            assert_eq!(decode(&bytes), None);
        }
    }
}
