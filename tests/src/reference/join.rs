//! "Join takes side 0's share frame, then side 1's, and writes the 22-byte
//! code."

use super::frame::{read_frame, SHARE};
use super::numbers::{
    Answer, Condition, OTHER_LINE, OTHER_SESSION, OTHER_SIDE, UNFIT_TRIT, UNUSED_BIT, WRONG_LENGTH,
};
use super::shape::Shape;
use super::trits::{add_trits, spare_bits_clear, trits_fit};

/// 10 and 11 of a share's body: only t places are trits, so both bits at an
/// unused place are unused bits.
fn body_conditions(shape: Shape, body: &[u8]) -> [Condition; 2] {
    let t = shape.digits;
    [(UNFIT_TRIT, !trits_fit(body, t)), (UNUSED_BIT, !spare_bits_clear(body, t))]
}

/// The code is the sum modulo 3 of both shares.
pub fn join(shape: Shape, share0: &[u8], share1: &[u8], room: usize) -> Answer {
    let mut conditions = vec![(WRONG_LENGTH, room < shape.code_bytes())];
    let frames = (read_frame(shape, share0, &[SHARE]), read_frame(shape, share1, &[SHARE]));
    let (Ok(frame0), Ok(frame1)) = &frames else {
        let refusals = [frames.0.err(), frames.1.err()].into_iter().flatten();
        conditions.extend(refusals.map(|number| (number, true)));
        return Answer::unless(&conditions, Vec::new);
    };
    let [shared0, shared1] = [frame0.shared, frame1.shared];
    conditions.push((OTHER_SESSION, shared0.session != shared1.session));
    conditions.push((OTHER_SIDE, frame0.side != 0 || frame1.side != 1));
    conditions.extend(body_conditions(shape, &frame0.body));
    conditions.extend(body_conditions(shape, &frame1.body));
    conditions.push((OTHER_LINE, shared0.line != shared1.line));
    Answer::unless(&conditions, || add_trits(&frame0.body, &frame1.body, shape.code_plane()))
}
