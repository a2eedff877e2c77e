//! "Runs and views": the pairing of tapes that keeps the fixed unit's view.

use super::bits::{add, multiply};
use super::dealer::Tape;
use super::program::Inputs;
use super::trits::subtract_trits;

/// "The run's key and label are the sums modulo 2 of its two halves of each":
/// their inner vector K × label.
pub fn inner_vector(inputs: &Inputs) -> Vec<u8> {
    let [key, label] = inputs.key_and_label();
    multiply(inputs.shape, &key, &label)
}

/// "The pairing gives each accepted tape of the first run exactly one of the
/// second": the other unit's masks take up what its halves change, w̃ takes up
/// what the inner vector changes, and the fixed unit's deal stays. The inputs
/// have one shape and agree on the fixed unit (side 0 or, for any other number,
/// side 1).
pub fn paired_tape(fixed: usize, first: &Inputs, second: &Inputs, tape: &[u8]) -> Vec<u8> {
    let shape = first.shape;
    let old = Tape::read(shape, tape);
    let mut new = old.clone();
    let other = usize::from(fixed == 0);
    let moved = |mask: &[u8], from: &[u8], to: &[u8]| add(shape, &add(shape, mask, from), to);
    new.key_masks[other] =
        moved(&old.key_masks[other], &first.key_halves[other], &second.key_halves[other]);
    new.label_masks[other] =
        moved(&old.label_masks[other], &first.label_halves[other], &second.label_halves[other]);
    let (from, to) = (inner_vector(first), inner_vector(second));
    new.inner_mask = moved(&old.inner_mask, &from, &to);
    if fixed != 0 {
        keep_unit_1(&old, &mut new);
    }
    new.bytes()
}

/// Chooses z0 and r0 so that z1 and r1, which the dealer makes of them, stay:
/// both rules are solved for the part that is on the tape.
fn keep_unit_1(old: &Tape, new: &mut Tape) {
    let shape = new.shape;
    new.z0 = add(shape, &add(shape, &old.z1(), &new.mask_product()), &new.inner_mask);
    new.r0 = subtract_trits(&new.inner_mask, &old.r1(), shape.string_bytes());
}
