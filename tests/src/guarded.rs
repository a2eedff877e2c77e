//! Slices between random guard bytes: a read past an end changes a result, a
//! write past an end or a missing one shows in the comparison of the whole.

use crate::random::{seed, Random};
use crate::reference::numbers::Answer;

/// A slice lent to a library function, with the bytes around it.
#[derive(Clone, Debug, PartialEq, Eq)]
pub struct Guarded {
    whole: Vec<u8>,
    start: usize,
    length: usize,
}

impl Guarded {
    /// Lends `content` at an odd or even address, with guards on both sides.
    pub fn lend(random: &mut Random, content: &[u8]) -> Guarded {
        let start = 8 + random.below(16);
        let after = 8 + random.below(16);
        let mut whole = random.bytes(start);
        whole.extend_from_slice(content);
        whole.extend(random.bytes(after));
        Guarded { whole, start, length: content.len() }
    }

    /// Lends a slice of this length whose earlier bytes are random.
    pub fn room(random: &mut Random, length: usize) -> Guarded {
        let content = random.bytes(length);
        Guarded::lend(random, &content)
    }

    pub fn slice(&self) -> &[u8] {
        &self.whole[self.start..self.start + self.length]
    }

    pub fn slice_mut(&mut self) -> &mut [u8] {
        &mut self.whole[self.start..self.start + self.length]
    }

    /// What the whole should be after `written` came to the slice's beginning;
    /// with nothing written, what it was.
    pub fn after(&self, written: &[u8]) -> Guarded {
        let mut next = self.clone();
        for (place, byte) in next.slice_mut().iter_mut().zip(written) {
            *place = *byte;
        }
        next
    }
}

/// Lends the inputs and the output between guards, calls, and compares every
/// byte: the inputs as they were, the output with `expected` at its beginning
/// and otherwise as it was. Returns what the call returned.
pub fn compare_bytes<const COUNT: usize, Returned>(
    random: &mut Random,
    name: &str,
    inputs: [&[u8]; COUNT],
    room: &[u8],
    expected: &[u8],
    call: impl FnOnce([&[u8]; COUNT], &mut [u8]) -> Returned,
) -> Returned {
    let lent = inputs.map(|input| Guarded::lend(random, input));
    let lent_before = lent.clone();
    let mut output = Guarded::lend(random, room);
    let after = output.after(expected);
    let returned = call(lent.each_ref().map(Guarded::slice), output.slice_mut());
    assert!(lent == lent_before, "{name} changed an input, SEED={}", seed());
    assert!(
        output == after,
        "{name}: the output slice or its guards differ, SEED={}\ninputs {inputs:?}\n\
         output before {room:?}\nexpected at its beginning {expected:?}\nfound {:?}",
        seed(),
        output.slice()
    );
    returned
}

/// Calls with every slice between guards and an output slice of `room` random
/// bytes; number and all bytes must be the reference's.
pub fn compare<const COUNT: usize>(
    random: &mut Random,
    name: &str,
    inputs: [&[u8]; COUNT],
    room: usize,
    expected: &Answer,
    call: impl FnOnce([&[u8]; COUNT], &mut [u8]) -> u32,
) {
    compare_counted(random, name, inputs, room, expected, |inputs, out, count| {
        *count = 0;
        call(inputs, out)
    });
}

/// `compare` of a call that also reports a count, which held other bytes before.
pub fn compare_counted<const COUNT: usize>(
    random: &mut Random,
    name: &str,
    inputs: [&[u8]; COUNT],
    room: usize,
    expected: &Answer,
    call: impl FnOnce([&[u8]; COUNT], &mut [u8], &mut u64) -> u32,
) {
    let before = random.bytes(room);
    let mut count = random.word();
    let bytes = &expected.bytes;
    let number = compare_bytes(random, name, inputs, &before, bytes, |inputs, out| {
        call(inputs, out, &mut count)
    });
    let found = (number, count);
    let answer = (expected.number, expected.count);
    let lengths = inputs.map(<[u8]>::len);
    assert!(
        found == answer,
        "{name}: number and count are {found:?}, expected {answer:?}, SEED={}\n\
         output slice of {room} bytes, inputs of {lengths:?} bytes: {inputs:?}",
        seed()
    );
}

#[cfg(test)]
mod tests {
    use super::Guarded;
    use crate::random::Random;

    #[test]
    fn a_written_slice_differs_in_its_beginning_only() {
        let mut random = Random::new(3);
        let before = Guarded::lend(&mut random, &[1, 2, 3]);
        let after = before.after(&[7]);
        assert_eq!(after.slice(), [7, 2, 3]);
        assert_eq!(after.whole[..after.start], before.whole[..before.start]);
        assert_eq!(before.after(&[]), before);
    }
}
