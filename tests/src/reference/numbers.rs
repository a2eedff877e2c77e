//! "Numbers": the table, and the answer of a call.

pub const DONE: u32 = 0;
/// "an input other than a frame has another length than stated, or an output
/// slice is shorter than what may be written"
pub const WRONG_LENGTH: u32 = 1;
/// "at the beginning, side is neither 0 nor 1"
pub const NO_SIDE: u32 = 2;
/// "frame under 6 bytes, or its kind is not 1 to 3 (step) or 4 (join)": under 7
/// bytes with the line, "3 and 4 follow"
pub const NO_KIND: u32 = 3;
/// "length is not its kind's"
pub const FRAME_LENGTH: u32 = 4;
/// "session is not the unit's; in join, the two differ"
pub const OTHER_SESSION: u32 = 5;
/// "side is not this unit's (deal), the other's (open, mask), or in join 0
/// then 1"
pub const OTHER_SIDE: u32 = 6;
/// "the kind is not the one waited for"
pub const NOT_WAITED_FOR: u32 = 7;
/// "a block's check differs"
pub const BLOCK_CHECK: u32 = 8;
/// "a block's bytes 0 to 3 or its unused bytes differ from the layout"
pub const BLOCK_LAYOUT: u32 = 9;
/// "a trit with both bits set"
pub const UNFIT_TRIT: u32 = 10;
/// "an unused bit set in a share frame"
pub const UNUSED_BIT: u32 = 11;
/// "such a choice exists": of digits, not all 0, that "makes the rows so multiplied
/// add to the zero row modulo 3". "A zero row remains a case of it".
pub const TIED_ROWS: u32 = 12;
/// "a source of 2^62 bytes or more (64 bits would not count its pairs), fewer
/// than 768 pairs from the start, or fewer than 256 other than 3 after those";
/// "13's counts follow from n and t".
pub const SHORT_SOURCE: u32 = 13;
/// "A set other than 1 to 3 named at a call gives 14"
pub const NO_SET: u32 = 14;
/// "A frame of another line than the unit's, or two share frames of differing
/// lines, gives 15."
pub const OTHER_LINE: u32 = 15;
/// "The tied file gives 0 here, a fit one 16."
pub const NOT_TIED: u32 = 16;

/// A number of the table and whether its condition holds. A condition that
/// can't be judged is given as not holding.
pub type Condition = (u32, bool);

/// "The lowest number whose condition holds is returned", or 0.
pub fn lowest(conditions: &[Condition]) -> u32 {
    let held = conditions.iter().filter(|condition| condition.1);
    held.map(|condition| condition.0).min().unwrap_or(DONE)
}

/// What a call gives back: its number, the bytes that it writes to the
/// beginning of its output slice, and the count that it reports, if any.
#[derive(Clone, Debug, PartialEq, Eq)]
pub struct Answer {
    pub number: u32,
    pub bytes: Vec<u8>,
    pub count: u64,
}

impl Answer {
    /// "A refusal changes neither state nor buffers and any count it reports
    /// is 0".
    pub fn refused(number: u32) -> Answer {
        Answer { number, bytes: Vec::new(), count: 0 }
    }

    /// An accepted call that writes these bytes.
    pub fn done(bytes: Vec<u8>) -> Answer {
        Answer { number: DONE, bytes, count: 0 }
    }

    /// A refusal with the lowest number that holds, or else these bytes.
    pub fn unless(conditions: &[Condition], bytes: impl FnOnce() -> Vec<u8>) -> Answer {
        match lowest(conditions) {
            DONE => Answer::done(bytes()),
            number => Answer::refused(number),
        }
    }
}
