//! Document 01's answers and listings, and what stands for no answer.

/// The answer to one record.
#[derive(Copy, Clone, PartialEq, Eq, Debug)]
pub struct Answer {
    pub code: u16,
    pub first: u16,
    pub second: u32,
}

/// Codes of the answers: 0 to 6 are document 01's. `NONE` is the oracle's own,
/// for a list on which the Rust gives no answer; `first` then says why.
pub mod code {
    pub const DONE: u16 = 0;
    pub const MALFORMED: u16 = 1;
    pub const NO_SUCH_CHILD: u16 = 2;
    pub const FULL: u16 = 3;
    pub const CLASH: u16 = 4;
    pub const CYCLE: u16 = 5;
    pub const TOO_FEW_KEPT: u16 = 6;
    pub const NONE: u16 = 0xFFFF;
}

/// Why there is no answer.
pub const PANICKED: u16 = 1;
pub const TOO_LONG: u16 = 2;

impl Answer {
    pub fn new(code: u16, first: u16, second: u32) -> Self {
        Answer {
            code,
            first,
            second,
        }
    }

    pub fn bytes(&self) -> [u8; 8] {
        let [c0, c1] = self.code.to_le_bytes();
        let [f0, f1] = self.first.to_le_bytes();
        let [s0, s1, s2, s3] = self.second.to_le_bytes();
        [c0, c1, f0, f1, s0, s1, s2, s3]
    }
}

/// The listing of a job that shows none: no nodes, no types, two offsets.
pub const EMPTY_LISTING: [u16; 4] = [0, 0, 4, 4];

/// All that a job gives back.
#[derive(Clone, PartialEq, Eq, Debug)]
pub struct Answers {
    pub answers: Vec<Answer>,
    pub listing: Vec<u16>,
}
