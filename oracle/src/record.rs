//! Document 01's records: kinds, fields, and when one is well formed.

pub const MOST_NODES: usize = 1_024;
pub const MOST_RECORDS: usize = 4_096;
pub const LARGEST_WORD: u16 = 31;

/// A record's length in bytes.
pub const RECORD: usize = 8;

/// The kinds of records, by document 01's numbers.
pub mod kind {
    pub const IDEN: u8 = 1;
    pub const UNIT: u8 = 2;
    pub const INJL: u8 = 3;
    pub const INJR: u8 = 4;
    pub const TAKE: u8 = 5;
    pub const DROP: u8 = 6;
    pub const COMP: u8 = 7;
    pub const CASE: u8 = 8;
    pub const ASSERTL: u8 = 9;
    pub const ASSERTR: u8 = 10;
    pub const PAIR: u8 = 11;
    pub const DISCONNECT: u8 = 12;
    pub const DISCONNECT_ONE: u8 = 13;
    pub const WITNESS: u8 = 14;
    pub const FAIL: u8 = 15;
    pub const WORD: u8 = 16;
    pub const TAKE_BACK: u8 = 64;
    pub const CLOSE: u8 = 65;
}

/// What a kind makes of a record's fields a and b.
#[derive(Copy, Clone, PartialEq, Eq)]
pub enum Fields {
    None,
    Child,
    Children,
    Word,
    Count,
    Unknown,
}

pub fn fields(kind: u8) -> Fields {
    use kind::*;
    match kind {
        IDEN | UNIT | WITNESS | FAIL | CLOSE => Fields::None,
        INJL | INJR | TAKE | DROP | ASSERTL | ASSERTR | DISCONNECT_ONE => Fields::Child,
        COMP | CASE | PAIR | DISCONNECT => Fields::Children,
        WORD => Fields::Word,
        TAKE_BACK => Fields::Count,
        _ => Fields::Unknown,
    }
}

/// A record as it stands in a job, whatever its numbers are.
#[derive(Copy, Clone, PartialEq, Eq, Debug)]
pub struct Record {
    pub kind: u8,
    pub zero: u8,
    pub a: u16,
    pub b: u16,
    pub zeros: u16,
}

impl Record {
    pub fn new(kind: u8, a: u16, b: u16) -> Self {
        Record {
            kind,
            zero: 0,
            a,
            b,
            zeros: 0,
        }
    }

    pub fn from_bytes(bytes: [u8; RECORD]) -> Self {
        Record {
            kind: bytes[0],
            zero: bytes[1],
            a: u16::from_le_bytes([bytes[2], bytes[3]]),
            b: u16::from_le_bytes([bytes[4], bytes[5]]),
            zeros: u16::from_le_bytes([bytes[6], bytes[7]]),
        }
    }

    pub fn bytes(&self) -> [u8; RECORD] {
        let [a0, a1] = self.a.to_le_bytes();
        let [b0, b1] = self.b.to_le_bytes();
        let [z0, z1] = self.zeros.to_le_bytes();
        [self.kind, self.zero, a0, a1, b0, b1, z0, z1]
    }

    /// Whether this is a node, and neither a take-back nor a closing.
    pub fn is_node(&self) -> bool {
        (kind::IDEN..=kind::WORD).contains(&self.kind)
    }

    /// A known kind, its unused fields zero, its word's n at most 31: all that
    /// code 1 asks.
    pub fn is_well_formed(&self) -> bool {
        let unused = match fields(self.kind) {
            Fields::None => self.a == 0 && self.b == 0,
            Fields::Child | Fields::Count => self.b == 0,
            Fields::Children => true,
            Fields::Word => self.b == 0 && self.a <= LARGEST_WORD,
            Fields::Unknown => false,
        };
        unused && self.zero == 0 && self.zeros == 0
    }

    /// Whether every child is one of the first `kept` nodes.
    pub fn has_children_below(&self, kept: usize) -> bool {
        match fields(self.kind) {
            Fields::Child => (self.a as usize) < kept,
            Fields::Children => (self.a as usize) < kept && (self.b as usize) < kept,
            _ => true,
        }
    }
}
