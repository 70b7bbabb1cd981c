//! What the tests share: a model of document 01, random numbers, nodes and records, and jobs as bytes.
#![allow(dead_code)]

pub mod model;

use tsarovima::{job_header, Node, Record};

/// Numbers that are the same on every machine (xorshift).
pub struct Random(u64);

impl Random {
    pub fn new(seed: u64) -> Self {
        Random(seed.wrapping_mul(0x9E37_79B9_7F4A_7C15) | 1)
    }

    pub fn below(&mut self, end: usize) -> usize {
        self.0 ^= self.0 << 13;
        self.0 ^= self.0 >> 7;
        self.0 ^= self.0 << 17;
        ((self.0 >> 16) % end as u64) as usize
    }

    pub fn one_in(&mut self, n: usize) -> bool {
        self.below(n) == 0
    }

    /// A child: mostly a node that is kept, now and then one that is not.
    fn child(&mut self, kept: usize) -> u16 {
        if kept == 0 || self.one_in(40) {
            (kept + self.below(3)) as u16
        } else {
            self.below(kept) as u16
        }
    }

    pub fn node(&mut self, kept: usize) -> Node {
        let (s, t) = (self.child(kept), self.child(kept));
        let kind = if kept < 3 { [0, 1, 12, 14][self.below(4)] } else { self.below(17) };
        match kind {
            0 => Node::Iden,
            1 => Node::Unit,
            2 => Node::InjL(t),
            3 => Node::InjR(t),
            4 => Node::Take(t),
            5 => Node::Drop(t),
            6 => Node::Comp(s, t),
            7 => Node::Case(s, t),
            8 => Node::AssertL(s),
            9 => Node::AssertR(t),
            10 | 15 => Node::Pair(s, t),
            11 => Node::Disconnect(s, Some(t)),
            16 => Node::Disconnect(s, None),
            12 => Node::Witness,
            13 => Node::Fail,
            _ => Node::Word([0, 1, 8, 31, 32][self.below(5)]),
        }
    }

    /// Mostly offers; take-backs, closings and bytes that are no record between them.
    pub fn record(&mut self, kept: usize) -> [u8; 8] {
        match self.below(20) {
            0 => Record::TakeBack(self.below(kept + 2) as u16).bytes(),
            1 => Record::TakeBack(kept.saturating_sub(1) as u16).bytes(),
            2 => Record::Close.bytes(),
            3 => {
                let mut bytes = Record::Offer(self.node(kept)).bytes();
                bytes[self.below(8)] = self.below(256) as u8;
                bytes
            }
            _ => Record::Offer(self.node(kept)).bytes(),
        }
    }
}

/// A job of these records.
pub fn job_of(records: &[[u8; 8]]) -> Vec<u8> {
    let mut job = job_header(records.len() as u32).to_vec();
    job.extend(records.iter().flatten());
    job
}
