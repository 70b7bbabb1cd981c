//! Makes one list, record by record, knowing what will be kept.

use super::all::{LEAVES, OVER_ONE, OVER_TWO};
use super::numbers::Numbers;
use super::table::Table;
use crate::record::{fields, kind, Fields, Record, LARGEST_WORD, MOST_NODES, MOST_RECORDS};

/// How often an offer that will clash goes into the list all the same.
#[derive(Copy, Clone)]
pub enum Clashes {
    All,
    OneIn(usize),
}

pub struct Maker {
    pub numbers: Numbers,
    pub records: Vec<Record>,
    /// Whether offers that close a cycle are left out.
    pub acyclic: bool,
    table: Table,
}

impl Maker {
    pub fn new(numbers: Numbers) -> Self {
        Maker {
            numbers,
            records: vec![],
            acyclic: false,
            table: Table::default(),
        }
    }

    pub fn kept(&self) -> usize {
        self.table.kept()
    }

    /// Room for so many more records, the last closing included.
    pub fn has_room(&self, more: usize) -> bool {
        self.records.len() + more <= MOST_RECORDS
    }

    /// Offers a node, and tells if it went into the list.
    pub fn offer(&mut self, node: Record, clashes: Clashes) -> bool {
        let asked = node.is_well_formed()
            && self.kept() < MOST_NODES
            && node.has_children_below(self.kept());
        let clash = asked && !self.table.offer(&node);
        if self.acyclic && asked && !clash && self.table.take_back_a_cycle() {
            return false;
        }
        let leave_out = match clashes {
            Clashes::OneIn(bound) => clash && !self.numbers.one_in(bound),
            Clashes::All => false,
        };
        if !leave_out {
            self.records.push(node);
        }
        !leave_out
    }

    /// Offers a node of one of these kinds; where there is no child yet, a leaf.
    pub fn node(&mut self, kinds: &[u8], words: &[u16], near: bool, clashes: Clashes) -> bool {
        let picked = self.numbers.pick(kinds);
        let wants_child = matches!(fields(picked), Fields::Child | Fields::Children);
        let kind = match wants_child && self.kept() == 0 {
            true => self.numbers.pick(&LEAVES),
            false => picked,
        };
        let node = match fields(kind) {
            Fields::Child => Record::new(kind, self.child(near), 0),
            Fields::Children => Record::new(kind, self.child(near), self.child(near)),
            Fields::Word => Record::new(kind, self.numbers.pick(words), 0),
            _ => Record::new(kind, 0, 0),
        };
        self.offer(node, clashes)
    }

    /// A kept node's number: one of the last ones, or any.
    pub fn child(&mut self, near: bool) -> u16 {
        let kept = self.kept();
        let back = match near {
            true => self.numbers.below(4).min(self.numbers.below(8)),
            false => self.numbers.below(kept),
        };
        (kept - 1 - back.min(kept - 1)) as u16
    }

    pub fn close(&mut self) {
        self.records.push(Record::new(kind::CLOSE, 0, 0));
    }

    pub fn back(&mut self, count: usize) {
        self.records
            .push(Record::new(kind::TAKE_BACK, count as u16, 0));
        self.table.take_back(count);
    }

    /// A record that is refused by code 1, or by 2 or 6.
    pub fn refused(&mut self) {
        let kept = self.kept() as u16;
        let any = self.numbers.below(65_536) as u16;
        let mut record = match self.numbers.below(7) {
            0 => Record::new(kind::WORD, LARGEST_WORD + 1 + any % 100, 0),
            1 => Record::new(self.numbers.pick(&[0, 17, 63, 66, 255]), 0, 0),
            2 => Record::new(self.numbers.pick(&OVER_ONE), kept.max(any), 0),
            3 => Record::new(self.numbers.pick(&OVER_TWO), kept, any),
            4 => Record::new(kind::TAKE_BACK, kept.saturating_add(1), 0),
            5 => Record::new(self.numbers.pick(&LEAVES), 1 + any % 9, 0),
            _ => Record::new(kind::CLOSE, 0, 1 + any % 9),
        };
        match self.numbers.below(8) {
            0 => record.zero = 1,
            1 => record.zeros = 256,
            _ => {}
        }
        self.records.push(record);
    }
}
