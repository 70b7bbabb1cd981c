//! The lists that are timed, each of exactly as many nodes as asked. Both sides
//! keep every node, and no list has a cycle.

use crate::lists::all::{LEAVES, OVER_ONE, OVER_TWO};
use crate::lists::maker::{Clashes, Maker};
use crate::lists::numbers::Numbers;
use crate::record::{kind::*, Record};

/// A shape's name, and what makes its list.
pub type Shape = (&'static str, fn(usize) -> Vec<Record>);

pub const SHAPES: [Shape; 15] = [
    ("comps of one iden", comps_of_iden),
    ("comp chain", comp_chain),
    ("witnesses", witnesses),
    ("word pairs", word_pairs),
    ("pair tower", pair_tower),
    ("pair towers, 2^16", |n| word_towers(4, n)),
    ("pair towers, 2^256", |n| word_towers(8, n)),
    ("take and drop", take_and_drop),
    ("takes, deep join", takes_and_deep_join),
    ("case tower", case_tower),
    ("asserts", asserts),
    ("disconnects", disconnects),
    ("random, near", |n| random(true, n)),
    ("random, far", |n| random(false, n)),
    ("constants", constants),
];

/// A list on its way to its length: what comes after is left out.
struct List {
    length: usize,
    nodes: Vec<Record>,
}

impl List {
    fn of(length: usize) -> Self {
        List {
            length,
            nodes: Vec::with_capacity(length),
        }
    }

    fn is_full(&self) -> bool {
        self.nodes.len() == self.length
    }

    /// Adds a node and gives its number.
    fn add(&mut self, kind: u8, a: usize, b: usize) -> usize {
        let number = self.nodes.len();
        if !self.is_full() {
            self.nodes.push(Record::new(kind, a as u16, b as u16));
        }
        number
    }

    fn leaf(&mut self, kind: u8) -> usize {
        self.add(kind, 0, 0)
    }
}

/// iden; comp 0 0; comp 1 1; ... Nothing is ever joined.
fn comps_of_iden(length: usize) -> Vec<Record> {
    let mut list = List::of(length);
    let mut last = list.leaf(IDEN);
    while !list.is_full() {
        last = list.add(COMP, last, last);
    }
    list.nodes
}

/// witness; witness; comp 0 1; witness; comp 2 3; ...
fn comp_chain(length: usize) -> Vec<Record> {
    let mut list = List::of(length);
    let mut last = list.leaf(WITNESS);
    while !list.is_full() {
        let next = list.leaf(WITNESS);
        last = list.add(COMP, last, next);
    }
    list.nodes
}

fn witnesses(length: usize) -> Vec<Record> {
    vec![Record::new(WITNESS, 0, 0); length]
}

/// word n; word m; pair of both; with n and m through 0 to 31.
fn word_pairs(length: usize) -> Vec<Record> {
    let mut list = List::of(length);
    for block in 0.. {
        if list.is_full() {
            break;
        }
        let left = list.add(WORD, block % 32, 0);
        let right = list.add(WORD, block * 7 % 32, 0);
        list.add(PAIR, left, right);
    }
    list.nodes
}

/// witness; pair 0 0; pair 1 1; ... One tower, joined to nothing.
fn pair_tower(length: usize) -> Vec<Record> {
    let mut list = List::of(length);
    let mut last = list.leaf(WITNESS);
    while !list.is_full() {
        last = list.add(PAIR, last, last);
    }
    list.nodes
}

/// Towers of `height` pairs over a witness, each joined to the word of that
/// height, where the Rust takes 2^height - 1 steps.
fn word_towers(height: usize, length: usize) -> Vec<Record> {
    let mut list = List::of(length);
    while !list.is_full() {
        let witness = list.leaf(WITNESS);
        let mut top = witness;
        for _ in 0..height {
            top = list.add(PAIR, top, top);
        }
        list.add(COMP, top, witness);
        let word = list.add(WORD, height, 0);
        list.add(COMP, word, witness);
    }
    list.nodes
}

/// iden; take 0; drop 1; take 2; ... One chain.
fn take_and_drop(length: usize) -> Vec<Record> {
    let mut list = List::of(length);
    let mut last = list.leaf(IDEN);
    while !list.is_full() {
        last = list.add(TAKE, last, 0);
        last = list.add(DROP, last, 0);
    }
    list.nodes
}

/// Two chains of takes, and a pair that makes their sources one, level by level.
fn takes_and_deep_join(length: usize) -> Vec<Record> {
    let mut list = List::of(length);
    let levels = length.saturating_sub(3) / 2;
    let chain = |list: &mut List| {
        let mut last = list.leaf(WITNESS);
        for _ in 0..levels {
            last = list.add(TAKE, last, 0);
        }
        last
    };
    let (left, right) = (chain(&mut list), chain(&mut list));
    if list.nodes.len() + 1 < length {
        list.leaf(UNIT);
    }
    list.add(PAIR, left, right);
    list.nodes
}

/// unit; case 0 0; case 1 1; ...
fn case_tower(length: usize) -> Vec<Record> {
    let mut list = List::of(length);
    let mut last = list.leaf(UNIT);
    while !list.is_full() {
        last = list.add(CASE, last, last);
    }
    list.nodes
}

/// unit; assertl 0; assertr 1; ...
fn asserts(length: usize) -> Vec<Record> {
    let mut list = List::of(length);
    let mut last = list.leaf(UNIT);
    while !list.is_full() {
        last = list.add(ASSERTL, last, 0);
        last = list.add(ASSERTR, last, 0);
    }
    list.nodes
}

/// iden; then by turns a disconnect of one child, and a witness and a
/// disconnect of two, each over the disconnect before.
fn disconnects(length: usize) -> Vec<Record> {
    let mut list = List::of(length);
    let mut last = list.leaf(IDEN);
    while !list.is_full() {
        last = list.add(DISCONNECT_ONE, last, 0);
        let witness = list.leaf(WITNESS);
        last = list.add(DISCONNECT, last, witness);
    }
    list.nodes
}

/// unit; word n; comp of both, twice; the pair of these constants; and its pair
/// with all before.
fn constants(length: usize) -> Vec<Record> {
    let sizes = [0, 3, 5, 8, 6, 4, 5, 8, 3, 7];
    let mut list = List::of(length);
    let mut all = list.leaf(UNIT);
    for block in 0.. {
        if list.is_full() {
            break;
        }
        let constant = |list: &mut List, n: usize| {
            let unit = list.leaf(UNIT);
            let word = list.add(WORD, n, 0);
            list.add(COMP, unit, word)
        };
        let left = constant(&mut list, sizes[block % sizes.len()]);
        let right = constant(&mut list, sizes[(block + 1) % sizes.len()]);
        let pair = list.add(PAIR, left, right);
        all = list.add(PAIR, all, pair);
    }
    list.nodes
}

/// Nodes of every kind over the last few nodes, or over any, always the same;
/// those that would clash or close a cycle are left out.
fn random(near: bool, length: usize) -> Vec<Record> {
    let kinds = [&LEAVES[..], &OVER_ONE, &OVER_TWO, &[WORD]].concat();
    let mut maker = Maker::new(Numbers::new(SEED, near as u64));
    maker.acyclic = true;
    while maker.kept() < length {
        maker.node(&kinds, &[0, 1, 3, 5, 8], near, Clashes::OneIn(NEVER));
    }
    maker.records
}

const SEED: u64 = 1;

/// One chance in 2^32; with this seed it does not come.
const NEVER: usize = 1 << 32;

#[cfg(test)]
mod tests {
    use super::*;
    use crate::run::{run, USUAL_STEPS};

    #[test]
    fn every_list_has_its_length_and_is_kept_and_closed() {
        for (name, make) in SHAPES {
            for length in [100, 300, 1_000] {
                let mut records = make(length);
                assert_eq!(records.len(), length, "{name}");
                records.push(Record::new(CLOSE, 0, 0));
                let answers = run(&records, USUAL_STEPS);
                assert!(
                    answers.answers.iter().all(|a| a.code == 0),
                    "{name} {length}"
                );
                assert_eq!(answers.listing[0] as usize, length, "{name}");
            }
        }
    }
}
