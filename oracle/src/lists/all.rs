//! All lists of up to so many nodes, each closed at its end.
//!
//! Every kind, the words 0, 1, 8 and 31, and every choice of children among
//! the nodes offered before. Where one of those was refused, a child may be
//! missing: such lists ask for code 2, and are part of "all".

use std::io::{self, Write};

use crate::record::{kind, Record};
use crate::stream::write_job;

pub const WORDS: [u16; 4] = [0, 1, 8, 31];
pub const LEAVES: [u8; 4] = [kind::IDEN, kind::UNIT, kind::WITNESS, kind::FAIL];
pub const OVER_ONE: [u8; 7] = [
    kind::INJL,
    kind::INJR,
    kind::TAKE,
    kind::DROP,
    kind::ASSERTL,
    kind::ASSERTR,
    kind::DISCONNECT_ONE,
];
pub const OVER_TWO: [u8; 4] = [kind::COMP, kind::CASE, kind::PAIR, kind::DISCONNECT];

/// Every node that can be offered after `before` others.
pub fn choices(before: u16) -> Vec<Record> {
    let mut nodes: Vec<Record> = LEAVES.iter().map(|k| Record::new(*k, 0, 0)).collect();
    nodes.extend(WORDS.iter().map(|n| Record::new(kind::WORD, *n, 0)));
    for a in 0..before {
        nodes.extend(OVER_ONE.iter().map(|k| Record::new(*k, a, 0)));
        for b in 0..before {
            nodes.extend(OVER_TWO.iter().map(|k| Record::new(*k, a, b)));
        }
    }
    nodes
}

/// Writes the lists, shorter ones before those that begin with them.
pub fn write_all(output: &mut impl Write, most: usize) -> io::Result<()> {
    let nodes: Vec<Vec<Record>> = (0..most).map(|before| choices(before as u16)).collect();
    extend(output, &nodes, &mut vec![])
}

fn extend(
    output: &mut impl Write,
    nodes: &[Vec<Record>],
    list: &mut Vec<Record>,
) -> io::Result<()> {
    list.push(Record::new(kind::CLOSE, 0, 0));
    write_job(output, list)?;
    list.pop();
    if let Some((first, rest)) = nodes.split_first() {
        for node in first {
            list.push(*node);
            extend(output, rest, list)?;
            list.pop();
        }
    }
    Ok(())
}
