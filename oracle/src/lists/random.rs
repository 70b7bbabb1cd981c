//! Samples of small lists, and random lists of every length, each made by one
//! of several strategies and closed at its end.

use super::all::{LEAVES, OVER_ONE, OVER_TWO, WORDS};
use super::maker::{Clashes, Maker};
use super::numbers::Numbers;
use crate::record::{kind, Record, MOST_NODES};

/// A strategy adds about so many nodes.
type Strategy = fn(&mut Maker, usize);

pub const STRATEGIES: [(&str, Strategy); 8] = [
    ("kept", kept),
    ("clashing", clashing),
    ("cyclic", cyclic),
    ("words", words),
    ("deep", deep),
    ("shared", shared),
    ("programs", programs),
    ("disturbed", disturbed),
];

const ALL_WORDS: [u16; 32] = {
    let mut words = [0; 32];
    let mut n = 0;
    while n < 32 {
        words[n] = n as u16;
        n += 1;
    }
    words
};

fn every_kind() -> Vec<u8> {
    [&LEAVES[..], &OVER_ONE, &OVER_TWO, &[kind::WORD]].concat()
}

/// A list of four to six nodes, all choices equally likely.
pub fn sample(seed: u64, list: u64) -> Vec<Record> {
    let mut maker = Maker::new(Numbers::new(seed, list));
    let kinds = every_kind();
    for _ in 0..4 + maker.numbers.below(3) {
        maker.node(&kinds, &WORDS, false, Clashes::All);
    }
    maker.close();
    maker.records
}

/// A random list. Short ones are many; every fourth has the next length of all
/// up to 1,024; one in 64 fills the table. Left to chance, nearly every long
/// list has a cycle and shows no types, so in most lists cycles are left out.
pub fn random(seed: u64, list: u64) -> Vec<Record> {
    let mut maker = Maker::new(Numbers::new(seed, list));
    maker.acyclic = !maker.numbers.one_in(4);
    if list % 64 == 62 {
        full(&mut maker);
    } else {
        let length = match list % 4 {
            3 => 1 + (list / 4 * 389) as usize % MOST_NODES,
            2 => 1 + maker.numbers.below(128),
            _ => 1 + maker.numbers.below(32),
        };
        let (_, strategy) = maker.numbers.pick(&STRATEGIES);
        strategy(&mut maker, length);
    }
    maker.close();
    maker.records
}

/// Random lists of one strategy.
pub fn of_strategy(strategy: Strategy, seed: u64, list: u64) -> Vec<Record> {
    let mut maker = Maker::new(Numbers::new(seed, list));
    maker.acyclic = !maker.numbers.one_in(4);
    let length = 1 + maker.numbers.below(MOST_NODES);
    strategy(&mut maker, length);
    maker.close();
    maker.records
}

/// Mostly kept: clashing offers are left out, but for a few.
fn kept(maker: &mut Maker, length: usize) {
    let kinds = every_kind();
    let near = maker.numbers.one_in(2);
    for _ in 0..2 * length {
        if maker.kept() < length {
            maker.node(&kinds, &ALL_WORDS, near, Clashes::OneIn(20));
        }
    }
}

/// Whatever comes, and much that is already fixed.
fn clashing(maker: &mut Maker, length: usize) {
    let mut kinds = every_kind();
    kinds.extend([kind::WORD, kind::UNIT, kind::COMP, kind::CASE]);
    let near = maker.numbers.one_in(2);
    // Each clash makes the oracle begin again, so long lists are not all clashes.
    let clashes = match length {
        0..=64 => Clashes::All,
        _ => Clashes::OneIn(3),
    };
    for _ in 0..length {
        maker.node(&kinds, &[0, 0, 1, 1, 2, 8, 31], near, clashes);
    }
}

/// Sources equal to products of themselves.
fn cyclic(maker: &mut Maker, length: usize) {
    use kind::*;
    let kinds = [
        IDEN, IDEN, TAKE, DROP, PAIR, PAIR, COMP, CASE, INJL, INJR, WITNESS, ASSERTL,
    ];
    maker.acyclic = false;
    let near = maker.numbers.one_in(2);
    for _ in 0..length {
        maker.node(&kinds, &WORDS, near, Clashes::OneIn(8));
    }
}

/// Words, and what takes them apart.
fn words(maker: &mut Maker, length: usize) {
    use kind::*;
    let kinds = [
        WORD,
        WORD,
        WORD,
        UNIT,
        IDEN,
        TAKE,
        DROP,
        COMP,
        COMP,
        CASE,
        PAIR,
        PAIR,
        DISCONNECT,
        DISCONNECT_ONE,
        ASSERTL,
        ASSERTR,
        WITNESS,
    ];
    let near = maker.numbers.one_in(2);
    for _ in 0..length {
        maker.node(&kinds, &ALL_WORDS, near, Clashes::OneIn(4));
    }
}

/// Long runs of one kind over the last node, then joins between the runs.
fn deep(maker: &mut Maker, length: usize) {
    use kind::*;
    while maker.kept() < length && maker.has_room(length + 64) {
        maker.node(&[IDEN, UNIT, WITNESS, WORD], &WORDS, true, Clashes::All);
        let kind = maker
            .numbers
            .pick(&[INJL, INJR, TAKE, DROP, ASSERTL, ASSERTR, CASE, COMP]);
        let run = 1 + maker.numbers.below(length);
        for _ in 0..run {
            let last = maker.kept() as u16 - 1;
            let second = match OVER_TWO.contains(&kind) {
                true => last,
                false => 0,
            };
            let went = maker.kept() < length
                && maker.offer(Record::new(kind, last, second), Clashes::OneIn(3));
            if !went {
                break;
            }
        }
        for _ in 0..3 {
            maker.node(
                &[COMP, PAIR, CASE, DISCONNECT],
                &WORDS,
                false,
                Clashes::OneIn(3),
            );
        }
    }
}

/// Towers of pairs over one child, where a type is shared twice at each level,
/// and now and then a join of two of them.
fn shared(maker: &mut Maker, length: usize) {
    use kind::*;
    while maker.kept() < length && maker.has_room(length + 64) {
        maker.node(&[IDEN, WITNESS, WITNESS, UNIT], &WORDS, true, Clashes::All);
        for _ in 0..1 + maker.numbers.below(length.min(40)) {
            let last = maker.kept() as u16 - 1;
            maker.offer(Record::new(PAIR, last, last), Clashes::OneIn(3));
        }
        maker.node(
            &[COMP, CASE, PAIR, TAKE, DROP],
            &WORDS,
            false,
            Clashes::OneIn(3),
        );
        maker.node(
            &[COMP, COMP, WORD, DISCONNECT_ONE],
            &[0, 1, 2, 3, 8],
            true,
            Clashes::OneIn(3),
        );
    }
}

/// Like real programs: small expressions of constants and cases, composed.
fn programs(maker: &mut Maker, length: usize) {
    use kind::*;
    while maker.kept() < length && maker.has_room(length + 64) {
        let before = maker.kept() as u16;
        maker.node(
            &[UNIT, WORD, WORD, IDEN, WITNESS],
            &[0, 0, 3, 5, 8],
            true,
            Clashes::All,
        );
        maker.node(&[UNIT, IDEN, WORD], &[0, 0, 3, 5, 8], true, Clashes::All);
        for _ in 0..2 + maker.numbers.below(8) {
            let kinds = [
                TAKE, DROP, INJL, INJR, PAIR, PAIR, COMP, CASE, ASSERTL, ASSERTR,
            ];
            maker.node(&kinds, &WORDS, true, Clashes::OneIn(10));
        }
        if before > 0 {
            let node = Record::new(COMP, before - 1, maker.kept() as u16 - 1);
            maker.offer(node, Clashes::OneIn(10));
        }
    }
}

/// Take-backs, closings and refused records between the nodes.
fn disturbed(maker: &mut Maker, length: usize) {
    let kinds = every_kind();
    let near = maker.numbers.one_in(2);
    // The oracle begins again at each take-back and closing.
    let calm = (length / 16).max(4);
    for _ in 0..length {
        if maker.numbers.one_in(calm) {
            maker.close();
        }
        if maker.numbers.one_in(calm) {
            let from = maker.numbers.below(maker.kept() + 1);
            maker.back(from);
        }
        if maker.numbers.one_in(calm) {
            maker.refused();
        }
        maker.node(&kinds, &WORDS, near, Clashes::OneIn(4));
    }
}

/// To 1,024 nodes and past them, then back and on again.
fn full(maker: &mut Maker) {
    use kind::*;
    let mixes: [&[u8]; 5] = [
        &[IDEN, UNIT, WITNESS, FAIL, WORD],
        &[UNIT, INJL, INJR, TAKE, DROP],
        &[UNIT, CASE, COMP, ASSERTR, WITNESS],
        &[WITNESS, PAIR, TAKE, COMP, DISCONNECT_ONE],
        &[
            IDEN, WITNESS, WORD, UNIT, COMP, PAIR, CASE, DISCONNECT, INJL,
        ],
    ];
    let kinds = maker.numbers.pick(&mixes);
    let near = maker.numbers.one_in(2);
    let fill = |maker: &mut Maker| {
        for _ in 0..2 * MOST_NODES {
            if maker.kept() < MOST_NODES && maker.has_room(64) {
                maker.node(kinds, &WORDS, near, Clashes::OneIn(200));
            }
        }
        for _ in 0..1 + maker.numbers.below(5) {
            maker.node(kinds, &WORDS, near, Clashes::All);
        }
        maker.refused();
    };
    fill(maker);
    let some = maker.numbers.below(30);
    maker.back(MOST_NODES - 1 - some);
    fill(maker);
    if maker.numbers.one_in(4) {
        let count = maker.numbers.below(MOST_NODES);
        maker.back(count);
        fill(maker);
    }
}
