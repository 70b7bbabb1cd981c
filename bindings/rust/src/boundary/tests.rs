//! Each function of the boundary, called with each length at its limit: one short, exact, one long. Every buffer lies between
//! marks, and what a call must leave alone is compared with what was there before.

use super::host::{Host, BYTE, EXACT, LISTING_INDEX, LIVE_AT, MARGIN, MARK, NODES_AT, PARENT, TABLES, TRAIL_AT, WORK_AT};
use super::{job, rule_text, JobRefusal, LISTING_NUMBERS};
use crate::RULE_TEXT_BYTES;
use std::vec;
use std::vec::Vec;

const UNIT: [u8; 8] = [2, 0, 0, 0, 0, 0, 0, 0];
const CASE: [u8; 8] = [8, 0, 0, 0, 0, 0, 0, 0];
const COMP: [u8; 8] = [7, 0, 0, 0, 0, 0, 0, 0];
const WORD: [u8; 8] = [16, 0, 0, 0, 0, 0, 0, 0];
const CLOSE: [u8; 8] = [65, 0, 0, 0, 0, 0, 0, 0];

/// One short and one long.
const OFF: [isize; 2] = [-1, 1];

fn off(length: usize, by: isize) -> usize {
    (length as isize + by) as usize
}

#[test]
fn open_refuses_each_wrong_length_and_writes_nothing() {
    for (which, exact) in EXACT.into_iter().enumerate().take(TABLES) {
        for by in OFF {
            let mut host = Host::new();
            host.said[which] = off(exact, by);
            let before = host.clone();
            assert_eq!(host.open(), 1, "table {} by {}", which, by);
            assert!(host == before, "table {} by {}", which, by);
        }
    }
}

#[test]
fn open_refuses_lengths_of_nothing() {
    for which in 0..TABLES {
        let mut host = Host::new();
        host.said[which] = 0;
        let before = host.clone();
        assert_eq!(host.open(), 1);
        assert!(host == before);
    }
}

#[test]
fn open_makes_a_fresh_state_of_whatever_is_lent() {
    let mut host = Host::new();
    assert_eq!(host.open(), 0);
    assert!(host.margins_stand());
    assert_eq!(host.part(LIVE_AT), [33, 0, 0]);
    // parent: each of the 33 entries is its own, and 0 past them; trail and nodes are 0
    assert!(host.part(PARENT).iter().enumerate().all(|(at, p)| usize::from(*p) == if at < 33 { at } else { 0 }));
    assert!(host.part(TRAIL_AT).iter().chain(host.part(NODES_AT)).all(|number| *number == 0));
    // work and listing are no part of opening
    assert!(host.part(WORK_AT).iter().chain(host.part(LISTING_INDEX)).all(|number| *number == MARK));

    // and whatever a state held before, opening gives the same tables
    let fresh = host.clone();
    for record in [UNIT, CASE, WORD] {
        assert_eq!(host.put(record), 0);
    }
    assert!(host.numbers[..TABLES] != fresh.numbers[..TABLES]);
    assert_eq!(host.open(), 0);
    assert!(host.numbers[..TABLES] == fresh.numbers[..TABLES]);
}

/// A host with each wrong length of what the record calls look at: a table one short, one long and of nothing; work, listing and
/// answer one short. One more for each, whose tables were never opened: a wrong length asks nothing of them.
fn wrongly_long() -> Vec<Host> {
    let mut wrong = Vec::new();
    for made in [Host::opened, Host::new] {
        for (which, exact) in EXACT.into_iter().enumerate() {
            let table = which < TABLES;
            for length in [exact - 1, exact + 1, 0].into_iter().take(if table { 3 } else { 1 }) {
                let mut host = made();
                host.said[which] = length;
                wrong.push(host);
            }
        }
        let mut host = made();
        host.answer_said = 7;
        wrong.push(host);
    }
    wrong
}

#[test]
fn record_refuses_each_wrong_length_and_writes_nothing() {
    let mut wrong = wrongly_long();
    for made in [Host::opened, Host::new] {
        let mut host = made();
        host.record_said = 7;
        wrong.push(host);
    }
    for host in &mut wrong {
        for record in [UNIT, CLOSE] {
            host.record[MARGIN..MARGIN + 8].copy_from_slice(&record);
            let before = host.clone();
            assert_eq!(host.put(record), 1);
            assert!(*host == before);
        }
    }
}

#[test]
fn record_takes_exact_and_longer_buffers_and_stays_inside() {
    let mut exact = Host::opened();
    assert_eq!(exact.put(UNIT), 0);
    assert!(exact.margins_stand());
    assert_eq!(exact.answer(), [0; 8]);
    assert!(exact.part(LISTING_INDEX).iter().all(|number| *number == MARK));

    let mut long = Host::opened();
    long.said[WORK_AT] += 1;
    long.said[LISTING_INDEX] += 1;
    long.record_said += 1;
    long.answer_said += 1;
    assert_eq!(long.put(UNIT), 0);
    assert!(long.margins_stand());
    assert!(long.numbers[..TABLES] == exact.numbers[..TABLES]);
    assert_eq!(long.answer, exact.answer);
}

#[test]
fn a_refused_record_leaves_the_very_tables() {
    let mut host = Host::opened();
    assert_eq!(host.put(WORD), 0);
    let before = host.clone();
    let refused = [
        (COMP, [4, 0, 1, 0, 0, 0, 0, 0]),
        ([7, 0, 1, 0, 0, 0, 0, 0], [2, 0, 0, 0, 0, 0, 0, 0]),
        ([16, 0, 32, 0, 0, 0, 0, 0], [1, 0, 0, 0, 0, 0, 0, 0]),
        ([255; 8], [1, 0, 0, 0, 0, 0, 0, 0]),
        ([64, 0, 2, 0, 0, 0, 0, 0], [6, 0, 1, 0, 0, 0, 0, 0]),
    ];
    for (record, answer) in refused {
        assert_eq!(host.put(record), 0);
        assert_eq!(host.answer(), answer);
        assert!(host.numbers[..TABLES] == before.numbers[..TABLES]);
        assert!(host.numbers[LISTING_INDEX] == before.numbers[LISTING_INDEX]);
        assert!(host.margins_stand());
    }
}

#[test]
fn close_refuses_each_wrong_length_and_writes_nothing() {
    for mut host in wrongly_long() {
        let before = host.clone();
        assert_eq!(host.close(), 1);
        assert!(host == before);
    }
}

#[test]
fn close_writes_the_listing_and_not_past_it() {
    let listing = [2, 4, 4, 16, 0, 0, 0, 2, 0, 0, 1, 0, 0, 2, 2, 0, 1, 0, 3, 0];
    for long in [0, 1] {
        let mut host = Host::opened();
        assert_eq!((host.put(UNIT), host.put(CASE)), (0, 0));
        let tables = host.numbers[..TABLES].to_vec();
        host.said[WORK_AT] += long;
        host.said[LISTING_INDEX] += long;
        host.answer_said += long;
        assert_eq!(host.close(), 0);
        assert_eq!(host.answer(), [0, 0, 2, 0, 4, 0, 0, 0]);
        assert_eq!(host.part(LISTING_INDEX)[..20], listing);
        assert!(host.part(LISTING_INDEX)[20..].iter().all(|number| *number == MARK));
        assert!(host.numbers[..TABLES] == tables);
        assert!(host.margins_stand());
    }
}

#[test]
fn close_is_the_record_of_kind_65() {
    let lists: [&[[u8; 8]]; 3] =
        [&[], &[UNIT, CASE], &[[1, 0, 0, 0, 0, 0, 0, 0], [5, 0, 0, 0, 0, 0, 0, 0], [11, 0, 0, 0, 1, 0, 0, 0]]];
    for list in lists {
        let mut one = Host::opened();
        for record in list {
            assert_eq!(one.put(*record), 0);
        }
        let mut other = one.clone();
        assert_eq!((one.close(), other.put(CLOSE)), (0, 0));
        other.record = one.record.clone();
        assert!(one.meaning() == other.meaning());
    }
}

#[test]
fn the_longest_state_stays_inside_its_tables() {
    let mut host = Host::opened();
    assert_eq!(host.put(UNIT), 0);
    for _ in 1..1024 {
        assert_eq!(host.put(CASE), 0);
        assert_eq!(host.answer()[..2], [0, 0]);
    }
    assert_eq!(host.put(CASE), 0);
    assert_eq!(host.answer(), [3, 0, 0, 0, 0, 0, 0, 0]);
    assert_eq!(host.close(), 0);
    assert_eq!(host.answer()[..4], [0, 0, 0, 4]);
    assert!(host.margins_stand());
}

#[test]
fn job_looks_at_each_length() {
    let bytes: Vec<u8> = [1, 2, 16, 32].iter().flat_map(|n: &u32| n.to_le_bytes()).chain(UNIT).chain(CLOSE).collect();
    // length of the job, of the answers, of the listing, and the code
    let exact = (bytes.len(), 16, LISTING_NUMBERS, 0);
    let cases = [
        (0, 16, LISTING_NUMBERS, 16),
        (15, 16, LISTING_NUMBERS, 16),
        (16, 16, LISTING_NUMBERS, 20),
        (31, 16, LISTING_NUMBERS, 20),
        exact,
        (33, 16, LISTING_NUMBERS, 20),
        (32, 0, LISTING_NUMBERS, 21),
        (32, 15, LISTING_NUMBERS, 21),
        (32, 17, LISTING_NUMBERS, 0),
        (32, 16, 0, 22),
        (32, 16, LISTING_NUMBERS - 1, 22),
        (32, 16, LISTING_NUMBERS + 1, 0),
    ];
    let long: Vec<u8> = bytes.iter().copied().chain([0]).collect();
    for (job_length, answers_said, listing_said, code) in cases {
        let mut answers = [BYTE; 17 + 2 * MARGIN];
        let mut listing = vec![MARK; LISTING_NUMBERS + 1 + 2 * MARGIN];
        let lent = (&mut answers[MARGIN..MARGIN + answers_said], &mut listing[MARGIN..MARGIN + listing_said]);
        let outcome = job(&long[..job_length], lent.0, lent.1);
        assert_eq!(outcome.map_or_else(JobRefusal::code, |()| 0), code);
        let (written, numbers) = if code == 0 { (16, 9) } else { (0, 0) };
        assert!(answers[..MARGIN].iter().chain(&answers[MARGIN + written..]).all(|byte| *byte == BYTE));
        assert!(listing[..MARGIN].iter().chain(&listing[MARGIN + numbers..]).all(|number| *number == MARK));
        if code == 0 {
            assert_eq!(answers[MARGIN..MARGIN + 16], [0, 0, 0, 0, 0, 0, 0, 0, 0, 0, 1, 0, 1, 0, 0, 0]);
            assert_eq!(listing[MARGIN..MARGIN + 9], [1, 1, 4, 7, 0, 0, 0, 0, 0]);
        }
    }
}

#[test]
fn job_of_nothing_lends_nothing() {
    let bytes: Vec<u8> = [1, 0, 16, 16].iter().flat_map(|n: &u32| n.to_le_bytes()).collect();
    let mut listing = vec![MARK; LISTING_NUMBERS];
    assert_eq!(job(&bytes, &mut [], &mut listing), Ok(()));
    assert_eq!(listing[..5], [0, 0, 4, 4, MARK]);
}

#[test]
fn a_rules_text_is_written_whole_or_not_at_all() {
    for rule in (0..12).chain([256, 257, u16::MAX]) {
        let mut whole = [BYTE; RULE_TEXT_BYTES];
        let length = rule_text(rule, &mut whole);
        assert_eq!(length == 0, !(1..=7).contains(&rule), "rule {}", rule);
        for room in 0..=RULE_TEXT_BYTES + 1 {
            let mut lent = vec![BYTE; room + 2 * MARGIN];
            let mut expected = lent.clone();
            if length <= room {
                expected[MARGIN..MARGIN + length].copy_from_slice(&whole[..length]);
            }
            assert_eq!(rule_text(rule, &mut lent[MARGIN..MARGIN + room]), length, "rule {} room {}", rule, room);
            assert!(lent == expected, "rule {} room {}", rule, room);
        }
    }
}
