//! A host for the tests of the boundary: it lends buffers between marks, as long as the test says, and calls the functions as they are.

use super::{tsarovima_close, tsarovima_open, tsarovima_record, Parts, ENTRIES, LISTING_NUMBERS, LIVE, NODES, ROWS, TRAIL, WORK};
use std::vec;
use std::vec::Vec;

/// A number, and a byte, that no call writes by chance into a whole margin.
pub(super) const MARK: u16 = 0xA5C3;
pub(super) const BYTE: u8 = 0xA5;

/// Numbers on either side of a buffer that no call may touch. A length one too long reaches into them.
pub(super) const MARGIN: usize = 8;

/// Lengths of the numbers that a host lends, in the order of the calls: six tables, work, listing.
pub(super) const LENT: usize = 8;
pub(super) const EXACT: [usize; LENT] = [ENTRIES, ENTRIES, ROWS, TRAIL, NODES, LIVE, WORK, LISTING_NUMBERS];
pub(super) const TABLES: usize = 6;
pub(super) const PARENT: usize = 0;
pub(super) const TRAIL_AT: usize = 3;
pub(super) const NODES_AT: usize = 4;
pub(super) const LIVE_AT: usize = 5;
pub(super) const WORK_AT: usize = 6;
pub(super) const LISTING_INDEX: usize = 7;

/// What a host lends, and how long it says that each is.
#[derive(Clone, PartialEq)]
pub(super) struct Host {
    pub(super) numbers: [Vec<u16>; LENT],
    pub(super) said: [usize; LENT],
    pub(super) record: Vec<u8>,
    pub(super) record_said: usize,
    pub(super) answer: Vec<u8>,
    pub(super) answer_said: usize,
}

/// The buffers as the calls take them, each as long as is said.
fn lent(numbers: &mut [Vec<u16>; LENT], said: [usize; LENT]) -> Parts<'_> {
    let mut slices = numbers.iter_mut().zip(said).map(|(buffer, length)| &mut buffer[MARGIN..MARGIN + length]);
    let mut next = || slices.next().unwrap();
    Parts {
        parent: next(),
        rank: next(),
        rows: next(),
        trail: next(),
        nodes: next(),
        live: next(),
        work: next(),
        listing: next(),
    }
}

impl Host {
    pub(super) fn new() -> Host {
        Host {
            numbers: EXACT.map(|length| vec![MARK; length + 2 * MARGIN]),
            said: EXACT,
            record: vec![BYTE; 8 + 2 * MARGIN],
            record_said: 8,
            answer: vec![BYTE; 8 + 2 * MARGIN],
            answer_said: 8,
        }
    }

    pub(super) fn opened() -> Host {
        let mut host = Host::new();
        assert_eq!(host.open(), 0);
        host
    }

    pub(super) fn open(&mut self) -> u32 {
        let t = lent(&mut self.numbers, self.said);
        // SAFETY: each pointer and length are one slice, of a buffer of its own.
        unsafe { with_tables!(tsarovima_open, t) }
    }

    pub(super) fn put(&mut self, record: [u8; 8]) -> u32 {
        self.record[MARGIN..MARGIN + 8].copy_from_slice(&record);
        let t = lent(&mut self.numbers, self.said);
        let record = &self.record[MARGIN..MARGIN + self.record_said];
        let answer = &mut self.answer[MARGIN..MARGIN + self.answer_said];
        // SAFETY: as in `open`; where every length is right, the tables were opened.
        unsafe {
            with_tables!(
                tsarovima_record,
                t,
                t.work.as_mut_ptr(),
                t.work.len(),
                record.as_ptr(),
                record.len(),
                answer.as_mut_ptr(),
                answer.len(),
                t.listing.as_mut_ptr(),
                t.listing.len(),
            )
        }
    }

    pub(super) fn close(&mut self) -> u32 {
        let t = lent(&mut self.numbers, self.said);
        let answer = &mut self.answer[MARGIN..MARGIN + self.answer_said];
        // SAFETY: as in `put`.
        unsafe {
            with_tables!(
                tsarovima_close,
                t,
                t.work.as_mut_ptr(),
                t.work.len(),
                answer.as_mut_ptr(),
                answer.len(),
                t.listing.as_mut_ptr(),
                t.listing.len(),
            )
        }
    }

    pub(super) fn part(&self, which: usize) -> &[u16] {
        &self.numbers[which][MARGIN..MARGIN + EXACT[which]]
    }

    pub(super) fn answer(&self) -> [u8; 8] {
        let mut answer = [0; 8];
        answer.copy_from_slice(&self.answer[MARGIN..MARGIN + 8]);
        answer
    }

    /// Whether every margin is as it was made.
    pub(super) fn margins_stand(&self) -> bool {
        let numbers = self
            .numbers
            .iter()
            .zip(EXACT)
            .all(|(buffer, length)| buffer[..MARGIN].iter().chain(&buffer[MARGIN + length..]).all(|number| *number == MARK));
        let bytes = [&self.record, &self.answer]
            .iter()
            .all(|buffer| buffer[..MARGIN].iter().chain(&buffer[MARGIN + 8..]).all(|byte| *byte == BYTE));
        numbers && bytes
    }

    /// What is not working memory, which means nothing after a call.
    pub(super) fn meaning(&self) -> Host {
        let mut host = self.clone();
        host.numbers[WORK_AT].clear();
        host
    }
}
