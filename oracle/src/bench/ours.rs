//! The other side of a timing: `tsarovima_job` of the static library, as its C
//! header declares it, on a job that was prepared before. `hints` asks it for the
//! texts of the rules.
//!
//! The call begins by clearing its own tables, which are on its stack, and that
//! is in the time. The buffers that it is lent are made once and not cleared.

use std::time::Duration;

use super::times::own_time;
use crate::answer::{Answer, Answers};
use crate::record::{kind, Record};
use crate::stream::{read_answers, write_job};

#[link(name = "tsarovima_c", kind = "static")]
extern "C" {
    fn tsarovima_job(
        job: *const u8,
        job_len: usize,
        answers: *mut u8,
        answers_len: usize,
        listing: *mut u16,
        listing_len: usize,
    ) -> u32;

    fn tsarovima_rule_text(rule: u16, text: *mut u8, text_len: usize) -> usize;
}

/// More than the longest text of a rule.
const TEXT: usize = 64;

/// The text that the library writes for a rule.
///
/// # Panics
///
/// If it has no room.
pub fn rule_text(rule: u16) -> Vec<u8> {
    let mut text = vec![0; TEXT];
    // SAFETY: pointer and length are one live vector's, and the call keeps neither.
    let length = unsafe { tsarovima_rule_text(rule, text.as_mut_ptr(), text.len()) };
    assert!(length <= TEXT, "a text of {length} bytes");
    text.truncate(length);
    text
}

/// The listing buffer that every job needs, in numbers.
const LISTING: usize = 26_727;

/// A job's bytes and the buffers for what it gives back.
pub struct Prepared {
    count: usize,
    job: Vec<u8>,
    answers: Vec<u8>,
    listing: Vec<u16>,
}

impl Prepared {
    /// The job that offers these nodes and, if asked, closes.
    pub fn new(nodes: &[Record], closing: bool) -> Self {
        let mut records = nodes.to_vec();
        if closing {
            records.push(Record::new(kind::CLOSE, 0, 0));
        }
        let mut job = vec![];
        write_job(&mut job, &records).expect("a vector takes every byte");
        Prepared {
            count: records.len(),
            job,
            // A buffer needs a pointer, even for no records.
            answers: vec![0; 8 * records.len().max(1)],
            listing: vec![0; LISTING],
        }
    }

    /// Runs the job and tells how long the call took.
    ///
    /// # Panics
    ///
    /// If the job itself is refused.
    pub fn run(&mut self) -> Duration {
        let start = own_time();
        // SAFETY: each pointer and length are one live vector's, no two of them
        // overlap, and the call keeps none of them.
        let code = unsafe {
            tsarovima_job(
                self.job.as_ptr(),
                self.job.len(),
                self.answers.as_mut_ptr(),
                self.answers.len(),
                self.listing.as_mut_ptr(),
                self.listing.len(),
            )
        };
        let took = own_time() - start;
        assert_eq!(code, 0, "the job is refused");
        took
    }

    /// What the last run gave back. Join counts are left out, as the oracle
    /// leaves them out.
    pub fn given(&self) -> Answers {
        let mut bytes = self.answers[..8 * self.count].to_vec();
        bytes.extend(self.listing.iter().flat_map(|number| number.to_le_bytes()));
        let mut given = read_answers(&mut &bytes[..], self.count).expect("answers and a listing");
        let nodes = self.job[16..].chunks_exact(8).map(|record| record[0]);
        for (answer, record) in given.answers.iter_mut().zip(nodes) {
            if answer.code == 0 && record != kind::CLOSE {
                *answer = Answer::new(0, answer.first, 0);
            }
        }
        given
    }
}
