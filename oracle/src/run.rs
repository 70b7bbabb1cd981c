//! A job run on the Rust: document 01's records in, its answers out.
//!
//! The Rust has no take-back, its failed offers leave the context half joined,
//! and its closing binds what was free. So a context serves until the first of
//! these, and the next is built from the nodes still kept. What the Rust cannot
//! say (codes 1, 2, 3 and 6, for it has no such limits) is answered here by
//! document 01; join counts are written as 0, for they are not the Rust's to
//! give.

use std::panic::{catch_unwind, AssertUnwindSafe};

use crate::answer::{code, Answer, Answers, EMPTY_LISTING, PANICKED, TOO_LONG};
use crate::closing::close;
use crate::limit::{self, TooLong};
use crate::offer::{offer, replay};
use crate::record::{kind, Record, MOST_NODES};
use crate::rules;
use crate::stand_ins::final_data::clear_shelf;
use crate::types::Context;

/// About two seconds.
pub const USUAL_STEPS: u64 = 16_000_000;

/// The answers to a job. If the Rust panics or passes the steps allowed, every
/// record is answered with the code that says so.
pub fn run(records: &[Record], steps: u64) -> Answers {
    limit::allow(steps);
    let answers = or_no_answer(records, || {
        let mut job = Job::new(records);
        while job.next < records.len() {
            Context::with_context(|ctx| job.run_in(&ctx));
        }
        Answers {
            answers: job.answers,
            listing: job.listing,
        }
    });
    clear_shelf();
    answers
}

/// What `ask` gives, or why it gives nothing. What it worked on is dropped, so
/// nothing that it left half done is seen again.
fn or_no_answer(records: &[Record], ask: impl FnOnce() -> Answers) -> Answers {
    catch_unwind(AssertUnwindSafe(ask)).unwrap_or_else(|cause| {
        let why = if cause.is::<TooLong>() {
            TOO_LONG
        } else {
            PANICKED
        };
        Answers {
            answers: vec![Answer::new(code::NONE, why, 0); records.len()],
            listing: EMPTY_LISTING.to_vec(),
        }
    })
}

/// A job on its way. `kept` outlives the contexts.
struct Job<'a> {
    records: &'a [Record],
    next: usize,
    kept: Vec<Record>,
    answers: Vec<Answer>,
    listing: Vec<u16>,
}

impl<'a> Job<'a> {
    fn new(records: &'a [Record]) -> Self {
        Job {
            records,
            next: 0,
            kept: vec![],
            answers: Vec::with_capacity(records.len()),
            listing: EMPTY_LISTING.to_vec(),
        }
    }

    fn answer(&mut self, code: u16, first: usize, second: usize) {
        self.answers
            .push(Answer::new(code, first as u16, second as u32));
        self.next += 1;
    }

    /// Goes on in this fresh context until it is used up or the job ends.
    fn run_in(&mut self, ctx: &Context) {
        let mut arrows = replay(ctx, &self.kept);
        let mut fresh = true;
        while let Some(record) = self.records.get(self.next) {
            if record.kind == kind::CLOSE && !fresh {
                return;
            }
            if record.kind == kind::CLOSE {
                self.listing = EMPTY_LISTING.to_vec();
            }
            let kept = self.kept.len();
            if !record.is_well_formed() {
                self.answer(code::MALFORMED, 0, 0);
            } else if record.kind == kind::CLOSE {
                match close(&arrows) {
                    Ok(listing) => {
                        self.answer(code::DONE, kept, listing[1] as usize);
                        self.listing = listing;
                    }
                    Err(node) => self.answer(code::CYCLE, node, 0),
                }
                return;
            } else if record.kind == kind::TAKE_BACK {
                let count = record.a as usize;
                if count > kept {
                    self.answer(code::TOO_FEW_KEPT, kept, 0);
                } else {
                    self.kept.truncate(count);
                    self.answer(code::DONE, count, 0);
                    return;
                }
            } else if kept == MOST_NODES {
                self.answer(code::FULL, 0, 0);
            } else if !record.has_children_below(kept) {
                self.answer(code::NO_SUCH_CHILD, 0, 0);
            } else {
                fresh = false;
                match offer(ctx, &arrows, record) {
                    Ok(arrow) => {
                        arrows.push(arrow);
                        self.kept.push(*record);
                        self.answer(code::DONE, kept, 0);
                    }
                    Err(error) => {
                        self.answer(code::CLASH, rules::broken(&error) as usize, 0);
                        return;
                    }
                }
            }
        }
    }
}

#[cfg(test)]
mod tests {
    use super::*;
    use crate::words::from_words;

    fn told(why: u16) -> Answers {
        Answers {
            answers: vec![Answer::new(code::NONE, why, 0); 2],
            listing: vec![0, 0, 4, 4],
        }
    }

    #[test]
    fn a_panic_is_told() {
        let records = from_words("unit; close").expect("a list");
        assert_eq!(
            or_no_answer(&records, || panic!("as the Rust might")),
            told(PANICKED)
        );
    }

    #[test]
    fn a_limit_is_told_and_the_next_job_is_not_touched() {
        let list = "witness; pair 0 0; pair 1 1; comp 2 0; word 2; comp 4 0; close";
        let records = from_words(list).expect("a list");
        // Three steps, and three again in the fresh context of the closing.
        let whole = run(&records, 6);
        assert!(whole.answers.iter().all(|a| a.code == code::DONE));
        let cut = run(&records, 5);
        assert!(cut
            .answers
            .iter()
            .all(|a| a.code == code::NONE && a.first == TOO_LONG));
        assert_eq!(cut.listing, EMPTY_LISTING);
        assert_eq!(run(&records, 6), whole);
    }
}
