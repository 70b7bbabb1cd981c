//! Type checking for Simplicity programs, over the static library of Tsarovima.
//!
//! A program is a list of combinator nodes. A [`Checker`] takes them one by one: each [`Node`] is kept, or refused with a
//! [`Refusal`] that leaves everything as it was. [`Checker::close`] works out the source and target type of every node kept, and
//! [`Checker::take_back`] goes back to an earlier count, so that one checker serves many programs. [`job`] does all this in one
//! call, on bytes.
//!
//! ```
//! use tsarovima::{Checker, Node};
//!
//! let mut checker = Checker::new();
//! let unit = checker.offer(Node::Unit)?.number;
//! let choice = checker.offer(Node::Case(unit, unit))?.number;
//! let listing = checker.close()?;
//! assert_eq!(listing.arrow(choice).unwrap().to_string(), "2 × 1 → 1");
//!
//! // A program that has no types is refused at the node that breaks a rule, and the rule is named.
//! let bit = checker.offer(Node::Word(0))?.number;
//! let refusal = checker.offer(Node::Comp(bit, bit)).unwrap_err();
//! assert_eq!(refusal.to_string(), "comp combinator: left target = right source");
//! # Ok::<(), Box<dyn std::error::Error>>(())
//! ```
//!
//! Without the feature `std` (a default) the crate is `no_std` and allocates nothing: lend a [`Tables`] to [`Checker::over`].
//!
//! Records, answers, jobs and listings are those of Tsarovima's `docs/FORMATS.md`, byte for byte. What its calls answer is proved,
//! in Rattle; this crate is not, and its README says where the line runs. All unsafe code is in one file, `src/boundary.rs`.

#![no_std]
#![deny(missing_docs, unsafe_code)]
#![warn(missing_debug_implementations, rust_2018_idioms)]

#[cfg(feature = "std")]
extern crate std;

mod answer;
#[allow(unsafe_code)]
mod boundary;
mod checker;
mod limits;
mod listing;
mod node;
mod refusal;
mod text;

/// The README's example is run with the others.
#[cfg(all(doctest, feature = "std"))]
#[doc = include_str!("../README.md")]
struct Readme;

pub use answer::Answer;
pub use boundary::{job, rule_text, Tables};
pub use checker::{Checker, Kept};
pub use limits::{LISTING_NUMBERS, MOST_ANSWER_BYTES, MOST_JOB_BYTES, MOST_NODES, MOST_RECORDS, MOST_WORD, RULE_TEXT_BYTES};
pub use listing::{Arrow, Arrows, Listing, Shape, Type, Types};
pub use node::{job_header, Node, Record};
pub use refusal::{Cycle, JobRefusal, MoreThanKept, Refusal, Rule, RuleText};
pub use text::{Definition, MOST_PARTS};
