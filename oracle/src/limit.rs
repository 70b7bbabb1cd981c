//! A limit on the steps that one list may take.
//!
//! `bind` walks a complete type against shared unfinished ones part by part,
//! 2^k steps for k levels, so some lists would not end in a lifetime. Steps are
//! counted, and not seconds, so that a run gives the same answers everywhere.

use std::cell::Cell;
use std::panic::resume_unwind;

/// Carried by the unwinding that ends a list at its limit.
pub struct TooLong;

thread_local! {
    static LEFT: Cell<u64> = const { Cell::new(u64::MAX) };
}

/// Allows this thread so many steps from now on.
pub fn allow(steps: u64) {
    LEFT.set(steps);
}

/// How many steps are left.
pub fn left() -> u64 {
    LEFT.get()
}

/// Takes one step, or ends the list.
pub fn step() {
    match LEFT.get() {
        0 => resume_unwind(Box::new(TooLong)),
        left => LEFT.set(left - 1),
    }
}
