//! The Rust's side of a timing: a fresh context, every node by its constructor
//! in `Arrow`, and, for a closing, `Arrow::finalize` on every node in order.
//!
//! Making the context is in the time. Dropping it, the arrows and the complete
//! types is told apart. Between two runs the stand-in for complete types gives
//! up what the run before made, outside the time, so each run makes its own.

use std::time::Duration;

use super::times::own_time;
use crate::offer::replay;
use crate::record::Record;
use crate::stand_ins::final_data::clear_shelf;
use crate::types::{Context, FinalArrow};

/// How long one run took, without and with the dropping.
#[derive(Copy, Clone)]
pub struct Took {
    pub kept: Duration,
    pub dropped: Duration,
}

/// Runs a list that the Rust keeps whole and that has no cycle.
///
/// # Panics
///
/// If the list is of another sort.
pub fn run(nodes: &[Record], closing: bool) -> Took {
    clear_shelf();
    let start = own_time();
    let kept = Context::with_context(|ctx| {
        let arrows = replay(&ctx, nodes);
        let mut complete: Vec<FinalArrow> = vec![];
        if closing {
            complete.reserve_exact(arrows.len());
            complete.extend(arrows.iter().map(|arrow| match arrow.finalize() {
                Ok(arrow) => arrow,
                Err(error) => panic!("a timed list has no types: {error}"),
            }));
        }
        own_time() - start
    });
    Took {
        kept,
        dropped: own_time() - start,
    }
}
