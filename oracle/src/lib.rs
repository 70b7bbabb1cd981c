//! The oracle: the Rust source of the `types` module, unchanged, asked what it
//! answers to document 01's lists of nodes.
//!
//! The extract's files are compiled from `extract/`, where the script `build`
//! puts them. They find what they lean on under the names that they use: the
//! modules and exports below, and this crate itself as `ghost_cell`.

extern crate self as ghost_cell;

#[allow(dead_code)]
#[rustfmt::skip]
#[path = "../extract/dag.rs"]
pub mod dag;

#[allow(dead_code, clippy::arc_with_non_send_sync)]
#[rustfmt::skip]
#[path = "../extract/types/mod.rs"]
pub mod types;

pub mod answer;
pub mod bench;
pub mod closing;
pub mod counts;
pub mod limit;
pub mod lists;
pub mod offer;
pub mod record;
pub mod rules;
pub mod run;
pub mod stand_ins;
pub mod stream;
pub mod words;

pub use stand_ins::ghost_cell::{GhostCell, GhostToken};
pub use stand_ins::tmr::Tmr;
pub use stand_ins::{jet, node, value};
