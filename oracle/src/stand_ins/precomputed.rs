//! Stands in for `types/precomputed.rs`: the types 2^(2^n).
//!
//! What it could hide: a wrong table in the crate, for this one is computed by
//! squaring, as document 01 says.

use std::sync::Arc;

use super::final_data::{word, Final};

/// n = 0 to 31.
pub const WORDS: usize = 32;

pub fn nth_power_of_2(n: usize) -> Arc<Final> {
    word(n)
}
