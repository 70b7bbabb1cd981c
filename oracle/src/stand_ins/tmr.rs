//! Stands in for `Tmr`, a type's Merkle root: the number that the stand-in of
//! `Final` gives the type.
//!
//! What it could hide: hashes are outside this comparison altogether.

#[derive(Copy, Clone, PartialEq, Eq, PartialOrd, Ord, Debug, Hash)]
pub struct Tmr(pub u32);
