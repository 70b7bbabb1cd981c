//! Stands in for `value::Word`, a constant with its bits: only n is kept, and
//! inference reads nothing else.
//!
//! What it could hide: nothing about types; a word's bits are outside.

pub struct Word {
    n: usize,
}

impl Word {
    /// A word of 2^n bits.
    pub fn of(n: usize) -> Self {
        Word { n }
    }

    pub fn n(&self) -> usize {
        self.n
    }
}
