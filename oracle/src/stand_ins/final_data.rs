//! Stands in for `types/final_data.rs`: complete types.
//!
//! The crate compares complete types by their hash, the type Merkle root. Here
//! every type is made once for each thread and has a number; equal numbers
//! mean equal types, exactly, and no comparison walks a tree.
//!
//! What it could hide: a collision of hashes; anything that the crate does with
//! a type's width in bits (which passes 2^64 for pairs of large words) or its
//! padding; its text; and time, for the crate computes a hash for each sum and
//! product where this looks one up in a table.

use std::cell::RefCell;
use std::collections::HashMap;
use std::fmt;
use std::hash::{Hash, Hasher};
use std::sync::Arc;

use super::precomputed::WORDS;
use super::tmr::Tmr;
use crate::limit;

/// Named by the extract's exports and used by no file of it that is compiled.
#[derive(Clone, Debug)]
pub struct TypeTooLargeError;

#[derive(Clone)]
pub enum CompleteBound {
    Unit,
    Sum(Arc<Final>, Arc<Final>),
    Product(Arc<Final>, Arc<Final>),
}

/// A complete type. Not to be carried from one thread to another: its number
/// means something only beside the types of its own thread.
pub struct Final {
    bound: CompleteBound,
    number: u32,
}

/// A type's shape over the numbers of its parts: 0 unit, 1 sum, 2 product.
type Shape = (u16, u32, u32);

/// All complete types of this thread, each once; a part stands before the whole.
struct Shelf {
    types: Vec<Arc<Final>>,
    numbers: HashMap<Shape, u32>,
}

/// Unit and the words stay on the shelf from one job to the next.
const STAYING: usize = 1 + WORDS;

thread_local! {
    static SHELF: RefCell<Shelf> = RefCell::new(Shelf::new());
}

impl Shelf {
    fn new() -> Self {
        let mut shelf = Shelf {
            types: vec![],
            numbers: HashMap::new(),
        };
        let unit = shelf.put(CompleteBound::Unit);
        let mut word = shelf.put(CompleteBound::Sum(Arc::clone(&unit), unit));
        for _ in 1..WORDS {
            word = shelf.put(CompleteBound::Product(Arc::clone(&word), word));
        }
        shelf
    }

    fn put(&mut self, bound: CompleteBound) -> Arc<Final> {
        let next = self.types.len() as u32;
        let number = *self.numbers.entry(bound.shape()).or_insert(next);
        if number == next {
            self.types.push(Arc::new(Final { bound, number }));
        }
        Arc::clone(&self.types[number as usize])
    }
}

/// Takes from the shelf what the last job made.
pub fn clear_shelf() {
    SHELF.with_borrow_mut(|shelf| {
        while shelf.types.len() > STAYING {
            if let Some(last) = shelf.types.pop() {
                shelf.numbers.remove(&last.bound.shape());
            }
        }
    });
}

/// The type 2^(2^n).
pub(super) fn word(n: usize) -> Arc<Final> {
    assert!(n < WORDS);
    SHELF.with_borrow(|shelf| Arc::clone(&shelf.types[1 + n]))
}

impl CompleteBound {
    pub fn shape(&self) -> Shape {
        match self {
            CompleteBound::Unit => (0, 0, 0),
            CompleteBound::Sum(left, right) => (1, left.number, right.number),
            CompleteBound::Product(left, right) => (2, left.number, right.number),
        }
    }
}

impl Final {
    pub fn unit() -> Arc<Self> {
        SHELF.with_borrow(|shelf| Arc::clone(&shelf.types[0]))
    }

    pub fn sum(left: Arc<Self>, right: Arc<Self>) -> Arc<Self> {
        SHELF.with_borrow_mut(|shelf| shelf.put(CompleteBound::Sum(left, right)))
    }

    pub fn product(left: Arc<Self>, right: Arc<Self>) -> Arc<Self> {
        SHELF.with_borrow_mut(|shelf| shelf.put(CompleteBound::Product(left, right)))
    }

    pub fn tmr(&self) -> Tmr {
        Tmr(self.number)
    }

    pub fn is_unit(&self) -> bool {
        matches!(self.bound, CompleteBound::Unit)
    }

    /// `bind` calls this for each step that it takes into a complete type, so
    /// here the steps of a list are counted.
    pub fn bound(&self) -> &CompleteBound {
        limit::step();
        &self.bound
    }

    /// The bound, for those who are not counted.
    pub fn parts(&self) -> &CompleteBound {
        &self.bound
    }

    /// The type's number on its thread's shelf.
    pub fn number(&self) -> u32 {
        self.number
    }
}

impl PartialEq for Final {
    fn eq(&self, other: &Self) -> bool {
        self.number == other.number
    }
}

impl Eq for Final {}

impl PartialOrd for Final {
    fn partial_cmp(&self, other: &Self) -> Option<std::cmp::Ordering> {
        Some(self.cmp(other))
    }
}

impl Ord for Final {
    fn cmp(&self, other: &Self) -> std::cmp::Ordering {
        self.number.cmp(&other.number)
    }
}

impl Hash for Final {
    fn hash<H: Hasher>(&self, state: &mut H) {
        self.number.hash(state)
    }
}

/// The number alone: a type's text can be longer than any memory.
impl fmt::Debug for Final {
    fn fmt(&self, f: &mut fmt::Formatter) -> fmt::Result {
        write!(f, "t{}", self.number)
    }
}

impl fmt::Display for Final {
    fn fmt(&self, f: &mut fmt::Formatter) -> fmt::Result {
        write!(f, "t{}", self.number)
    }
}
