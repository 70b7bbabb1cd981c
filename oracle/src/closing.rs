//! A closing: the Rust finalizes every arrow in order, and the complete types
//! are gathered in the order of document 01's listing.

use std::collections::HashMap;
use std::sync::Arc;

use crate::types::{Arrow, CompleteBound, Error, Final};

/// The listing's numbers for these arrows, or the first node whose source or
/// target the Rust's occurs check finds endless.
///
/// The Rust binds what was free to unit, so the context is used up.
pub fn close(arrows: &[Arrow]) -> Result<Vec<u16>, usize> {
    let mut listed = Listed::default();
    let mut pairs = Vec::with_capacity(2 * arrows.len());
    for (node, arrow) in arrows.iter().enumerate() {
        match arrow.finalize() {
            Ok(complete) => {
                pairs.push(listed.number(&complete.source));
                pairs.push(listed.number(&complete.target));
            }
            Err(Error::OccursCheck { .. }) => return Err(node),
            Err(other) => panic!("a closing met an error that is no cycle: {other}"),
        }
    }
    let types = listed.triples.len() / 3;
    let mut listing = vec![arrows.len() as u16, types as u16, 4, 4 + 3 * types as u16];
    listing.extend(listed.triples);
    listing.extend(pairs);
    Ok(listing)
}

/// The types met so far, each once, parts before wholes.
#[derive(Default)]
struct Listed {
    triples: Vec<u16>,
    numbers: HashMap<u32, u16>,
}

impl Listed {
    /// The type's number in the listing, entering it and its parts, left
    /// before right, where they are new. Equal types have one number on their
    /// shelf, so what was entered is never walked again.
    fn number(&mut self, complete: &Arc<Final>) -> u16 {
        if let Some(&number) = self.numbers.get(&complete.number()) {
            return number;
        }
        let triple = match complete.parts() {
            CompleteBound::Unit => [0, 0, 0],
            CompleteBound::Sum(left, right) => [1, self.number(left), self.number(right)],
            CompleteBound::Product(left, right) => [2, self.number(left), self.number(right)],
        };
        let number = (self.triples.len() / 3) as u16;
        self.triples.extend(triple);
        self.numbers.insert(complete.number(), number);
        number
    }
}
