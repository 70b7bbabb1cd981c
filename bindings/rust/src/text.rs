//! Types in words. A type is a shared structure: a word of n = 31 would have 2^32 ones if all were written out. So only what is
//! small is, and the rest is named by number.

use crate::limits::MOST_WORD;
use crate::listing::{Arrow, Listing, Shape, Type};
use core::fmt;

/// Parts, each 1 or a word, that a type's text has at most. A type of more is written as its number.
///
/// ```
/// use tsarovima::{Checker, Node, MOST_PARTS};
/// let mut checker = Checker::new();
/// checker.offer(Node::Unit)?;
/// for n in 0..MOST_PARTS as u16 {
///     checker.offer(Node::Pair(n, 0))?;
/// }
/// let listing = checker.close().unwrap();
/// let text = |node| listing.arrow(node).unwrap().target.to_string();
/// assert!(text(MOST_PARTS as u16 - 1).ends_with(" × 1"));
/// assert!(text(MOST_PARTS as u16).starts_with('t'));
/// # Ok::<(), tsarovima::Refusal>(())
/// ```
pub const MOST_PARTS: usize = 32;

/// Of what a type is made, one step down: what [`Type::definition`] gives.
///
/// ```
/// let listing = tsarovima::Listing::read(&[0, 2, 4, 10, 0, 0, 0, 2, 0, 0]).unwrap();
/// assert_eq!(listing.numbered(1).unwrap().definition().to_string(), "1 × 1");
/// ```
#[derive(Clone, Copy, Debug)]
pub struct Definition<'a>(Type<'a>);

impl<'a> Type<'a> {
    /// Of what it is made, one step down, to be written: `t16 × t16`. Parts are written as they are by themselves.
    ///
    /// ```
    /// use tsarovima::{Checker, Node};
    /// let mut checker = Checker::new();
    /// checker.offer(Node::Word(31))?;
    /// checker.offer(Node::Pair(0, 0))?;
    /// let listing = checker.close().unwrap();
    /// let definition = listing.arrow(1).unwrap().target.definition().to_string();
    /// assert_eq!(definition, "2^2147483648 × 2^2147483648");
    /// # Ok::<(), tsarovima::Refusal>(())
    /// ```
    pub fn definition(&self) -> Definition<'a> {
        Definition(*self)
    }

    /// Whether its text has at most [`MOST_PARTS`] parts, and is written in full.
    ///
    /// ```
    /// let listing = tsarovima::Listing::read(&[0, 1, 4, 7, 0, 0, 0]).unwrap();
    /// assert!(listing.numbered(0).unwrap().is_small());
    /// ```
    pub fn is_small(&self) -> bool {
        left_after(*self, MOST_PARTS).is_some()
    }
}

/// How many parts are left of so many once the type is written, or `None` if they do not suffice. Every step down leaves a part
/// for the other side, so neither the time nor the depth is more than the parts.
fn left_after(of: Type<'_>, parts: usize) -> Option<usize> {
    if parts == 0 {
        return None;
    }
    match of.shape() {
        Shape::Sum(left, right) | Shape::Product(left, right) if word(of).is_none() => {
            let left = left_after(left, parts - 1)?;
            left_after(right, left + 1)
        }
        _ => Some(parts - 1),
    }
}

/// The n of 2^(2^n). Each type stands once, so a square's two parts have one number.
fn word(of: Type<'_>) -> Option<u16> {
    let mut at = of;
    for n in 0..=MOST_WORD {
        at = match at.shape() {
            Shape::Product(left, right) if left.number() == right.number() => left,
            Shape::Sum(left, right) => {
                let two = matches!((left.shape(), right.shape()), (Shape::Unit, Shape::Unit));
                return if two { Some(n) } else { None };
            }
            _ => return None,
        };
    }
    None
}

/// Writes a type in full: the caller has seen that it is small.
fn write_full(of: Type<'_>, f: &mut fmt::Formatter<'_>) -> fmt::Result {
    match (word(of), of.shape()) {
        (Some(0), _) => f.write_str("2"),
        (Some(n), _) => write!(f, "2^{}", 1u64 << n),
        (_, Shape::Unit) => f.write_str("1"),
        (_, Shape::Sum(left, right)) => write_two(left, " + ", right, f),
        (_, Shape::Product(left, right)) => write_two(left, " × ", right, f),
    }
}

fn write_two(left: Type<'_>, between: &str, right: Type<'_>, f: &mut fmt::Formatter<'_>) -> fmt::Result {
    write_part(left, f)?;
    f.write_str(between)?;
    write_part(right, f)
}

/// A part of a type stands in brackets if it has parts of its own that are written.
fn write_part(of: Type<'_>, f: &mut fmt::Formatter<'_>) -> fmt::Result {
    let atom = matches!(of.shape(), Shape::Unit) || word(of).is_some() || !of.is_small();
    if atom {
        return of.fmt_plain(f);
    }
    f.write_str("(")?;
    write_full(of, f)?;
    f.write_str(")")
}

impl Type<'_> {
    fn fmt_plain(self, f: &mut fmt::Formatter<'_>) -> fmt::Result {
        if self.is_small() {
            write_full(self, f)
        } else {
            write!(f, "t{}", self.number())
        }
    }
}

impl fmt::Display for Type<'_> {
    fn fmt(&self, f: &mut fmt::Formatter<'_>) -> fmt::Result {
        self.fmt_plain(f)
    }
}

impl fmt::Display for Definition<'_> {
    fn fmt(&self, f: &mut fmt::Formatter<'_>) -> fmt::Result {
        match self.0.shape() {
            Shape::Unit => f.write_str("1"),
            Shape::Sum(left, right) => write_two(left, " + ", right, f),
            Shape::Product(left, right) => write_two(left, " × ", right, f),
        }
    }
}

impl fmt::Display for Arrow<'_> {
    fn fmt(&self, f: &mut fmt::Formatter<'_>) -> fmt::Result {
        write!(f, "{} → {}", self.source, self.target)
    }
}

/// A line for each type that is too large to be written where it stands, then one for each node.
impl fmt::Display for Listing<'_> {
    fn fmt(&self, f: &mut fmt::Formatter<'_>) -> fmt::Result {
        for large in self.types().filter(|each| !each.is_small()) {
            writeln!(f, "t{} = {}", large.number(), large.definition())?;
        }
        for (node, arrow) in self.arrows().enumerate() {
            writeln!(f, "n{}: {}", node, arrow)?;
        }
        Ok(())
    }
}
