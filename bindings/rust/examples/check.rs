//! Checks one program and prints its types.
//!
//! The program pays out to one of two keys: a witness bit says which, and the whole is of type 1 to 1, as a program that coins are
//! signed into has to be.

use std::error::Error;
use tsarovima::{Checker, Node};

fn main() -> Result<(), Box<dyn Error>> {
    let mut checker = Checker::new();

    let bit = checker.offer(Node::Witness)?.number;
    let unit = checker.offer(Node::Unit)?.number;
    let choice = checker.offer(Node::Pair(bit, unit))?.number;
    let first_key = checker.offer(Node::Word(8))?.number;
    let ignore = checker.offer(Node::Unit)?.number;
    let first = checker.offer(Node::Comp(ignore, first_key))?.number;
    let second_key = checker.offer(Node::Word(8))?.number;
    let ignore = checker.offer(Node::Unit)?.number;
    let second = checker.offer(Node::Comp(ignore, second_key))?.number;
    let either = checker.offer(Node::Case(first, second))?.number;
    let key = checker.offer(Node::Comp(choice, either))?.number;
    let end = checker.offer(Node::Unit)?.number;
    let program = checker.offer(Node::Comp(key, end))?.number;

    let listing = checker.close()?;
    print!("{}", listing);
    println!("the program: {}", listing.arrow(program).ok_or("not listed")?);
    Ok(())
}
