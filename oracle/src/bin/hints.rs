//! hints
//!
//! Holds the texts of the rules against the Rust's hints, byte for byte. Each
//! list below ends with a node that breaks a rule. The Rust says with which
//! hint; the static library says which rule it is, and writes that rule's text.
//! The hints that stand in the Rust's source are looked for too, so that none
//! is left out. Ends with 1 if two texts differ or a hint was not met.

// C's `main`, for the reason that `bench` gives.
#![no_main]

use std::collections::BTreeSet;

use oracle::answer::code;
use oracle::bench::ours::{rule_text, Prepared};
use oracle::offer::offer;
use oracle::record::Record;
use oracle::rules::hint;
use oracle::types::Context;
use oracle::words::from_words;

const LISTS: [&str; 7] = [
    "word 0; comp 0 0",
    "word 0; take 0; pair 0 1",
    "word 0; assertl 0",
    "word 0; assertr 0",
    "word 0; take 0; word 1; take 2; case 1 3",
    "word 8; disconnect 0",
    "unit; unit; disconnect 0 1",
];

/// Where the Rust's hints stand, and a word that each of them has.
const SOURCE: &str = include_str!("../../extract/types/arrow.rs");
const WORD: &str = " combinator: ";

/// The hint of the error that the Rust gives to the last node.
fn of_the_rust(nodes: &[Record]) -> &'static str {
    Context::with_context(|ctx| {
        let mut arrows = vec![];
        for node in nodes {
            match offer(&ctx, &arrows, node) {
                Ok(arrow) => arrows.push(arrow),
                Err(error) => return hint(&error),
            }
        }
        panic!("the Rust keeps every node");
    })
}

/// The rule that the library names for the last node, and its text.
fn ours(nodes: &[Record]) -> (u16, Vec<u8>) {
    let mut job = Prepared::new(nodes, false);
    job.run();
    let given = job.given();
    let last = given.answers.last().expect("an answer");
    assert_eq!(last.code, code::CLASH, "the library gives no clash");
    (last.first, rule_text(last.first))
}

/// The string literals of the source that are hints.
fn in_the_source() -> BTreeSet<&'static str> {
    let literals = SOURCE.split('"').skip(1).step_by(2);
    literals.filter(|text| text.contains(WORD)).collect()
}

#[no_mangle]
extern "C" fn main() -> i32 {
    let mut met = BTreeSet::new();
    let mut differ = 0;
    for list in LISTS {
        let nodes = from_words(list).expect("a list in words");
        let expected = of_the_rust(&nodes);
        let (rule, text) = ours(&nodes);
        let same = text == expected.as_bytes();
        println!("rule {rule}: {list}");
        println!("    Rust  {expected}");
        println!("    ours  {}", String::from_utf8_lossy(&text));
        let verdict = if same { "the same" } else { "DIFFERENT" };
        println!("    {verdict}, {} bytes", text.len());
        met.insert(expected);
        differ += i32::from(!same);
    }
    let source = in_the_source();
    println!(
        "hints: {} in the Rust's source, {} met, {} differ",
        source.len(),
        met.len(),
        differ
    );
    i32::from(differ != 0 || met != source)
}
