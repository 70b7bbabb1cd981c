//! The seven rules, and which of them an error of the Rust names.

use crate::types::Error;

/// Document 01's texts, rule 1 first.
pub const TEXTS: [&str; 7] = [
    "comp combinator: left target = right source",
    "pair combinator: left source = right source",
    "case combinator: left source = A × C",
    "case combinator: left source = B × C",
    "case combinator: left target = right target",
    "disconnect combinator: left source = 2^256 × A",
    "disconnect combinator: left target = B × C",
];

/// The number of the rule whose text the error gives as its hint.
///
/// # Panics
///
/// If the error is of another sort or its hint is none of the seven; the
/// oracle then reports a panic, for document 01 has no answer to give.
pub fn broken(error: &Error) -> u16 {
    let hint = hint(error);
    match TEXTS.iter().position(|text| *text == hint) {
        Some(index) => index as u16 + 1,
        None => panic!("a hint that is no rule's text: {hint}"),
    }
}

/// The error's hint.
///
/// # Panics
///
/// If the error is of another sort.
pub fn hint(error: &Error) -> &'static str {
    match error {
        Error::Bind { hint, .. } | Error::CompleteTypeMismatch { hint, .. } => hint,
        other => panic!("an offer met an error that is no clash: {other}"),
    }
}
