//! Lists in words, as document 01 writes them: `unit; case 0 0; close`.
//!
//! A record that no word can tell, or whose unused fields are not zero, is
//! `raw` and its eight bytes.

use crate::record::{fields, kind, Fields, Record};

const NAMES: [(&str, u8); 17] = [
    ("iden", kind::IDEN),
    ("unit", kind::UNIT),
    ("injl", kind::INJL),
    ("injr", kind::INJR),
    ("take", kind::TAKE),
    ("drop", kind::DROP),
    ("comp", kind::COMP),
    ("case", kind::CASE),
    ("assertl", kind::ASSERTL),
    ("assertr", kind::ASSERTR),
    ("pair", kind::PAIR),
    ("disconnect", kind::DISCONNECT),
    ("witness", kind::WITNESS),
    ("fail", kind::FAIL),
    ("word", kind::WORD),
    ("back", kind::TAKE_BACK),
    ("close", kind::CLOSE),
];

pub fn in_words(record: &Record) -> String {
    // Kinds 12 and 13 share their name; the number of children tells them apart.
    let named = match record.kind {
        kind::DISCONNECT_ONE => kind::DISCONNECT,
        other => other,
    };
    let plain = Record::new(record.kind, record.a, record.b) == *record;
    let name = NAMES.iter().find(|(_, k)| *k == named).filter(|_| plain);
    match (name, fields(record.kind), record.a, record.b) {
        (Some((name, _)), Fields::None, 0, 0) => name.to_string(),
        (Some((name, _)), Fields::Child | Fields::Word | Fields::Count, a, 0) => {
            format!("{name} {a}")
        }
        (Some((name, _)), Fields::Children, a, b) => format!("{name} {a} {b}"),
        _ => {
            let bytes = record.bytes().map(|byte| byte.to_string());
            format!("raw {}", bytes.join(" "))
        }
    }
}

pub fn list_in_words(records: &[Record]) -> String {
    let words: Vec<String> = records.iter().map(in_words).collect();
    words.join("; ")
}

/// The records of a list in words, or the part that is none.
pub fn from_words(text: &str) -> Result<Vec<Record>, String> {
    text.split(';')
        .map(str::trim)
        .filter(|part| !part.is_empty())
        .map(|part| one_from_words(part).ok_or_else(|| part.to_string()))
        .collect()
}

fn one_from_words(part: &str) -> Option<Record> {
    let mut words = part.split_whitespace();
    let name = words.next()?;
    let numbers: Vec<u16> = words.map(|w| w.parse().ok()).collect::<Option<_>>()?;
    if name == "raw" {
        let bytes: Vec<u8> = numbers
            .iter()
            .map(|n| u8::try_from(*n).ok())
            .collect::<Option<_>>()?;
        return Some(Record::from_bytes(bytes.try_into().ok()?));
    }
    let (_, named) = NAMES.iter().find(|(n, _)| *n == name)?;
    let kind = match (*named, numbers.len()) {
        (kind::DISCONNECT, 1) => kind::DISCONNECT_ONE,
        (other, _) => other,
    };
    let wanted = match fields(kind) {
        Fields::None => 0,
        Fields::Children => 2,
        _ => 1,
    };
    let number = |i: usize| numbers.get(i).copied().unwrap_or(0);
    (numbers.len() == wanted).then(|| Record::new(kind, number(0), number(1)))
}
