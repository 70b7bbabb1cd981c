//! tower [SECONDS]
//!
//! Finds the smallest tower of pairs over a witness that takes the Rust more
//! than SECONDS (1) when it is joined to a word. For k levels the list is
//!
//!     witness; pair 0 0; pair 1 1; ... pair k-1 k-1; comp k 0; word k; comp k+2 0
//!
//! The first comp makes the tower the witness's source, the last one makes the
//! word the same source, and `bind` walks the word's 2^k leaves, though the
//! tower is only k products. Prints time, steps and answers for each k.

use std::process::exit;
use std::time::Instant;

use oracle::limit;
use oracle::record::{kind, Record};
use oracle::run::run;
use oracle::words::list_in_words;

const TRIES: usize = 3;
const LARGEST: u16 = 31;

fn main() {
    let limit = match std::env::args().nth(1).map(|text| text.parse::<f64>()) {
        None => 1.0,
        Some(Ok(seconds)) => seconds,
        Some(Err(_)) => {
            eprintln!("usage: tower [SECONDS]");
            exit(2)
        }
    };
    println!(" k  nodes       steps     seconds (best of {TRIES})");
    for k in 1..=LARGEST {
        let list = tower(k);
        let (seconds, steps) = best_time(&list);
        println!("{k:2}  {:5}  {steps:10}  {seconds:10.6}", list.len());
        if seconds > limit {
            println!("smallest over {limit} s: k = {k}\n{}", list_in_words(&list));
            return;
        }
    }
}

fn tower(k: u16) -> Vec<Record> {
    let mut list = vec![Record::new(kind::WITNESS, 0, 0)];
    list.extend((0..k).map(|level| Record::new(kind::PAIR, level, level)));
    list.push(Record::new(kind::COMP, k, 0));
    list.push(Record::new(kind::WORD, k, 0));
    list.push(Record::new(kind::COMP, k + 2, 0));
    list
}

/// The best time of a few, in seconds, and the steps that the Rust took.
fn best_time(list: &[Record]) -> (f64, u64) {
    let mut best = f64::INFINITY;
    for _ in 0..TRIES {
        let start = Instant::now();
        let answers = run(list, u64::MAX);
        best = best.min(start.elapsed().as_secs_f64());
        assert!(
            answers.answers.iter().all(|a| a.code == 0),
            "a node of the tower was refused"
        );
    }
    (best, u64::MAX - limit::left())
}
