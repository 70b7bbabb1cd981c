//! Writes streams of jobs:
//!
//! lists all N                    all lists of up to N nodes
//! lists sample N SEED            N lists of four to six nodes
//! lists random N SEED            N lists of every length and strategy
//! lists strategy NAME N SEED     N lists of one strategy
//! lists words "unit; close"      one job, a list in words
//!
//! The same arguments give the same bytes.

use std::io::{self, BufWriter, Write};
use std::process::exit;

use oracle::lists::all::write_all;
use oracle::lists::random::{of_strategy, random, sample, STRATEGIES};
use oracle::record::Record;
use oracle::stream::write_job;
use oracle::words::from_words;

fn main() {
    let arguments: Vec<String> = std::env::args().skip(1).collect();
    let words: Vec<&str> = arguments.iter().map(String::as_str).collect();
    let mut output = BufWriter::with_capacity(1 << 16, io::stdout());
    match write(&mut output, &words).and_then(|()| output.flush()) {
        Ok(()) => {}
        // The reader has had enough.
        Err(error) if error.kind() == io::ErrorKind::BrokenPipe => {}
        Err(error) => {
            eprintln!("lists: {error}");
            exit(1)
        }
    }
}

fn write(output: &mut impl Write, arguments: &[&str]) -> io::Result<()> {
    match arguments {
        ["all", most] => write_all(output, number(most) as usize),
        ["sample", count, seed] => write_each(output, count, seed, sample),
        ["random", count, seed] => write_each(output, count, seed, random),
        ["strategy", name, count, seed] => {
            match STRATEGIES.iter().find(|(known, _)| known == name) {
                Some((_, strategy)) => write_each(output, count, seed, |seed, list| {
                    of_strategy(*strategy, seed, list)
                }),
                None => usage(),
            }
        }
        ["words", text] => match from_words(text) {
            Ok(records) => write_job(output, &records),
            Err(part) => {
                eprintln!("lists: no record: {part}");
                exit(2)
            }
        },
        _ => usage(),
    }
}

fn write_each(
    output: &mut impl Write,
    count: &str,
    seed: &str,
    make: impl Fn(u64, u64) -> Vec<Record>,
) -> io::Result<()> {
    let seed = number(seed);
    (0..number(count)).try_for_each(|list| write_job(output, &make(seed, list)))
}

fn number(text: &str) -> u64 {
    text.parse().unwrap_or_else(|_| usage())
}

fn usage() -> ! {
    let names: Vec<&str> = STRATEGIES.iter().map(|(name, _)| *name).collect();
    eprintln!(
        "usage: lists all N | sample N SEED | random N SEED | strategy NAME N SEED | words LIST"
    );
    eprintln!("strategies: {}", names.join(" "));
    exit(2)
}
