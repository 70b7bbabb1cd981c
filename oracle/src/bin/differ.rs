//! differ A B JOBS [MOST]
//!
//! Reads a stream of jobs and two streams of answers to them, A the oracle's,
//! and tells what was compared and where they differ: the MOST (20) smallest
//! lists, in words. Join counts are not compared, for the Rust has none, nor
//! are jobs on which a side gave no answer; those are counted. Ends with 0 if
//! there is no difference, 1 if there is one, 2 if a stream cannot be read.

use std::fs::File;
use std::io::{self, BufReader, Read};
use std::process::exit;

use oracle::answer::{code, Answer, Answers, PANICKED};
use oracle::counts::Counts;
use oracle::record::Record;
use oracle::stream::{read_answers, read_job};
use oracle::words::{in_words, list_in_words};

const BUFFER: usize = 1 << 16;
const USUAL_MOST: usize = 20;
/// So many of a listing's numbers are printed.
const SHOWN: usize = 24;

struct Difference {
    job: u64,
    records: Vec<Record>,
    what: String,
}

/// Jobs without an answer, by side and cause.
#[derive(Default)]
struct Unanswered {
    panicked: u64,
    too_long: u64,
}

impl Unanswered {
    /// Whether this side gave no answer; counts it if so.
    fn add(&mut self, answers: &Answers) -> bool {
        match answers.answers.first() {
            Some(Answer {
                code: code::NONE,
                first: PANICKED,
                ..
            }) => self.panicked += 1,
            Some(Answer {
                code: code::NONE, ..
            }) => self.too_long += 1,
            _ => return false,
        }
        true
    }
}

fn main() {
    let arguments: Vec<String> = std::env::args().skip(1).collect();
    let (paths, most) = match &arguments[..] {
        [a, b, jobs] => ([a, b, jobs], Some(USUAL_MOST)),
        [a, b, jobs, most] => ([a, b, jobs], most.parse().ok()),
        _ => usage(),
    };
    let most = most.unwrap_or_else(|| usage());
    match compare(paths, most) {
        Ok(0) => {}
        Ok(_) => exit(1),
        Err(error) => {
            eprintln!("differ: {error}");
            exit(2)
        }
    }
}

fn usage() -> ! {
    eprintln!("usage: differ A B JOBS [MOST]");
    exit(2)
}

/// Prints the report, and gives the number of jobs that differ.
fn compare([a, b, jobs]: [&String; 3], most: usize) -> io::Result<u64> {
    let open = |path: &String| File::open(path).map(|f| BufReader::with_capacity(BUFFER, f));
    let (mut jobs, mut a, mut b) = (open(jobs)?, open(a)?, open(b)?);
    let mut counts = Counts::default();
    let (mut none_a, mut none_b) = (Unanswered::default(), Unanswered::default());
    let (mut job, mut differing) = (0, 0);
    let mut smallest: Vec<Difference> = vec![];
    while let Some(records) = read_job(&mut jobs)? {
        let from_a = named("A", job, read_answers(&mut a, records.len()))?;
        let from_b = named("B", job, read_answers(&mut b, records.len()))?;
        let (silent_a, silent_b) = (none_a.add(&from_a), none_b.add(&from_b));
        if !silent_a && !silent_b {
            counts.add(&records, &from_a);
            if let Some(what) = difference(&records, &from_a, &from_b) {
                differing += 1;
                smallest.push(Difference { job, records, what });
                smallest.sort_by_key(|d| d.records.len());
                smallest.truncate(most);
            }
        }
        job += 1;
    }
    named("A", job, at_end(&mut a))?;
    named("B", job, at_end(&mut b))?;
    println!("compared");
    println!("{counts}");
    println!(
        "no answer   A: {} panicked, {} too long",
        none_a.panicked, none_a.too_long
    );
    println!(
        "            B: {} panicked, {} too long",
        none_b.panicked, none_b.too_long
    );
    println!("differences {differing}");
    for d in smallest {
        println!(
            "job {}: {}\n    {}",
            d.job,
            list_in_words(&d.records),
            d.what
        );
    }
    Ok(differing)
}

fn named<T>(stream: &str, job: u64, read: io::Result<T>) -> io::Result<T> {
    read.map_err(|e| io::Error::new(e.kind(), format!("answers {stream}, job {job}: {e}")))
}

fn at_end(stream: &mut impl Read) -> io::Result<()> {
    match stream.read(&mut [0])? {
        0 => Ok(()),
        _ => Err(io::Error::new(
            io::ErrorKind::InvalidData,
            "more answers than jobs",
        )),
    }
}

/// The first place where the answers or the listings are not the same.
fn difference(records: &[Record], a: &Answers, b: &Answers) -> Option<String> {
    for (i, record) in records.iter().enumerate() {
        let (a, b) = (masked(record, a.answers[i]), masked(record, b.answers[i]));
        if a != b {
            return Some(format!(
                "record {i}, {}: A {a:?}, B {b:?}",
                in_words(record)
            ));
        }
    }
    if a.listing == b.listing {
        return None;
    }
    let same = a.listing.iter().zip(&b.listing).take_while(|(a, b)| a == b);
    let at = same.count();
    let shown = |listing: &[u16]| format!("{:?}", &listing[at..listing.len().min(at + SHOWN)]);
    let (from_a, from_b) = (shown(&a.listing), shown(&b.listing));
    Some(format!(
        "listings, from number {at} on: A {from_a}, B {from_b}"
    ))
}

/// The answer without the join count of a kept node.
fn masked(record: &Record, answer: Answer) -> Answer {
    match record.is_node() && answer.code == code::DONE {
        true => Answer {
            second: 0,
            ..answer
        },
        false => answer,
    }
}
