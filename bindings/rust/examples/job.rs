//! Runs the job in a file, or on standard input, and prints a report as the program tsarovima does: the job's code, a line for each
//! record, and the listing.
//!
//!     cargo run --example job -- payout.job

use std::error::Error;
use std::io::Read;
use std::{env, fs, io, process};
use tsarovima::{job, Answer, Listing, Rule, LISTING_NUMBERS, MOST_ANSWER_BYTES};

/// What became of a record, in words.
fn words(kind: u8, answer: Answer) -> String {
    let words = match (answer.code, kind) {
        (0, 64) => "taken back",
        (0, 65) => "closed",
        (0, _) => "kept",
        (1, _) => "malformed",
        (2, _) => "no such child",
        (3, _) => "full",
        (4, _) => return Rule::numbered(answer.first).map_or_else(String::new, |rule| rule.to_string()),
        (5, _) => "endless",
        (6, _) => "too few kept",
        _ => "",
    };
    words.into()
}

fn one_step(of: tsarovima::Type<'_>) -> String {
    use tsarovima::Shape::{Product, Sum, Unit};
    match of.shape() {
        Unit => "1".into(),
        Sum(left, right) => format!("t{} + t{}", left.number(), right.number()),
        Product(left, right) => format!("t{} × t{}", left.number(), right.number()),
    }
}

fn run(bytes: &[u8]) -> Result<(), Box<dyn Error>> {
    let mut answers = vec![0; MOST_ANSWER_BYTES];
    let mut listing = vec![0; LISTING_NUMBERS];
    if let Err(refusal) = job(bytes, &mut answers, &mut listing) {
        println!("job {}", refusal.code());
        return Err(refusal.into());
    }
    println!("job 0");
    for (at, (record, answer)) in bytes[16..].chunks_exact(8).zip(answers.chunks_exact(8)).enumerate() {
        let answer = Answer::read(answer.try_into()?);
        println!("{}: {} {} {}  {}", at, answer.code, answer.first, answer.second, words(record[0], answer));
    }
    let listing = Listing::read(&listing).ok_or("no listing")?;
    println!("nodes {} types {}", listing.arrows().len(), listing.types().len());
    for each in listing.types() {
        println!("t{} = {}", each.number(), one_step(each));
    }
    for (node, arrow) in listing.arrows().enumerate() {
        println!("n{}: t{} -> t{}", node, arrow.source.number(), arrow.target.number());
    }
    Ok(())
}

fn read() -> io::Result<Vec<u8>> {
    match env::args_os().nth(1) {
        Some(name) => fs::read(name),
        None => {
            let mut bytes = vec![];
            io::stdin().read_to_end(&mut bytes)?;
            Ok(bytes)
        }
    }
}

fn main() {
    let outcome = read().map_err(Box::from).and_then(|bytes| run(&bytes));
    if let Err(error) = outcome {
        eprintln!("job: {}", error);
        process::exit(1);
    }
}
