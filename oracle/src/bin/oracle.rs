//! oracle [STEPS] < JOBS > ANSWERS
//!
//! Reads a stream of jobs and writes, for each, the answers that the Rust
//! gives (8 bytes for each record) and the listing (16-bit numbers), as
//! document 01 defines them. Answers of FF FF 01 00... mean that the Rust
//! panicked on the job, FF FF 02 00... that it took more than STEPS steps.

use std::io::{self, BufReader, BufWriter, Write};
use std::panic;
use std::process::exit;
use std::sync::atomic::{AtomicU64, Ordering};
use std::thread;
use std::time::Duration;

use oracle::answer::{code, PANICKED};
use oracle::run::{run, USUAL_STEPS};
use oracle::stream::{read_job, write_answers};

/// `unify` and `bind` call each other once for each level of a type.
const STACK: usize = 1 << 30;

/// Steps are counted where `bind` is known to explode. Should the Rust run on
/// anywhere else, this many seconds end the program.
const PATIENCE: u64 = 300;

/// The number of the job that runs, from 1; 0 while none does.
static RUNNING: AtomicU64 = AtomicU64::new(0);

fn main() {
    let steps = match std::env::args().nth(1).map(|text| text.parse()) {
        None => USUAL_STEPS,
        Some(Ok(steps)) => steps,
        Some(Err(_)) => {
            eprintln!("usage: oracle [STEPS] < JOBS > ANSWERS");
            exit(2)
        }
    };
    // Caught panics are told in the answers.
    panic::set_hook(Box::new(|_| {}));
    let worker = thread::Builder::new()
        .stack_size(STACK)
        .spawn(move || serve(steps))
        .expect("a thread for the work");
    thread::spawn(watch);
    match worker.join() {
        Ok(Ok(())) => {}
        Ok(Err(error)) => {
            eprintln!("oracle: {error}");
            exit(1)
        }
        Err(_) => {
            eprintln!("oracle: a panic outside the Rust");
            exit(3)
        }
    }
}

fn serve(steps: u64) -> io::Result<()> {
    let mut input = BufReader::with_capacity(1 << 16, io::stdin());
    let mut output = BufWriter::with_capacity(1 << 16, io::stdout());
    let (mut jobs, mut panicked, mut too_long) = (0_u64, 0_u64, 0_u64);
    while let Some(records) = read_job(&mut input)? {
        jobs += 1;
        RUNNING.store(jobs, Ordering::Relaxed);
        let answers = run(&records, steps);
        RUNNING.store(0, Ordering::Relaxed);
        if let Some(answer) = answers.answers.first().filter(|a| a.code == code::NONE) {
            let count = if answer.first == PANICKED {
                &mut panicked
            } else {
                &mut too_long
            };
            *count += 1;
        }
        write_answers(&mut output, &answers)?;
    }
    output.flush()?;
    eprintln!("oracle: {jobs} jobs, {panicked} panicked, {too_long} too long");
    Ok(())
}

/// Ends the program if one job takes longer than anyone's patience.
fn watch() {
    let (mut last, mut waited) = (0, 0);
    loop {
        thread::sleep(Duration::from_secs(1));
        let job = RUNNING.load(Ordering::Relaxed);
        waited = if job != 0 && job == last {
            waited + 1
        } else {
            0
        };
        last = job;
        if waited == PATIENCE {
            eprintln!("oracle: job {job} has run for {PATIENCE} seconds");
            exit(4)
        }
    }
}
