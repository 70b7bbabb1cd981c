//! bench [REPETITIONS]
//! bench one SIDE SHAPE NODES PART TIMES
//! bench shapes
//!
//! Times the Rust and the static library on the same lists, by turns, in one
//! process, and prints medians in microseconds of the thread's own time.
//! "offers" is a fresh state and all nodes; "closing" is the same and the
//! closing. "Rust" is without the dropping of its context, "dropped" with it;
//! each ratio is that time over ours. Before a list is timed both sides answer
//! it once, and their answers and listings must be the same.
//!
//! The second form only runs one side so often, for a profiler: SIDE is ours or
//! rust, SHAPE a name in the table, PART offers or closing. The third prints the
//! names of the shapes.
//!
//! Everything runs on the first thread. A second one would make an emulator
//! treat every atomic instruction as shared, and the Rust has many.

// C's `main` and not Rust's: before it, Rust's looks at the stack's place in
// /proc/self/maps, and there the emulator qemu 8.2.2 fails.
#![no_main]

use std::env::args;
use std::process::exit;
use std::time::Duration;

use oracle::bench::ours::Prepared;
use oracle::bench::rust;
use oracle::bench::shapes::SHAPES;
use oracle::bench::times::median;
use oracle::record::{kind, Record};
use oracle::run::{run, USUAL_STEPS};

const SIZES: [usize; 3] = [100, 300, 1_000];
const PARTS: [(&str, bool); 2] = [("offers", false), ("closing", true)];
const REPETITIONS: usize = 31;
const FEWEST: usize = 11;

#[no_mangle]
extern "C" fn main() -> i32 {
    let words: Vec<String> = args().skip(1).collect();
    let words: Vec<&str> = words.iter().map(String::as_str).collect();
    let done = match words[..] {
        [] => all(REPETITIONS),
        ["shapes"] => names(),
        ["one", side, shape, nodes, part, times] => one(side, shape, nodes, part, times),
        [repetitions] => repetitions.parse().ok().and_then(all),
        _ => None,
    };
    if done.is_none() {
        eprintln!("usage: bench [REPETITIONS, {FEWEST} or more]");
        eprintln!("       bench one ours|rust SHAPE NODES offers|closing TIMES");
        eprintln!("       bench shapes");
        return 2;
    }
    0
}

fn names() -> Option<()> {
    for (name, _) in SHAPES {
        println!("{name}");
    }
    Some(())
}

/// The whole table. `None` for too few repetitions.
fn all(repetitions: usize) -> Option<()> {
    if repetitions < FEWEST {
        return None;
    }
    let empty = empty_job(repetitions);
    println!(
        "median of {repetitions} runs, in microseconds; a job of no records takes ours {empty:.1}"
    );
    println!();
    let rows = timed(repetitions);
    print_table(&rows);
    print_growth(&rows, empty);
    print_least(&rows);
    Some(())
}

/// One part of one list: what is run, and the times so far.
struct Row {
    shape: &'static str,
    part: &'static str,
    closing: bool,
    nodes: Vec<Record>,
    types: u16,
    job: Prepared,
    ours: Vec<Duration>,
    rust: Vec<Duration>,
    dropped: Vec<Duration>,
}

impl Row {
    fn new(shape: &'static str, nodes: Vec<Record>, part: &'static str, closing: bool) -> Self {
        Row {
            shape,
            part,
            closing,
            types: same_answers(shape, &nodes),
            job: Prepared::new(&nodes, closing),
            nodes,
            ours: vec![],
            rust: vec![],
            dropped: vec![],
        }
    }

    fn forget_last(&mut self) {
        self.ours.pop();
        self.rust.pop();
        self.dropped.pop();
    }

    /// Runs each side once.
    fn run(&mut self) {
        self.ours.push(self.job.run());
        let took = rust::run(&self.nodes, self.closing);
        self.rust.push(took.kept);
        self.dropped.push(took.dropped);
    }

    fn ratio(&self) -> f64 {
        median(&self.rust) / median(&self.ours)
    }
}

/// All rows with their times. Every row is run once before any is run again,
/// so a busy moment of the machine falls on all of them, and the processor does
/// not get to know one list by heart. Lists of one size and part are run one
/// after the other, so none finds the memory as a far larger one left it.
fn timed(repetitions: usize) -> Vec<Row> {
    let mut rows = vec![];
    for size in SIZES {
        for (part, closing) in PARTS {
            rows.extend(SHAPES.map(|(shape, make)| Row::new(shape, make(size), part, closing)));
        }
    }
    for row in &mut rows {
        row.run();
        row.forget_last();
    }
    for _ in 0..repetitions {
        // The first row follows the largest ones: it is run once more, uncounted.
        rows[0].run();
        rows[0].forget_last();
        rows.iter_mut().for_each(Row::run);
    }
    rows
}

fn print_table(rows: &[Row]) {
    println!(
        "{:20} {:>5} {:8} {:>6} {:>9} {:>10} {:>7} {:>10} {:>7}",
        "shape", "nodes", "part", "types", "ours", "Rust", "ratio", "dropped", "ratio"
    );
    let of = |shape: &'static str| rows.iter().filter(move |row| row.shape == shape);
    for row in SHAPES.iter().flat_map(|(shape, _)| of(shape)) {
        let (ours, dropped) = (median(&row.ours), median(&row.dropped));
        println!(
            "{:20} {:>5} {:8} {:>6} {:>9.1} {:>10.1} {:>7.1} {:>10.1} {:>7.1}",
            row.shape,
            row.nodes.len(),
            row.part,
            row.types,
            ours,
            median(&row.rust),
            row.ratio(),
            dropped,
            dropped / ours
        );
    }
}

/// A job without records: what the call costs before its first node.
fn empty_job(repetitions: usize) -> f64 {
    let mut job = Prepared::new(&[], false);
    job.run();
    let times: Vec<Duration> = (0..repetitions).map(|_| job.run()).collect();
    median(&times)
}

/// The number of closed types, after both sides gave the same answers and the
/// same listing and kept every node.
fn same_answers(shape: &str, nodes: &[Record]) -> u16 {
    let mut records = nodes.to_vec();
    records.push(Record::new(kind::CLOSE, 0, 0));
    let rust = run(&records, USUAL_STEPS);
    let mut job = Prepared::new(nodes, true);
    job.run();
    let ours = job.given();
    let kept = ours.answers.iter().all(|answer| answer.code == 0);
    if ours != rust || !kept || ours.listing[0] as usize != nodes.len() {
        eprintln!(
            "bench: the sides differ, or a node is refused: {shape}, {} nodes",
            nodes.len()
        );
        exit(1)
    }
    ours.listing[1]
}

/// Ten times the nodes: how many times the time, over ten. Above 1 a shape
/// grows faster than its nodes; 1.5 is nodes times logarithm. The second number
/// leaves out what a job of no records takes.
fn print_growth(rows: &[Row], empty: f64) {
    println!();
    println!("ours from 100 to 1,000 nodes, over ten; and less the job of no records");
    println!();
    for (part, _) in PARTS {
        for (shape, _) in SHAPES {
            let at = |size: usize| {
                rows.iter()
                    .find(|row| row.shape == shape && row.part == part && row.nodes.len() == size)
                    .map_or(f64::NAN, |row| median(&row.ours))
            };
            let (few, many) = (at(SIZES[0]), at(SIZES[2]));
            println!(
                "{shape:20} {part:8} {:>6.2} {:>6.2}",
                many / few / 10.0,
                (many - empty) / (few - empty) / 10.0
            );
        }
    }
}

fn print_least(rows: &[Row]) {
    println!();
    for (part, _) in PARTS {
        for size in SIZES {
            let least = rows
                .iter()
                .filter(|row| row.part == part && row.nodes.len() == size)
                .min_by(|x, y| x.ratio().total_cmp(&y.ratio()));
            if let Some(row) = least {
                let (ratio, shape) = (row.ratio(), row.shape);
                println!("least ratio at {size} nodes, {part}: {ratio:.1}, {shape}");
            }
        }
    }
}

/// Runs one side on one list. `None` if an argument is none of those asked for.
fn one(side: &str, shape: &str, nodes: &str, part: &str, times: &str) -> Option<()> {
    let (_, make) = SHAPES.iter().find(|(name, _)| *name == shape)?;
    let (_, closing) = PARTS.iter().find(|(name, _)| *name == part)?;
    let list = make(nodes.parse().ok()?);
    let times: usize = times.parse().ok()?;
    match side {
        "ours" => {
            let mut job = Prepared::new(&list, *closing);
            for _ in 0..times {
                job.run();
            }
        }
        "rust" => {
            for _ in 0..times {
                rust::run(&list, *closing);
            }
        }
        _ => return None,
    }
    Some(())
}
