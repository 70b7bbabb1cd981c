//! Measures an offer through the binding beside the same offers in a job: 1,024 nodes, each way many times, the best of each.
//! Run it with `--release`. Both pay for opening once: a checker when it is made or taken back, a job at every call.

use std::time::{Duration, Instant};
use tsarovima::{job, job_header, Checker, Node, Record, LISTING_NUMBERS, MOST_ANSWER_BYTES, MOST_NODES};

const TURNS: usize = 50;

/// Programs of 1,024 nodes: no join at all, four joins a node, and now and then a join.
fn programs() -> [(&'static str, Vec<Node>); 3] {
    let case = |number: u16| if number == 0 { Node::Unit } else { Node::Case(0, 0) };
    let mixed = |number: u16| match number % 4 {
        0 => Node::Witness,
        1 => Node::Unit,
        2 => Node::Comp(number - 2, number - 1),
        _ => Node::Pair(number - 1, number - 1),
    };
    let numbers = 0..MOST_NODES as u16;
    [
        ("unit", vec![Node::Unit; MOST_NODES]),
        ("case", numbers.clone().map(case).collect()),
        ("mixed", numbers.map(mixed).collect()),
    ]
}

fn best(mut turn: impl FnMut() -> Duration) -> Duration {
    (0..TURNS).map(|_| turn()).min().unwrap_or_default()
}

fn main() {
    let mut checker = Checker::new();
    let mut answers = vec![0; MOST_ANSWER_BYTES];
    let mut listing = vec![0; LISTING_NUMBERS];
    let open = best(|| {
        let start = Instant::now();
        let fresh = Checker::new();
        let took = start.elapsed();
        drop(fresh);
        took
    });
    let empty = best(|| {
        let start = Instant::now();
        job(&job_header(0), &mut answers, &mut listing).unwrap();
        start.elapsed()
    });
    println!("a new checker: {:?}; a job of no records: {:?}", open, empty);

    for (name, nodes) in programs() {
        let mut bytes = job_header(nodes.len() as u32).to_vec();
        bytes.extend(nodes.iter().flat_map(|node| Record::Offer(*node).bytes()));
        let offers = best(|| {
            checker.take_back(0).unwrap();
            let start = Instant::now();
            for node in &nodes {
                checker.offer(*node).unwrap();
            }
            start.elapsed()
        });
        let jobs = best(|| {
            let start = Instant::now();
            job(&bytes, &mut answers, &mut listing).unwrap();
            start.elapsed()
        });
        let each = |all: Duration| all.as_nanos() as f64 / nodes.len() as f64;
        let (offer, whole, record) = (each(offers), each(jobs), each(jobs.saturating_sub(empty)));
        println!(
            "{}: an offer {:.0} ns; a job's record {:.0} ns, {:.0} ns without the opening; ratio {:.2}, {:.2}",
            name,
            offer,
            whole,
            record,
            offer / whole,
            offer / record
        );
    }
}
