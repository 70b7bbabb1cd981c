//! The random lists reach what they are made for: every kind, every rule, every
//! code, cycles, and listings of many types.

use std::thread;

use oracle::answer::code;
use oracle::counts::Counts;
use oracle::lists::random::random;
use oracle::run::run;

const LISTS: u64 = 512;
const STEPS: u64 = 100_000;

#[test]
fn random_lists_reach_everything() {
    // Deep types need a deep stack.
    let counts = thread::Builder::new()
        .stack_size(1 << 28)
        .spawn(|| {
            let mut counts = Counts::default();
            for list in 0..LISTS {
                let records = random(1, list);
                let answers = run(&records, STEPS);
                if answers.answers[0].code != code::NONE {
                    counts.add(&records, &answers);
                }
            }
            counts
        })
        .expect("a thread")
        .join()
        .expect("counts");
    println!("{counts}");
    assert!(counts.jobs > LISTS * 9 / 10);
    assert!(counts.kept[1..].iter().all(|count| *count > 0));
    assert!(counts.clashes.iter().all(|count| *count > 0));
    let others = [
        counts.malformed,
        counts.no_such_child,
        counts.full,
        counts.taken_back,
        counts.too_few_kept,
        counts.cycles,
    ];
    assert!(others.iter().all(|count| *count > 0));
    assert!(counts.listings > LISTS / 2);
    assert!(counts.most_types > 500);
}
