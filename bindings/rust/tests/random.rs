//! Random runs of offers, refusals, closings and take-backs. After every record the long-lived checker must answer as a fresh one
//! that was offered the kept nodes alone (demand 3), and as the model of document 01.

mod common;

use common::model::Model;
use common::Random;
use tsarovima::{Checker, Record, Refusal};

const CLOSE: u8 = 65;
const TAKE_BACK: u8 = 64;

/// Keeps the list of kept records beside a checker.
struct Run {
    checker: Checker<'static>,
    kept: Vec<[u8; 8]>,
}

impl Run {
    fn put(&mut self, record: [u8; 8]) -> tsarovima::Answer {
        let answer = self.checker.put(record);
        match (answer.code, record[0]) {
            (0, TAKE_BACK) => self.kept.truncate(usize::from(answer.first)),
            (0, CLOSE) => {}
            (0, _) => self.kept.push(record),
            _ => {}
        }
        assert_eq!(self.checker.kept(), self.kept.len());
        answer
    }
}

fn fresh_of(kept: &[[u8; 8]]) -> Checker<'static> {
    let mut fresh = Checker::new();
    for record in kept {
        assert_eq!(fresh.put(*record).code, 0);
    }
    fresh
}

fn listing(checker: &mut Checker<'_>) -> Result<Vec<u16>, u16> {
    checker.close().map(|listing| listing.numbers().to_vec()).map_err(|cycle| cycle.node)
}

/// Steps of one run; how many answers had each code.
fn run(seed: u64, steps: usize, most: usize) -> [usize; 7] {
    let mut random = Random::new(seed);
    let mut run = Run { checker: Checker::new(), kept: vec![] };
    let mut model = Model::new();
    let mut codes = [0; 7];
    for _ in 0..steps {
        let record = if run.kept.len() == most {
            Record::TakeBack(random.below(most) as u16).bytes()
        } else {
            random.record(run.kept.len())
        };
        let mut fresh = fresh_of(&run.kept);
        let answer = run.put(record);
        assert_eq!(answer, fresh.put(record), "seed {} record {:?}", seed, record);
        assert_eq!(answer, model.put(record), "seed {} record {:?}", seed, record);
        codes[usize::from(answer.code)] += 1;
        if record == Record::Close.bytes() {
            let ours = listing(&mut run.checker);
            assert_eq!(ours, listing(&mut fresh));
            assert_eq!(ours.unwrap_or_else(|_| vec![0, 0, 4, 4]), model.listing);
        }
    }
    codes
}

#[test]
fn a_checker_answers_as_a_fresh_one() {
    let mut codes = [0; 7];
    for seed in 0..40 {
        for (sum, more) in codes.iter_mut().zip(run(seed, 200, 40)) {
            *sum += more;
        }
    }
    // Every code but 3, which a short list does not meet, was met often.
    for (code, count) in codes.iter().enumerate() {
        assert!(*count > 20 || code == 3, "code {}: {} times", code, count);
    }
}

#[test]
fn short_lists_meet_every_take_back() {
    for seed in 1000..1100 {
        run(seed, 60, 6);
    }
}

#[test]
fn a_typed_call_says_what_the_answer_says() {
    let mut random = Random::new(13);
    let (mut checker, mut model) = (Checker::new(), Model::new());
    for turn in 0..2000 {
        let node = random.node(model.kept());
        let expected = model.put(Record::Offer(node).bytes());
        match checker.offer(node) {
            Ok(kept) => assert_eq!((0, kept.number, kept.joins), (expected.code, expected.first, expected.second)),
            Err(Refusal::Clash(rule)) => assert_eq!((4, rule.number()), (expected.code, expected.first)),
            Err(refusal) => assert_eq!((refusal.code(), 0), (expected.code, expected.first)),
        }
        if turn % 7 == 0 {
            let expected = model.put(Record::Close.bytes());
            match checker.close() {
                Ok(listing) => assert_eq!((0, listing.numbers()), (expected.code, &model.listing[..])),
                Err(cycle) => assert_eq!((5, cycle.node), (expected.code, expected.first)),
            }
        }
        if turn % 20 == 0 || model.kept() == 60 {
            let to = random.below(model.kept() + 2);
            let expected = model.put(Record::TakeBack(to as u16).bytes());
            match checker.take_back(to) {
                Ok(()) => assert_eq!((0, checker.kept()), (expected.code, to)),
                Err(more) => assert_eq!((6, more.kept), (expected.code, usize::from(expected.first))),
            }
        }
        assert_eq!(checker.kept(), model.kept());
    }
}

#[test]
fn the_thousandth_client_finds_what_the_first_found() {
    let mut checker = Checker::new();
    let mut random = Random::new(7);
    for client in 0..1000 {
        let mut model = Model::new();
        for _ in 0..12 {
            let record = random.record(model.kept());
            assert_eq!(checker.put(record), model.put(record), "client {}", client);
        }
        checker.take_back(0).unwrap();
    }
}

#[test]
fn long_lists_answer_as_fresh_ones() {
    let mut random = Random::new(11);
    let mut run = Run { checker: Checker::new(), kept: vec![] };
    while run.kept.len() < 1000 {
        let kept = run.kept.len();
        run.put(Record::Offer(random.node(kept)).bytes());
    }
    for to in [999, 700, 333, 40, 1, 0] {
        run.put(Record::TakeBack(to).bytes());
        let mut fresh = fresh_of(&run.kept);
        assert_eq!(listing(&mut run.checker), listing(&mut fresh));
        assert_eq!(offers(&mut run.checker, to.into()), offers(&mut fresh, to.into()));
        run.checker.take_back(to.into()).unwrap();
    }
}

/// The answers to a hundred offers, the same ones wherever the seed is the same.
fn offers(checker: &mut Checker<'_>, seed: u64) -> Vec<tsarovima::Answer> {
    let mut random = Random::new(seed);
    (0..100).map(|_| checker.put(Record::Offer(random.node(checker.kept())).bytes())).collect()
}
