//! Runs every example of docs/FORMATS.md: its blocks of indented lines, each a word and what belongs to it.

use tsarovima::{job, job_header, rule_text, Answer, Checker, Node, Record, Rule, LISTING_NUMBERS, MOST_ANSWER_BYTES};

const PAGE: &str = include_str!("../../../docs/FORMATS.md");

const BYTE: u8 = 0x5A;
const MARK: u16 = 0x5AA5;

/// A line of an example, with those that go on with it: its word, and what follows up to the remark.
struct Line {
    word: String,
    rest: String,
}

impl Line {
    fn bytes(&self) -> Vec<u8> {
        self.rest.split_whitespace().map(|byte| u8::from_str_radix(byte, 16).unwrap()).collect()
    }

    fn eight(&self) -> [u8; 8] {
        self.bytes().try_into().unwrap()
    }

    /// The decimal numbers among the words.
    fn numbers(&self) -> Vec<u32> {
        let words = self.rest.split([' ', ',']);
        words.filter_map(|word| word.parse().ok()).collect()
    }

    fn listing(&self) -> Vec<u16> {
        self.numbers().into_iter().map(|number| number as u16).collect()
    }
}

/// The page's blocks of indented lines. A remark begins after three blanks.
fn blocks() -> Vec<Vec<Line>> {
    let mut blocks = vec![vec![]];
    for line in PAGE.lines() {
        let text = match line.strip_prefix("    ") {
            Some(text) => text,
            None => {
                blocks.push(vec![]);
                continue;
            }
        };
        let block = blocks.last_mut().unwrap();
        let (word, rest) = text.split_once(' ').unwrap();
        let rest = rest.trim_start();
        let rest = rest.split("   ").next().unwrap();
        if word.is_empty() {
            let last: &mut Line = block.last_mut().unwrap();
            last.rest = format!("{} {}", last.rest, rest);
        } else {
            block.push(Line { word: word.into(), rest: rest.into() });
        }
    }
    blocks.retain(|block| !block.is_empty());
    blocks
}

/// What a job is lent and what it is to return and write.
struct Run {
    bytes: Vec<u8>,
    answers_lent: usize,
    listing_lent: usize,
    returns: u32,
    answers: Vec<u8>,
    listing: Vec<u16>,
}

impl Run {
    fn of(bytes: Vec<u8>) -> Run {
        let (answers_lent, listing_lent) = (MOST_ANSWER_BYTES, LISTING_NUMBERS);
        Run { bytes, answers_lent, listing_lent, returns: 0, answers: vec![], listing: vec![] }
    }

    /// Runs it: nothing else may be returned or written.
    fn check(&self) {
        let mut answers = vec![BYTE; self.answers_lent];
        let mut listing = vec![MARK; self.listing_lent];
        let returned = job(&self.bytes, &mut answers, &mut listing).map_or_else(|refusal| refusal.code(), |()| 0);
        assert_eq!(returned, self.returns, "{:02x?}", self.bytes);
        let (given, past) = answers.split_at(self.answers.len());
        assert_eq!(given, self.answers);
        assert!(past.iter().all(|byte| *byte == BYTE));
        let (listed, past) = listing.split_at(self.listing.len());
        assert_eq!(listed, self.listing);
        assert!(past.iter().all(|number| *number == MARK));
    }
}

/// A block of jobs, each with what it returns.
fn run_jobs(block: &[Line]) -> usize {
    let mut runs: Vec<Run> = vec![];
    for line in block {
        if line.word == "job" {
            runs.push(Run::of(line.bytes()));
            continue;
        }
        let run = runs.last_mut().unwrap();
        match line.word.as_str() {
            "lent" => (run.answers_lent, run.listing_lent) = (line.numbers()[0] as usize, line.numbers()[1] as usize),
            "returns" => run.returns = line.numbers()[0],
            "answers" => run.answers = line.bytes(),
            "listing" => run.listing = line.listing(),
            other => panic!("no such line: {}", other),
        }
    }
    runs.iter().for_each(Run::check);
    runs.len()
}

/// A block of records with their answers, put to a checker one by one and then run as one job.
fn put_records(block: &[Line]) -> usize {
    let mut checker = Checker::new();
    let (mut records, mut answers, mut listing) = (vec![], vec![], vec![0, 0, 4, 4]);
    for line in block {
        match line.word.as_str() {
            "kept" => {
                for _ in 0..line.numbers()[0] {
                    let number = checker.offer(Node::Unit).unwrap().number.to_le_bytes();
                    records.push(Record::Offer(Node::Unit).bytes());
                    answers.push([0, 0, number[0], number[1], 0, 0, 0, 0]);
                }
            }
            "record" => records.push(line.eight()),
            "answer" => {
                answers.push(line.eight());
                assert_eq!(checker.put(*records.last().unwrap()), Answer::read(line.eight()), "{}", line.rest);
            }
            "listing" => listing = line.listing(),
            other => panic!("no such line: {}", other),
        }
    }
    if answers.is_empty() {
        return 0;
    }
    let mut run = Run::of([&job_header(records.len() as u32)[..], &records.concat()].concat());
    (run.answers, run.listing) = (answers.concat(), listing);
    run.check();
    records.len()
}

/// A block of rules' texts, each asked for with a buffer of some length.
fn write_texts(block: &[Line]) -> usize {
    let texts: Vec<usize> = (0..block.len()).filter(|at| block[*at].word == "rule").collect();
    for at in &texts {
        let (rule, lent, returns) = (&block[*at], &block[at + 1], &block[at + 2]);
        assert_eq!((lent.word.as_str(), returns.word.as_str()), ("lent", "returns"));
        let mut text = vec![BYTE; lent.numbers()[0] as usize];
        assert_eq!(rule_text(rule.numbers()[0] as u16, &mut text), returns.numbers()[0] as usize);
        let written = block.get(at + 3).filter(|line| line.word == "text").map_or(vec![], Line::bytes);
        assert_eq!(text[..written.len()], written);
        assert!(text[written.len()..].iter().all(|byte| *byte == BYTE));
    }
    texts.len()
}

#[test]
fn examples_are_answered_as_the_page_says() {
    let (mut jobs, mut records, mut texts) = (0, 0, 0);
    for block in blocks() {
        match block[0].word.as_str() {
            "job" if block[0].rest == "0" => continue, // the program's report
            "job" => jobs += run_jobs(&block),
            "record" | "kept" => records += put_records(&block),
            "rule" => texts += write_texts(&block),
            other => panic!("no such example: {}", other),
        }
    }
    assert_eq!((jobs, records, texts), (10, 1035, 3));
}

#[test]
fn records_are_what_the_page_says() {
    let records = [
        Record::Offer(Node::Unit),
        Record::Offer(Node::Take(3)),
        Record::Offer(Node::Comp(258, 1)),
        Record::Offer(Node::Word(8)),
        Record::TakeBack(3),
        Record::Close,
    ];
    let block = blocks().remove(0);
    assert!(block.iter().map(Line::eight).eq(records.iter().map(|record| record.bytes())));
}

#[test]
fn texts_are_those_of_the_table() {
    for rule in Rule::ALL {
        let line = format!("| {} | {} | `{}` |", rule.number(), rule.text().len(), rule);
        assert!(PAGE.lines().any(|each| each == line), "{}", line);
    }
}
