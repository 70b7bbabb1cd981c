//! Texts: the rules byte for byte, errors as `Error`, types and listings in words; and what may be sent and shared.

use std::error::Error;
use tsarovima::{Answer, Arrow, Checker, Cycle, JobRefusal, Listing, MoreThanKept, Node, Refusal, Rule, Shape, Tables, Type};

#[test]
fn rules_byte_for_byte() {
    let texts: [&[u8]; 7] = [
        b"comp combinator: left target = right source",
        b"pair combinator: left source = right source",
        b"case combinator: left source = A \xC3\x97 C",
        b"case combinator: left source = B \xC3\x97 C",
        b"case combinator: left target = right target",
        b"disconnect combinator: left source = 2^256 \xC3\x97 A",
        b"disconnect combinator: left target = B \xC3\x97 C",
    ];
    for (number, text) in (1..).zip(texts) {
        let rule = Rule::numbered(number).unwrap();
        assert_eq!(rule.number(), number);
        assert_eq!(rule.to_string().as_bytes(), text);
        assert_eq!(Refusal::Clash(rule).to_string().as_bytes(), text);
    }
    assert_eq!((Rule::numbered(0), Rule::numbered(8), Rule::numbered(u16::MAX)), (None, None, None));
}

#[test]
fn a_clash_says_its_rule() {
    let mut checker = Checker::new();
    checker.offer(Node::Word(8)).unwrap();
    let refusal = checker.offer(Node::Disconnect(0, None)).unwrap_err();
    assert_eq!(refusal.to_string(), "disconnect combinator: left source = 2^256 × A");
    assert_eq!(refusal.code(), 4);
}

#[test]
fn every_refusal_is_an_error_with_words() {
    let mut errors: Vec<Box<dyn Error>> = vec![
        Box::new(Refusal::Malformed),
        Box::new(Refusal::NoSuchChild),
        Box::new(Refusal::Full),
        Box::new(Cycle { node: 3 }),
        Box::new(MoreThanKept { kept: 2 }),
    ];
    errors.extend(Rule::ALL.map(|rule| Box::new(Refusal::Clash(rule)) as Box<dyn Error>));
    errors.extend(JobRefusal::ALL.map(|refusal| Box::new(refusal) as Box<dyn Error>));
    let mut texts: Vec<String> = errors.iter().map(|error| error.to_string()).collect();
    texts.sort();
    texts.dedup();
    assert_eq!(texts.len(), 19);
    assert!(texts.iter().all(|text| !text.is_empty()));
}

#[test]
fn job_refusals_are_16_to_22() {
    for (code, refusal) in (16..).zip(JobRefusal::ALL) {
        assert_eq!((refusal.code(), JobRefusal::coded(code)), (code, Some(refusal)));
    }
    assert_eq!((JobRefusal::coded(15), JobRefusal::coded(23)), (None, None));
}

#[test]
fn answers_are_little_endian() {
    let answer = Answer::read([1, 2, 3, 4, 5, 6, 7, 8]);
    assert_eq!((answer.code, answer.first, answer.second), (0x0201, 0x0403, 0x0807_0605));
}

#[test]
fn types_as_sums_and_products() {
    // unit, 2, 2 × 1, 1 + (2 × 1), (1 + (2 × 1)) × 2^2
    let numbers = [0, 6, 4, 22, 0, 0, 0, 1, 0, 0, 2, 1, 0, 1, 0, 2, 2, 1, 1, 2, 3, 4];
    let listing = Listing::read(&numbers).unwrap();
    let texts: Vec<String> = listing.types().map(|each| each.to_string()).collect();
    assert_eq!(texts, ["1", "2", "2 × 1", "1 + (2 × 1)", "2^2", "(1 + (2 × 1)) × 2^2"]);
    let definitions: Vec<String> = listing.types().map(|each| each.definition().to_string()).collect();
    assert_eq!(definitions, ["1", "1 + 1", "2 × 1", "1 + (2 × 1)", "2 × 2", "(1 + (2 × 1)) × 2^2"]);
}

#[test]
fn a_case_reads_as_in_the_paper() {
    let mut checker = Checker::new();
    for node in [Node::Word(0), Node::Take(0), Node::Case(1, 1)] {
        checker.offer(node).unwrap();
    }
    let listing = checker.close().unwrap();
    assert_eq!(listing.arrow(2).unwrap().to_string(), "2 × 1 → 2");
    assert_eq!(listing.to_string(), "n0: 1 → 2\nn1: 1 × 1 → 2\nn2: 2 × 1 → 2\n");
}

#[test]
fn large_types_keep_their_sharing() {
    let mut checker = Checker::new();
    checker.offer(Node::Unit).unwrap();
    for number in 0..6 {
        checker.offer(Node::Pair(number, number)).unwrap();
    }
    let listing = checker.close().unwrap();
    let targets: Vec<String> = listing.arrows().map(|arrow| arrow.target.to_string()).collect();
    assert_eq!(targets[2], "(1 × 1) × (1 × 1)");
    assert_eq!(targets[5].matches('1').count(), 32);
    assert_eq!(targets[6], "t6");
    let text = listing.to_string();
    assert!(text.starts_with(&format!("t6 = ({}) × ({})\nn0: 1 → 1\n", targets[5], targets[5])));
    assert!(text.ends_with("n6: 1 → t6\n"));
}

#[test]
fn a_square_past_the_words_is_named() {
    let mut checker = Checker::new();
    checker.offer(Node::Word(31)).unwrap();
    for number in 0..7 {
        checker.offer(Node::Pair(number, number)).unwrap();
    }
    let listing = checker.close().unwrap();
    let word = "2^2147483648";
    assert_eq!(listing.arrow(1).unwrap().target.to_string(), format!("{} × {}", word, word));
    assert!(listing.arrow(7).unwrap().target.to_string().starts_with('t'));
}

#[test]
fn numbers_that_are_no_listing_are_not_read() {
    let sound = [1, 2, 4, 10, 0, 0, 0, 2, 0, 0, 0, 1];
    assert!(Listing::read(&sound).is_some());
    for length in 0..sound.len() {
        assert!(Listing::read(&sound[..length]).is_none(), "{}", length);
    }
    // offsets, a kind over 2, a unit with parts, a part that is not lower, an arrow to no type
    for (at, number) in [(2, 5), (3, 9), (4, 3), (5, 1), (8, 1), (9, 2), (7, 3), (10, 2), (11, 65535)] {
        let mut damaged = sound;
        damaged[at] = number;
        assert!(Listing::read(&damaged).is_none(), "{} {}", at, number);
    }
}

#[test]
fn iterators_say_how_many_are_left() {
    let mut checker = Checker::new();
    for node in [Node::Unit, Node::InjL(0)] {
        checker.offer(node).unwrap();
    }
    let listing = checker.close().unwrap();
    let (mut types, mut arrows) = (listing.types(), listing.arrows());
    assert_eq!((types.len(), arrows.len()), (2, 2));
    assert!(types.next().is_some() && arrows.next().is_some());
    assert_eq!((types.len(), arrows.len()), (1, 1));
    assert_eq!((types.count(), arrows.count()), (1, 1));
}

#[test]
fn what_may_be_sent_and_shared() {
    fn sent<T: Send>() {}
    fn shared<T: Sync>() {}
    sent::<Checker<'static>>();
    sent::<Tables>();
    shared::<Tables>();
    sent::<Listing<'_>>();
    shared::<Listing<'_>>();
    shared::<Type<'_>>();
    shared::<Arrow<'_>>();
    shared::<Shape<'_>>();
    shared::<Refusal>();
}

#[test]
fn a_checker_works_on_after_it_was_sent() {
    let mut checker = Checker::new();
    checker.offer(Node::Unit).unwrap();
    let mut checker = std::thread::spawn(move || {
        checker.offer(Node::Case(0, 0)).unwrap();
        checker
    })
    .join()
    .unwrap();
    assert_eq!(checker.close().unwrap().arrows().len(), 2);
}
