//! The limits: 1,024 nodes, words to n = 31, take-backs to more than are kept, and the largest types.

use tsarovima::{Checker, Kept, MoreThanKept, Node, Refusal, Shape, MOST_NODES};

fn full_of(node: Node) -> Checker<'static> {
    let mut checker = Checker::new();
    checker.offer(Node::Unit).unwrap();
    for number in 1..MOST_NODES {
        assert_eq!(checker.offer(node).unwrap().number as usize, number);
    }
    checker
}

#[test]
fn node_1023_is_kept_and_the_next_refused() {
    for node in [Node::Case(0, 0), Node::Unit, Node::Word(31), Node::Pair(0, 0)] {
        let mut checker = full_of(node);
        assert_eq!(checker.kept(), MOST_NODES);
        assert_eq!(checker.offer(node), Err(Refusal::Full));
        assert_eq!(checker.kept(), MOST_NODES);
        assert_eq!(checker.close().unwrap().arrows().len(), MOST_NODES);
    }
}

#[test]
fn refusals_come_in_the_order_1_3_2() {
    let mut checker = full_of(Node::Unit);
    assert_eq!(checker.offer(Node::Word(32)), Err(Refusal::Malformed));
    assert_eq!(checker.offer(Node::Take(1024)), Err(Refusal::Full));
    checker.take_back(1023).unwrap();
    assert_eq!(checker.offer(Node::Take(1023)), Err(Refusal::NoSuchChild));
    assert_eq!(checker.offer(Node::Take(1022)), Ok(Kept { number: 1023, joins: 0 }));
}

#[test]
fn a_full_checker_takes_back_and_fills_again() {
    let mut checker = full_of(Node::Case(0, 0));
    for to in [1024, 1023, 512, 1, 0] {
        checker.take_back(to).unwrap();
        assert_eq!(checker.kept(), to);
        for number in to..MOST_NODES {
            let node = if number == 0 { Node::Unit } else { Node::Case(0, 0) };
            checker.offer(node).unwrap();
        }
        assert_eq!(checker.offer(Node::Unit), Err(Refusal::Full));
    }
}

#[test]
fn take_back_to_more_is_refused_whatever_the_number() {
    let mut checker = Checker::new();
    checker.offer(Node::Unit).unwrap();
    for to in [2, 1024, 1025, 65535, 65536, 65537, usize::MAX] {
        assert_eq!(checker.take_back(to), Err(MoreThanKept { kept: 1 }));
        assert_eq!(checker.kept(), 1);
    }
    checker.take_back(0).unwrap();
    assert_eq!(checker.take_back(1), Err(MoreThanKept { kept: 0 }));
}

#[test]
fn words_to_31() {
    let mut checker = Checker::new();
    for n in 0..=31 {
        assert_eq!(checker.offer(Node::Word(n)).unwrap().joins, 0);
    }
    for n in [32, 33, 255, 256, 65535] {
        assert_eq!(checker.offer(Node::Word(n)), Err(Refusal::Malformed));
    }
    let listing = checker.close().unwrap();
    assert_eq!(listing.types().len(), 33);
    let texts: Vec<String> = listing.arrows().map(|arrow| arrow.target.to_string()).collect();
    assert_eq!(texts[..5], ["2", "2^2", "2^4", "2^8", "2^16"]);
    assert_eq!(texts[31], "2^2147483648");
}

#[test]
fn a_type_of_2_to_the_1023_ones_closes_at_once() {
    let mut checker = Checker::new();
    checker.offer(Node::Unit).unwrap();
    for number in 0..MOST_NODES as u16 - 1 {
        checker.offer(Node::Pair(number, number)).unwrap();
    }
    let listing = checker.close().unwrap();
    assert_eq!(listing.types().len(), MOST_NODES);
    let last = listing.arrow(1023).unwrap().target;
    assert_eq!(last.to_string(), "t1023");
    assert_eq!(last.definition().to_string(), "t1022 × t1022");
    let mut depth = 0;
    let mut at = last;
    while let Shape::Product(left, right) = at.shape() {
        assert_eq!(left.number(), right.number());
        (at, depth) = (left, depth + 1);
    }
    assert_eq!(depth, 1023);
    // All of it in words: a line for each large type, and one for each node.
    assert!(listing.to_string().len() < 100_000);
}

#[test]
fn a_listing_of_more_types_than_nodes() {
    // Each assertl makes of a source A × C another, (A + 1) × C: a sum and a product more.
    let mut checker = Checker::new();
    checker.offer(Node::Unit).unwrap();
    checker.offer(Node::Take(0)).unwrap();
    for number in 1..MOST_NODES as u16 - 1 {
        checker.offer(Node::AssertL(number)).unwrap();
    }
    let listing = checker.close().unwrap();
    let (nodes, types) = (listing.arrows().len(), listing.types().len());
    assert_eq!((nodes, types), (MOST_NODES, 2 + 2 * (MOST_NODES - 2)));
    assert_eq!(listing.numbers().len(), 4 + 3 * types + 2 * nodes);
    assert_eq!(listing.arrow(3).unwrap().source.to_string(), "(2 + 1) × 1");
}
