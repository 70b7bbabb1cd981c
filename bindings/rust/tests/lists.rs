//! Document 01's "Lists to try", each with the answers that the document gives.

mod common;

use common::model::Model;
use tsarovima::{Checker, Cycle, Kept, MoreThanKept, Node, Node::*, Record, Refusal, Rule};

/// Offers all, and closes: what became of the last offer, and the listing or the cycle.
fn run(nodes: &[Node]) -> (Result<Kept, Refusal>, Result<Vec<u16>, Cycle>) {
    let mut checker = Checker::new();
    let (last, before) = nodes.split_last().unwrap();
    for node in before {
        checker.offer(*node).unwrap();
    }
    (checker.offer(*last), checker.close().map(|listing| listing.numbers().to_vec()))
}

fn clash(nodes: &[Node]) -> Rule {
    match run(nodes).0 {
        Err(Refusal::Clash(rule)) => rule,
        other => panic!("{:?}", other),
    }
}

fn arrow(nodes: &[Node], node: u16) -> String {
    let mut checker = Checker::new();
    for each in nodes {
        checker.offer(*each).unwrap();
    }
    checker.close().unwrap().arrow(node).unwrap().to_string()
}

#[test]
fn empty_closes() {
    let mut checker = Checker::new();
    assert_eq!(checker.close().unwrap().numbers(), [0, 0, 4, 4]);
    assert_eq!(checker.put(Record::Close.bytes()).code, 0);
    assert_eq!(checker.kept(), 0);
}

#[test]
fn iden_and_witness_are_one_to_one() {
    assert_eq!(arrow(&[Iden], 0), "1 → 1");
    assert_eq!(arrow(&[Witness], 0), "1 → 1");
}

#[test]
fn injl_of_unit() {
    assert_eq!(run(&[Unit, InjL(0)]).1.unwrap(), [2, 2, 4, 10, 0, 0, 0, 1, 0, 0, 0, 0, 0, 1]);
    assert_eq!(arrow(&[Unit, InjL(0)], 1), "1 → 2");
}

#[test]
fn joins_of_comp_pair_and_case() {
    assert_eq!(run(&[Unit, Comp(0, 0)]).0, Ok(Kept { number: 1, joins: 1 }));
    assert_eq!(run(&[Unit, Pair(0, 0)]).0, Ok(Kept { number: 1, joins: 0 }));
    assert_eq!(run(&[Unit, Case(0, 0)]).0, Ok(Kept { number: 1, joins: 4 }));
}

#[test]
fn the_whole_listing_of_case() {
    let listing = run(&[Unit, Case(0, 0)]).1.unwrap();
    assert_eq!(listing, [2, 4, 4, 16, 0, 0, 0, 2, 0, 0, 1, 0, 0, 2, 2, 0, 1, 0, 3, 0]);
}

#[test]
fn each_rule_clashes() {
    assert_eq!(clash(&[Word(0), Comp(0, 0)]), Rule::CompMiddle);
    assert_eq!(clash(&[Word(0), Take(0), Pair(0, 1)]), Rule::PairSources);
    assert_eq!(clash(&[Word(0), AssertL(0)]), Rule::CaseLeftSource);
    assert_eq!(clash(&[Word(0), AssertR(0)]), Rule::CaseRightSource);
    assert_eq!(clash(&[Word(0), Take(0), Word(1), Take(2), Case(1, 3)]), Rule::CaseTargets);
    assert_eq!(clash(&[Word(8), Disconnect(0, None)]), Rule::DisconnectSource);
    assert_eq!(clash(&[Unit, Unit, Disconnect(0, Some(1))]), Rule::DisconnectTarget);
}

#[test]
fn a_cycle_is_found_at_closing_and_binds_before() {
    let endless = [Iden, Take(0), Pair(0, 1)];
    assert_eq!(run(&endless).1, Err(Cycle { node: 0 }));
    assert_eq!(clash(&[Iden, Take(0), Pair(0, 1), Unit, InjL(3), Comp(4, 0)]), Rule::CompMiddle);
}

#[test]
fn a_cycle_names_the_lowest_node_that_contains_it() {
    assert_eq!(run(&[Unit, Iden, Take(1), Pair(1, 2)]).1, Err(Cycle { node: 1 }));
}

#[test]
fn each_node_has_its_kind() {
    let nodes = [
        (Iden, [1, 0, 0]),
        (Unit, [2, 0, 0]),
        (InjL(3), [3, 3, 0]),
        (InjR(3), [4, 3, 0]),
        (Take(3), [5, 3, 0]),
        (Drop(3), [6, 3, 0]),
        (Comp(3, 4), [7, 3, 4]),
        (Case(3, 4), [8, 3, 4]),
        (AssertL(3), [9, 3, 0]),
        (AssertR(3), [10, 3, 0]),
        (Pair(3, 4), [11, 3, 4]),
        (Disconnect(3, Some(4)), [12, 3, 4]),
        (Disconnect(3, None), [13, 3, 0]),
        (Witness, [14, 0, 0]),
        (Fail, [15, 0, 0]),
        (Word(3), [16, 3, 0]),
    ];
    for (node, [kind, a, b]) in nodes {
        assert_eq!(Record::Offer(node).bytes(), [kind, 0, a, 0, b, 0, 0, 0], "{:?}", node);
    }
}

#[test]
fn left_and_right_are_not_mixed_up() {
    // node 2 makes iden 2^2 to 2^2
    let squares = [Iden, Word(1), Comp(1, 0)];
    for (node, text) in [
        (InjL(0), "2^2 → 2^2 + 1"),
        (InjR(0), "2^2 → 1 + 2^2"),
        (Take(0), "2^2 × 1 → 2^2"),
        (Drop(0), "1 × 2^2 → 2^2"),
        (AssertL(0), "(2 + 1) × 2 → 2^2"),
        (AssertR(0), "(1 + 2) × 2 → 2^2"),
        (Witness, "1 → 1"),
        (Fail, "1 → 1"),
    ] {
        let nodes = [squares[0], squares[1], squares[2], node];
        assert_eq!(arrow(&nodes, 3), text, "{:?}", node);
    }
    assert_eq!(arrow(&[Word(0), Word(1), Pair(0, 1)], 2), "1 → 2 × 2^2");
}

#[test]
fn disconnect_of_iden() {
    assert_eq!(arrow(&[Iden, Disconnect(0, None)], 1), "1 → 2^256 × 1");
}

#[test]
fn words_up_to_31() {
    assert_eq!(run(&[Word(31)]).0, Ok(Kept { number: 0, joins: 0 }));
    assert_eq!(run(&[Word(32)]).0, Err(Refusal::Malformed));
    assert_eq!(arrow(&[Word(31)], 0), "1 → 2^2147483648");
}

#[test]
fn take_back_to_the_kept_count_and_one_more() {
    let mut checker = Checker::new();
    checker.offer(Iden).unwrap();
    assert_eq!(checker.take_back(1), Ok(()));
    assert_eq!(checker.take_back(2), Err(MoreThanKept { kept: 1 }));
    assert_eq!(checker.kept(), 1);
}

#[test]
fn children_must_be_kept() {
    for node in [InjL(1), InjR(1), Take(1), Drop(1), AssertL(1), AssertR(1), Disconnect(1, None), Comp(0, 1), Comp(1, 0)] {
        assert_eq!(run(&[Unit, node]).0, Err(Refusal::NoSuchChild), "{:?}", node);
    }
    for node in [Case(0, 1), Case(1, 0), Pair(0, 1), Pair(1, 0), Disconnect(0, Some(1)), Disconnect(1, Some(0))] {
        assert_eq!(run(&[Unit, node]).0, Err(Refusal::NoSuchChild), "{:?}", node);
    }
}

#[test]
fn every_kind_and_field_that_is_no_record_is_malformed() {
    let mut checker = Checker::new();
    let mut model = Model::new();
    checker.offer(Unit).unwrap();
    model.put(Record::Offer(Unit).bytes());
    for kind in 0..=255 {
        for field in 1..8 {
            let mut record = [kind, 0, 0, 0, 0, 0, 0, 0];
            record[field] = 1;
            for record in [record, [kind, 0, 0, 0, 0, 0, 0, 0]] {
                assert_eq!(checker.put(record), model.put(record), "{:?}", record);
                checker.take_back(1).ok();
                model.put(Record::TakeBack(1).bytes());
                if checker.kept() == 0 {
                    checker.offer(Unit).unwrap();
                    model.put(Record::Offer(Unit).bytes());
                }
            }
        }
    }
}

#[test]
fn closing_binds_nothing() {
    let mut checker = Checker::new();
    checker.offer(Iden).unwrap();
    checker.close().unwrap();
    checker.offer(Word(3)).unwrap();
    assert!(checker.offer(Comp(1, 0)).is_ok());
    assert_eq!(checker.close().unwrap().arrow(0).unwrap().to_string(), "2^8 → 2^8");
}

#[test]
fn nothing_of_rule_3_is_left_when_rule_4_clashes() {
    // case 1 0: source of node 1 is made a product by rule 3 before rule 4 finds that of the word to be none
    let mut checker = Checker::new();
    checker.offer(Word(0)).unwrap();
    checker.offer(Iden).unwrap();
    assert_eq!(checker.offer(Case(1, 0)), Err(Refusal::Clash(Rule::CaseRightSource)));
    assert!(checker.offer(Comp(0, 1)).is_ok());
}
