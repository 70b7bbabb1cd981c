//! A checker over lent tables. This file needs no feature: it is what a firmware without a heap uses.

use tsarovima::{Checker, Node, Refusal, Tables};

#[test]
fn lent_tables_serve_one_checker_after_the_other() {
    let mut tables = Tables::new();
    for _ in 0..3 {
        let mut checker = Checker::over(&mut tables);
        assert_eq!(checker.kept(), 0);
        checker.offer(Node::Unit).unwrap();
        checker.offer(Node::Case(0, 0)).unwrap();
        let listing = checker.close().unwrap();
        assert_eq!(listing.numbers(), [2, 4, 4, 16, 0, 0, 0, 2, 0, 0, 1, 0, 0, 2, 2, 0, 1, 0, 3, 0]);
    }
}

#[test]
fn a_refusal_over_lent_tables() {
    let mut tables = Tables::default();
    let mut checker = Checker::over(&mut tables);
    assert_eq!(checker.offer(Node::Word(32)), Err(Refusal::Malformed));
    assert_eq!(checker.offer(Node::Iden).unwrap().number, 0);
    assert_eq!(format!("{:?}", checker), "Checker { kept: 1, .. }");
}

#[test]
fn tables_have_the_size_that_the_header_says() {
    assert_eq!(core::mem::size_of::<Tables>(), 281_646);
}
