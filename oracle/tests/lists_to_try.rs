//! Document 01's "Lists to try", run on the Rust.

use oracle::answer::{Answer, EMPTY_LISTING};
use oracle::run::{run, USUAL_STEPS};
use oracle::words::from_words;

type Three = (u16, u16, u32);

fn try_list(text: &str) -> (Vec<Three>, Vec<u16>) {
    let records = from_words(text).expect("a list in words");
    let ran = run(&records, USUAL_STEPS);
    let three = |a: &Answer| (a.code, a.first, a.second);
    (ran.answers.iter().map(three).collect(), ran.listing)
}

fn last_answer(text: &str) -> Three {
    *try_list(text).0.last().expect("an answer")
}

/// The arrow of a node in a listing, its types written out.
fn arrow(listing: &[u16], node: usize) -> String {
    fn text(listing: &[u16], number: u16) -> String {
        let at = listing[2] as usize + 3 * number as usize;
        let part = |i: usize| text(listing, listing[at + i]);
        match listing[at] {
            0 => "1".to_string(),
            1 => format!("({} + {})", part(1), part(2)),
            _ => format!("({} * {})", part(1), part(2)),
        }
    }
    let at = listing[3] as usize + 2 * node;
    let (source, target) = (listing[at], listing[at + 1]);
    format!("{} to {}", text(listing, source), text(listing, target))
}

#[test]
fn nothing_closes() {
    assert_eq!(try_list("close"), (vec![(0, 0, 0)], EMPTY_LISTING.to_vec()));
}

#[test]
fn leaves_are_unit_to_unit() {
    for leaf in ["iden", "witness", "unit", "fail"] {
        let (answers, listing) = try_list(&format!("{leaf}; close"));
        assert_eq!(answers, [(0, 0, 0), (0, 1, 1)]);
        assert_eq!(arrow(&listing, 0), "1 to 1");
    }
}

#[test]
fn injl_adds_a_free_side() {
    let (_, listing) = try_list("unit; injl 0; close");
    assert_eq!(arrow(&listing, 1), "1 to (1 + 1)");
}

#[test]
fn comp_and_pair_of_one_child_are_kept() {
    assert_eq!(last_answer("unit; comp 0 0"), (0, 1, 0));
    assert_eq!(last_answer("unit; pair 0 0"), (0, 1, 0));
}

#[test]
fn case_of_units_has_the_whole_listing() {
    let (answers, listing) = try_list("unit; case 0 0; close");
    assert_eq!(answers, [(0, 0, 0), (0, 1, 0), (0, 2, 4)]);
    let whole = [2, 4, 4, 16, 0, 0, 0, 2, 0, 0, 1, 0, 0, 2, 2, 0, 1, 0, 3, 0];
    assert_eq!(listing, whole);
}

#[test]
fn each_rule_clashes() {
    assert_eq!(last_answer("word 0; comp 0 0"), (4, 1, 0));
    assert_eq!(last_answer("word 0; take 0; pair 0 1"), (4, 2, 0));
    assert_eq!(last_answer("word 0; assertl 0"), (4, 3, 0));
    assert_eq!(last_answer("word 0; assertr 0"), (4, 4, 0));
    let rule_5 = "word 0; take 0; word 1; take 2; case 1 3";
    assert_eq!(last_answer(rule_5), (4, 5, 0));
    assert_eq!(last_answer("word 8; disconnect 0"), (4, 6, 0));
    assert_eq!(last_answer("unit; unit; disconnect 0 1"), (4, 7, 0));
}

#[test]
fn a_cycle_is_found_at_the_closing() {
    let (answers, listing) = try_list("iden; take 0; pair 0 1; close");
    assert_eq!(answers, [(0, 0, 0), (0, 1, 0), (0, 2, 0), (5, 0, 0)]);
    assert_eq!(listing, EMPTY_LISTING);
}

#[test]
fn a_cycle_can_clash() {
    let list = "iden; take 0; pair 0 1; unit; injl 3; comp 4 0";
    assert_eq!(last_answer(list), (4, 1, 0));
}

#[test]
fn disconnect_of_iden_gives_a_word_and_a_free_side() {
    let (_, listing) = try_list("iden; disconnect 0; close");
    let mut word = "(1 + 1)".to_string();
    for _ in 0..8 {
        word = format!("({word} * {word})");
    }
    assert_eq!(arrow(&listing, 1), format!("1 to ({word} * 1)"));
}

#[test]
fn the_largest_word_is_listed_without_a_tree() {
    let (answers, listing) = try_list("word 31; word 32; close");
    assert_eq!(answers, [(0, 0, 0), (1, 0, 0), (0, 1, 33)]);
    assert_eq!(listing.len(), 4 + 3 * 33 + 2);
}

#[test]
fn the_table_of_nodes_fills_and_is_taken_back() {
    let list = "unit; ".repeat(1_025) + "back 1025; back 1024; back 0; back 1; close";
    let (answers, _) = try_list(&list);
    assert_eq!(answers[1_023], (0, 1_023, 0));
    let rest = [
        (3, 0, 0),
        (6, 1_024, 0),
        (0, 1_024, 0),
        (0, 0, 0),
        (6, 0, 0),
        (0, 0, 0),
    ];
    assert_eq!(answers[1_024..], rest);
}

#[test]
fn a_closing_binds_nothing_and_a_clash_leaves_nothing() {
    assert_eq!(
        last_answer("iden; close; word 0; comp 1 0; close"),
        (0, 3, 2)
    );
    assert_eq!(
        last_answer("iden; word 0; take 1; pair 1 2; close"),
        (0, 3, 3)
    );
}
