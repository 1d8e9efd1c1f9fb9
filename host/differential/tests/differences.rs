//! Tests the smallest input of each known difference between the original and the vault. `docs/DIFFERENCES.md` lists them.
//!
//! Each test states the answer of the original without and with Rust's checks (debug assertions and overflow checks), and the
//! answer of the vault. A release build tests the first, a development build the second.

use std::panic::{catch_unwind, AssertUnwindSafe};

use differential::{original_over, Answer, Call, Row};
use original::{BpTree, LevelTree};
use vault::{Refusal, Tree};

/// The behaviour of the original: an answer, or `None` if it panics.
type Does = Option<Answer>;
const PANICS: Does = None;
const NOTHING: Does = Some(Answer::Value(-1));

fn answers(value: i64) -> Does {
    Some(Answer::Value(value))
}

/// Runs a call of the original and catches its panic.
fn original_does(ask: impl FnOnce() -> Answer) -> Does {
    catch_unwind(AssertUnwindSafe(ask)).ok()
}

fn row(text: &str) -> Row {
    Row::new(&text.bytes().map(|byte| byte == b'(').collect::<Vec<_>>())
}

/// Tests a call of the original on a row: `without` is its behaviour without Rust's checks, `with` is the one with them.
fn original(text: &str, call: Call, without: Does, with: Does) {
    let row = row(text);
    let does = original_does(|| original_over(&row.words, row.bits, 8).ask(call).expect("the original has this call"));
    assert_eq!(does, if cfg!(debug_assertions) { with } else { without }, "{text} {call:?}");
}

fn tree(text: &str) -> Tree<'static> {
    text.parse().expect("the text has only parentheses")
}

#[test]
fn the_empty_row() {
    original("", Call::LevelLeftmost { level: 0 }, answers(0), answers(0));
    original("", Call::LevelLeftmost { level: 1 }, NOTHING, PANICS);
    original("", Call::FwdSearch { at: 0, r: 0 }, NOTHING, PANICS);
    assert_eq!(tree("").level_leftmost(0), Ok(None));
    assert_eq!(tree("").level_leftmost(1), Ok(None));
    assert_eq!(tree("").fwd_search(0, 0), Ok(None));
}

#[test]
fn a_row_without_opens() {
    original("", Call::LevelRightmost { level: 0 }, NOTHING, PANICS);
    original(")", Call::LevelRightmost { level: 0 }, NOTHING, PANICS);
    assert_eq!(tree("").level_rightmost(0), Ok(None));
    assert_eq!(tree(")").level_rightmost(0), Ok(None));
}

#[test]
fn levels_of_2_to_the_63_and_more() {
    original(")(", Call::LevelAncestor { node: 1, level: u64::MAX }, answers(0), answers(0));
    original(")(", Call::LevelAncestor { node: 1, level: 1 << 63 }, NOTHING, PANICS);
    original("()", Call::LevelLeftmost { level: u64::MAX }, answers(1), answers(1));
    original(")(()", Call::LevelRightmost { level: u64::MAX }, answers(1), answers(1));
    assert_eq!(tree(")(").level_ancestor(1, u64::MAX), Ok(None));
    assert_eq!(tree("()").level_leftmost(u64::MAX), Ok(None));
    assert_eq!(tree(")(()").level_rightmost(u64::MAX), Ok(None));
}

#[test]
fn moves_near_the_ends_of_i64() {
    original("))", Call::FwdSearch { at: 0, r: i64::MAX }, NOTHING, PANICS);
    original("((", Call::FwdSearch { at: 0, r: i64::MIN }, NOTHING, PANICS);
    original("))", Call::BwdSearch { at: 1, r: i64::MIN }, NOTHING, PANICS);
    original("((", Call::BwdSearch { at: 1, r: i64::MAX }, NOTHING, PANICS);
    original("))(", Call::LevelAncestor { node: 2, level: (1 << 63) - 1 }, NOTHING, PANICS);
    assert_eq!(tree("))").fwd_search(0, i64::MAX), Ok(None));
    assert_eq!(tree("((").fwd_search(0, i64::MIN), Ok(None));
    assert_eq!(tree("))").bwd_search(1, i64::MIN), Ok(None));
    assert_eq!(tree("((").bwd_search(1, i64::MAX), Ok(None));
    assert_eq!(tree("))(").level_ancestor(2, (1 << 63) - 1), Ok(None));
}

#[test]
fn a_handle_that_is_none() {
    original("", Call::IsLeaf { node: 0 }, answers(0), PANICS);
    original(")(", Call::FirstChild { node: 0 }, answers(1), PANICS);
    original(")", Call::LevelAncestor { node: 0, level: 0 }, answers(0), answers(0));
    original(")", Call::LevelNext { node: 0 }, NOTHING, NOTHING);
    assert_eq!(tree("").is_leaf(0), Err(Refusal::NotAHandle));
    assert_eq!(tree(")(").first_child(0), Err(Refusal::NotAHandle));
    assert_eq!(tree(")").level_ancestor(0, 0), Err(Refusal::NotAHandle));
    assert_eq!(tree(")").level_next(0), Err(Refusal::NotAHandle));
}

#[test]
fn surplus_words() {
    let row = row("(())");
    let words = [row.words[0], 0];
    let does = original_does(|| {
        let found = BpTree::<8>::from_bit_vector(original::row(words.to_vec(), row.bits)).level_rightmost(0);
        Answer::from(found.map(|at| at as u64))
    });
    assert_eq!(does, if cfg!(debug_assertions) { PANICS } else { NOTHING });
    let tree = Tree::build(&words, row.bits, 8).expect("surplus words are accepted");
    assert_eq!(tree.level_rightmost(0), Ok(Some(0)));
}

#[test]
fn a_block_size_that_is_no_multiple_of_8() {
    let row = row(")(((((((()))))))))");
    let twelve = BpTree::<12>::from_bit_vector(original::row(row.words.clone(), row.bits));
    assert_eq!(twelve.bwd_search(17, 0), None, "the original misses position 1");
    assert_eq!(Tree::build(&row.words, row.bits, 12), Err(Refusal::BlockSize));
    assert_eq!(Tree::build(&row.words, row.bits, 8).and_then(|tree| tree.bwd_search(17, 0)), Ok(Some(1)));
}

/// The original builds its own node buffer, so it never has a foreign one. The vault accepts one from the caller.
#[test]
fn foreign_nodes() {
    let words = row(")").words;
    let nodes = [(1 << 32) + 1, -1, -1, -1, -1, -1];
    let tree = Tree::from_parts(&words, 1, &nodes, 8).expect("the two slices are long enough");
    assert_eq!(tree.level_rightmost(0), Err(Refusal::NodesMisfit));
    assert_eq!(tree.level_leftmost(1), Ok(None), "no min-max node is examined");
}

#[test]
fn short_buffers() {
    let words = row(")").words;
    assert_eq!(Tree::from_parts(&words, 1, [-1; 5].as_slice(), 8), Err(Refusal::TooFewNodes));
    assert_eq!(Tree::from_parts([].as_slice(), 1, [-1; 6].as_slice(), 8), Err(Refusal::TooFewWords));
}
