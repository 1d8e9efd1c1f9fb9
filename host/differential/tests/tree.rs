//! Compares the methods of `vault::Tree` with the second implementation.
//!
//! The trees come from `Tree::build`, and from `Tree::from_parts` with any node buffer.

use differential::plain::{self, Passed, MOST_WORDS};
use differential::{hostile, rows, Answer, Call, Case, Rng};
use vault::{Children, Refusal, Tree};

/// Makes a call through the method of the tree.
fn ask(tree: &Tree, call: Call) -> Answer {
    let at = |position: u64| position as usize;
    match call {
        Call::FwdSearch { at: i, r } => found(tree.fwd_search(at(i), r)),
        Call::BwdSearch { at: i, r } => found(tree.bwd_search(at(i), r)),
        Call::Close { at: i } => found(tree.close(at(i))),
        Call::Open { at: i } => found(tree.open(at(i))),
        Call::Enclose { at: i } => found(tree.enclose(at(i))),
        Call::Root => found(Ok(tree.root())),
        Call::Parent { node } => found(tree.parent(at(node))),
        Call::FirstChild { node } => found(tree.first_child(at(node))),
        Call::LastChild { node } => found(tree.last_child(at(node))),
        Call::NextSibling { node } => found(tree.next_sibling(at(node))),
        Call::PreviousSibling { node } => found(tree.previous_sibling(at(node))),
        Call::IsLeaf { node } => answer(tree.is_leaf(at(node))),
        Call::IsAncestor { ancestor, descendant } => answer(tree.is_ancestor(at(ancestor), at(descendant))),
        Call::LevelAncestor { node, level } => found(tree.level_ancestor(at(node), level)),
        Call::LevelNext { node } => found(tree.level_next(at(node))),
        Call::LevelPrev { node } => found(tree.level_prev(at(node))),
        Call::LevelLeftmost { level } => found(tree.level_leftmost(level)),
        Call::LevelRightmost { level } => found(tree.level_rightmost(level)),
        Call::Children { node, room } => steps(tree.children(at(node)), room),
        Call::RevChildren { node, room } => steps(tree.rev_children(at(node)), room),
        Call::OneTree => tree.is_one_tree().into(),
        Call::AsBuilt => tree.is_as_built().into(),
    }
}

fn answer(answer: Result<impl Into<Answer>, Refusal>) -> Answer {
    answer.map_or_else(|refusal| Answer::refused(refusal.number()), Into::into)
}

fn found(position: Result<Option<usize>, Refusal>) -> Answer {
    answer(position.map(|found| found.map(|at| at as u64)))
}

/// Returns the encoded items of an iterator and the -1 that ends them, but at most `room` values.
fn steps(children: Result<Children, Refusal>, room: usize) -> Answer {
    let number = |step: Result<usize, Refusal>| match step {
        Ok(child) => child as i64,
        Err(refusal) => -1 - i64::from(refusal.number()),
    };
    answer(children.map(|children| Answer::Steps(children.map(number).chain([-1]).take(room).collect())))
}

/// Compares 100 random calls on a tree.
fn check(case: &Case, tree: &Tree, rng: &mut Rng) {
    let passed =
        Passed { words: &case.words, bits: case.bits, nodes: &case.nodes, block: case.block, most: MOST_WORDS };
    for _ in 0..100 {
        let call = Call::any(rng, case);
        assert_eq!(ask(tree, call), plain::ask(passed, call), "{call:?} of {tree:?}");
    }
}

#[test]
fn trees_that_are_built() {
    for number in 0..500 {
        let mut rng = Rng::of_round(3, number);
        let row = rows::any(&mut rng, 3000);
        let case = Case::built(&row, rng.pick(&[8, 64, 512, 24, 65_536]), &mut rng);
        let tree = Tree::build(&case.words, row.bits, case.block as usize).expect("the arguments are valid");
        check(&case, &tree, &mut rng);
    }
}

#[test]
fn trees_of_any_parts() {
    let (mut made, mut refused) = (0, 0);
    for number in 0..3000 {
        let mut rng = Rng::of_round(4, number);
        let case = hostile::any(&mut rng, 3000);
        match Tree::from_parts(&case.words, case.bits as usize, &case.nodes, case.block as usize) {
            Ok(tree) => {
                assert_eq!(case.standing(), Ok(()));
                made += 1;
                check(&case, &tree, &mut rng);
            }
            Err(refusal) => {
                assert_eq!(case.standing(), Err(refusal.number()));
                refused += 1;
            }
        }
    }
    assert!(made > 500 && refused > 500, "{made} trees created, {refused} refused");
}
