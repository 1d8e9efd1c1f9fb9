//! A second implementation of all calls, written only from the sentences of SCOPE (`docs/SCOPE.md`).
//!
//! It reads the row bit by bit, its sums cannot overflow, and it accepts any input. The comments name the section of SCOPE that
//! each part implements.

mod nodes;
mod row;
#[cfg(test)]
mod tests;
mod text;
mod walk;

use crate::{Answer, Call};
use walk::Way::{Backward, Forward};

pub use text::read_text;

/// The greatest bit count of a call over words. Refusal 2 starts above it.
pub const MOST_WORDS: u64 = 1 << 32;

/// The greatest bit count of a call over bytes. Refusal 2 starts above it.
pub const MOST_BYTES: u64 = 4096;

/// The arguments that all calls share.
#[derive(Clone, Copy, Debug)]
pub struct Passed<'a> {
    /// The words of the row.
    pub words: &'a [u64],
    /// The bit count `n`.
    pub bits: u64,
    /// The node buffer.
    pub nodes: &'a [i64],
    /// The block size `B`.
    pub block: u64,
    /// The greatest bit count that is not refused.
    pub most: u64,
}

/// A position, nothing (`None`), or the number of a refusal.
type Found = Result<Option<u64>, u8>;

/// Makes a call.
pub fn ask(passed: Passed, call: Call) -> Answer {
    let found = |found: Found| found.map(Answer::from);
    let answer = match call {
        Call::FwdSearch { at, r } => passed.admit().and_then(|()| found(passed.search(Forward, at, r.into()))),
        Call::BwdSearch { at, r } => passed.admit().and_then(|()| found(passed.search(Backward, at, r.into()))),
        Call::Close { at } => passed.admit().and_then(|()| found(passed.close(at))),
        Call::Open { at } => passed.admit().and_then(|()| found(passed.open(at))),
        Call::Enclose { at } => passed.admit().and_then(|()| found(passed.enclose(at))),
        Call::Root => passed.admit_row().map(|()| Answer::from((passed.bits > 0).then_some(0))),
        Call::Parent { node } => passed.admit_node(node).and_then(|()| found(passed.enclose(node))),
        Call::FirstChild { node } => passed.admit_handle(node).map(|()| Answer::from(passed.first_child(node))),
        Call::LastChild { node } => passed.admit_node(node).and_then(|()| found(passed.last_child(node))),
        Call::NextSibling { node } => passed.admit_node(node).and_then(|()| found(passed.next_sibling(node))),
        Call::PreviousSibling { node } => passed.admit_node(node).and_then(|()| found(passed.previous_sibling(node))),
        Call::IsLeaf { node } => passed.admit_handle(node).map(|()| Answer::from(passed.is_leaf(node))),
        Call::IsAncestor { ancestor, descendant } => passed
            .admit_node(ancestor)
            .and_then(|()| passed.admit_node(descendant))
            .and_then(|()| passed.is_ancestor(ancestor, descendant))
            .map(Answer::from),
        Call::LevelAncestor { node, level } => {
            passed.admit_node(node).and_then(|()| found(passed.level_ancestor(node, level)))
        }
        Call::LevelNext { node } => passed.admit_node(node).and_then(|()| found(passed.level_next(node))),
        Call::LevelPrev { node } => passed.admit_node(node).and_then(|()| found(passed.level_prev(node))),
        Call::LevelLeftmost { level } => passed.admit().and_then(|()| found(passed.level_leftmost(level))),
        Call::LevelRightmost { level } => passed.admit().and_then(|()| found(passed.level_rightmost(level))),
        Call::Children { node, room } => passed.listing(node, room, Forward).map(Answer::Steps),
        Call::RevChildren { node, room } => passed.listing(node, room, Backward).map(Answer::Steps),
        Call::OneTree => passed.admit_row().map(|()| Answer::from(passed.one_tree())),
        Call::AsBuilt => passed.admit().map(|()| Answer::from(passed.as_built())),
    };
    answer.unwrap_or_else(Answer::refused)
}

/// SCOPE, Refusals: the tests before an answer, in their order.
impl Passed<'_> {
    /// Tests refusals 1 to 4.
    pub fn admit(&self) -> Result<(), u8> {
        // Refusal 1: the block size is invalid.
        if self.block == 0 || self.block > 65_536 || !self.block.is_multiple_of(8) {
            return Err(1);
        }
        self.admit_row()?;
        // Refusal 4: the node buffer has fewer than three entries per min-max node.
        if (self.nodes.len() as u64) < 3 * self.count() {
            return Err(4);
        }
        Ok(())
    }

    /// Tests refusals 2 and 3, the only ones of 1 to 4 for a call without a node buffer.
    pub fn admit_row(&self) -> Result<(), u8> {
        // Refusal 2: there are more bits than this kind of call accepts.
        if self.bits > self.most {
            return Err(2);
        }
        // Refusal 3: the row is too short for its bit count.
        if (self.words.len() as u64) < self.bits.div_ceil(64) {
            return Err(3);
        }
        Ok(())
    }

    /// Tests refusals 1 to 5 for a call on the outline node `v` with a node buffer.
    fn admit_node(&self, v: u64) -> Result<(), u8> {
        self.admit()?;
        self.admit_handle(v)
    }

    /// Tests refusals 2, 3 and 5 for a call on the outline node `v` without a node buffer.
    fn admit_handle(&self, v: u64) -> Result<(), u8> {
        self.admit_row()?;
        if self.is_open(v) {
            Ok(())
        } else {
            Err(5)
        }
    }
}
