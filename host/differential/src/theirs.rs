use original::{BpTree, IsAncestor, LevelTree, Tree};

use crate::{Answer, Call};

/// The block sizes that the original is compiled for. In the original the block size is part of the type of a tree.
pub const BLOCKS: [u64; 4] = [8, 16, 64, 512];

/// A tree of the original with any block size.
pub trait Original {
    /// Makes a call. Returns `None` if the original does not have it.
    fn ask(&self, call: Call) -> Option<Answer>;
}

/// Builds the tree of the original over the first `bits` bits of the words.
///
/// # Panics
/// Panics if the original is not compiled for the block size.
pub fn original_over(words: &[u64], bits: usize, block: u64) -> Box<dyn Original> {
    let row = original::row(words.to_vec(), bits);
    match block {
        8 => Box::new(BpTree::<8>::from_bit_vector(row)),
        16 => Box::new(BpTree::<16>::from_bit_vector(row)),
        64 => Box::new(BpTree::<64>::from_bit_vector(row)),
        512 => Box::new(BpTree::<512>::from_bit_vector(row)),
        _ => panic!("the original is not compiled for the block size {block}"),
    }
}

impl<const BLOCK: usize> Original for BpTree<BLOCK> {
    fn ask(&self, call: Call) -> Option<Answer> {
        let found = |found: Option<usize>| Answer::from(found.map(|at| at as u64));
        let at = |position: u64| position as usize;
        Some(match call {
            Call::FwdSearch { at: i, r } => found(self.fwd_search(at(i), r)),
            Call::BwdSearch { at: i, r } => found(self.bwd_search(at(i), r)),
            Call::Close { at: i } => found(self.close(at(i))),
            Call::Open { at: i } => found(self.open(at(i))),
            Call::Enclose { at: i } => found(self.enclose(at(i))),
            Call::Root => found(self.root()),
            Call::Parent { node } => found(self.parent(at(node))),
            Call::FirstChild { node } => found(self.first_child(at(node))),
            Call::LastChild { node } => found(self.last_child(at(node))),
            Call::NextSibling { node } => found(self.next_sibling(at(node))),
            Call::PreviousSibling { node } => found(self.previous_sibling(at(node))),
            Call::IsLeaf { node } => self.is_leaf(at(node)).into(),
            Call::IsAncestor { ancestor, descendant } => self.is_ancestor(at(ancestor), at(descendant)).into(),
            Call::LevelAncestor { node, level } => found(self.level_ancestor(at(node), level)),
            Call::LevelNext { node } => found(self.level_next(at(node))),
            Call::LevelPrev { node } => found(self.level_prev(at(node))),
            Call::LevelLeftmost { level } => found(self.level_leftmost(level)),
            Call::LevelRightmost { level } => found(self.level_rightmost(level)),
            Call::Children { node, room } => steps(self.children(at(node)), room),
            Call::RevChildren { node, room } => steps(self.rev_children(at(node)), room),
            Call::OneTree | Call::AsBuilt => return None,
        })
    }
}

/// Returns the answers of a listing and the -1 that ends them, but at most `room` values.
fn steps(children: impl Iterator<Item = usize>, room: usize) -> Answer {
    Answer::Steps(children.map(|child| child as i64).chain([-1]).take(room).collect())
}
