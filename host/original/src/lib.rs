//! `BpTree` and `MinMaxTree` of Cydhra/vers (f9d1329478), compiled from copies of the unchanged files in `docs/src`.
//!
//! `docs/src` has nine files of that repository. This crate adds replacements for the other items that these files name: this
//! root, `util`, `bit_vec/sparse.rs` and `bit_vec/fast_rs_vec/iter.rs`.
//!
//! The calls that are compared run none of these replacements. Two additions are part of a comparison: [`row`] gives the
//! original its words, and [`node_numbers`] returns the entries of its min-max tree.

// The files of the original stay as published, so their warnings are off.
#![allow(clippy::all, missing_docs, dead_code)]

#[rustfmt::skip]
pub mod bit_vec;
#[rustfmt::skip]
pub mod trees;
pub(crate) mod util;

pub use bit_vec::fast_rs_vec::RsVec;
pub use bit_vec::sparse::row;
pub use bit_vec::BitVec;
pub use trees::bp::BpTree;
pub use trees::{IsAncestor, LevelTree, Tree};

use std::num::NonZeroUsize;
use trees::mmt::MinMaxTree;

/// Returns the min-max nodes that the original builds over a row: total, least and greatest excess of each, in index order.
pub fn node_numbers(row: &BitVec, block: usize) -> Vec<i64> {
    let tree = MinMaxTree::excess_tree(row, block);
    // For an index above 0, `parent` returns a value exactly if the min-max node exists.
    let exists = |k: &usize| NonZeroUsize::new(*k).map_or(!row.is_empty(), |k| tree.parent(k).is_some());
    let numbers = |k| [tree.total_excess(k), tree.min_excess(k), tree.max_excess(k)];
    (0..).take_while(exists).flat_map(numbers).collect()
}

/// Builds only the min-max tree over a row. [`BpTree`] also builds the structures for rank and select.
pub fn build_nodes(row: &BitVec, block: usize) -> impl Sized {
    MinMaxTree::excess_tree(row, block)
}
