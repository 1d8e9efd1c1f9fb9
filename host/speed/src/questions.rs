//! The questions that both implementations answer.

use original::{BpTree, Tree as _};
use vault::Tree;

use crate::trees::{Sample, BLOCK};

/// The number of questions per call.
pub const COUNT: usize = 1 << 17;

/// Both trees, and the arguments of each question.
pub struct Asked<'a> {
    pub theirs: &'a BpTree<BLOCK>,
    pub ours: &'a Tree<'a>,
    /// Handles other than the root.
    pub node: Vec<usize>,
    /// Other handles, also without the root.
    pub other: Vec<usize>,
    /// Levels from 1 to the depth of `node`.
    pub level: Vec<u64>,
    /// Values of `r` from -64 to 64.
    pub near: Vec<i64>,
    /// Values of `r` from `-1 - d` to -1, where `d` is the depth of `node`. A forward search for `-1 - d` finds the close bit of
    /// the root.
    pub far: Vec<i64>,
    /// The position of the close bit of `node`.
    pub close: Vec<usize>,
    /// The parent of `node`.
    pub parent: Vec<usize>,
}

impl<'a> Asked<'a> {
    /// Creates random questions. Arguments that depend on `node` come from the original.
    pub fn draw(sample: &Sample, theirs: &'a BpTree<BLOCK>, ours: &'a Tree<'a>) -> Self {
        let (row, mut rng) = (&sample.row, sample.rng.clone());
        let mut asked = Asked {
            theirs,
            ours,
            node: Vec::with_capacity(COUNT),
            other: Vec::with_capacity(COUNT),
            level: Vec::with_capacity(COUNT),
            near: Vec::with_capacity(COUNT),
            far: Vec::with_capacity(COUNT),
            close: Vec::with_capacity(COUNT),
            parent: Vec::with_capacity(COUNT),
        };
        for _ in 0..COUNT {
            let mut handle = || loop {
                let at = rng.index(row.bits);
                if at > 0 && row.opens(at) {
                    return at;
                }
            };
            let (node, other) = (handle(), handle());
            let depth = theirs.depth(node);
            asked.node.push(node);
            asked.other.push(other);
            asked.level.push(1 + rng.below(depth));
            asked.near.push(rng.within(64));
            asked.far.push(-1 - rng.below(depth + 1) as i64);
            asked.close.push(theirs.close(node).expect("every outline node of a tree has a close bit"));
            asked.parent.push(theirs.parent(node).expect("every outline node except the root has a parent"));
        }
        asked
    }
}
