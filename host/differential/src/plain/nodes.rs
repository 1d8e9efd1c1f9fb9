//! SCOPE, The node buffer: the layout of the min-max tree and the entries that a build writes.

use super::Passed;

/// The three entries of a min-max node: total, least and greatest running excess.
#[derive(Clone, Copy, Debug, PartialEq, Eq)]
pub(super) struct Node {
    pub(super) total: i128,
    pub(super) least: i128,
    pub(super) greatest: i128,
}

impl Passed<'_> {
    /// Returns `L`, the number of block leaves.
    pub(super) fn leaves(&self) -> u64 {
        self.bits.div_ceil(self.block)
    }

    /// Returns `I`, the number of inner min-max nodes: `P - 1` for the smallest power of two `P` that is not below `L`, but at
    /// least 1. An empty row has no min-max nodes.
    pub(super) fn inner(&self) -> u64 {
        let mut p = 1;
        while p < self.leaves() {
            p *= 2;
        }
        if self.bits == 0 {
            0
        } else {
            (p - 1).max(1)
        }
    }

    /// Returns the number of all min-max nodes. The inner nodes come first, so block leaf `b` has the index `I + b`.
    pub(super) fn count(&self) -> u64 {
        self.leaves() + self.inner()
    }

    /// Returns min-max node `k`, whose entries start at index `3k` of the node buffer.
    pub(super) fn node(&self, k: u64) -> Node {
        let number = |j: usize| self.nodes[3 * k as usize + j].into();
        Node { total: number(0), least: number(1), greatest: number(2) }
    }

    /// Returns the positions of block `b`.
    pub(super) fn block_bits(&self, b: u64) -> std::ops::Range<u64> {
        b * self.block..self.bits.min((b + 1) * self.block)
    }

    /// Computes block leaf `b` from its bits. The running excess starts with 0 at the first bit of the block.
    pub(super) fn leaf(&self, b: u64) -> Node {
        let mut total = 0;
        let after = |i| {
            total += self.step(i);
            total
        };
        let runs: Vec<i128> = self.block_bits(b).map(after).collect();
        let least = *runs.iter().min().expect("a block is not empty");
        let greatest = *runs.iter().max().expect("a block is not empty");
        Node { total, least, greatest }
    }

    /// Returns the entries that a build writes, in the order of the min-max nodes. Refusals 1 to 3 do not apply.
    pub fn build(&self) -> Vec<i64> {
        let (inner, count) = (self.inner(), self.count());
        let mut nodes = vec![Node { total: 0, least: 0, greatest: 0 }; count as usize];
        for k in (0..count).rev() {
            let child = |j: u64| nodes.get((2 * k + j) as usize).copied();
            nodes[k as usize] = match (child(1), child(2)) {
                _ if k >= inner => self.leaf(k - inner),
                // The running excess of the right child continues at the total of the left child.
                (Some(left), Some(right)) => Node {
                    total: left.total + right.total,
                    least: left.least.min(left.total + right.least),
                    greatest: left.greatest.max(left.total + right.greatest),
                },
                // A min-max node with only a left child is equal to that child.
                (Some(left), None) => left,
                // An inner min-max node without children has three zeros.
                (None, _) => Node { total: 0, least: 0, greatest: 0 },
            };
        }
        nodes.iter().flat_map(|node| [node.total, node.least, node.greatest]).map(|number| number as i64).collect()
    }

    /// Tests whether the node buffer begins with exactly the entries that a build writes.
    pub fn as_built(&self) -> bool {
        self.nodes.starts_with(&self.build())
    }
}
