//! SCOPE, How a search walks: start block, climb, descent, target block.

use super::nodes::Node;
use super::{Found, Passed};

/// The direction of a search.
#[derive(Clone, Copy, PartialEq, Eq)]
pub(super) enum Way {
    Forward,
    Backward,
}
use Way::{Backward, Forward};

impl Passed<'_> {
    /// Answers `fwd_search(i, r)` or `bwd_search(i, r)`. Refusals 1 to 4 do not apply.
    pub(super) fn search(&self, way: Way, i: u64, r: i128) -> Found {
        // A position past the row and an `r` out of reach give nothing before any min-max node is examined.
        if i >= self.bits || r.abs() > i128::from(self.bits) {
            return Ok(None);
        }
        // There is no position after the last one and none before position 0.
        if (way == Forward && i + 1 >= self.bits) || (way == Backward && i == 0) {
            return Ok(None);
        }
        // The start block is the block of the first position that can be the answer. Scan it from that position on.
        let b = if way == Forward { (i + 1) / self.block } else { (i - 1) / self.block };
        let bits = self.block_bits(b);
        let rest = if way == Forward { i + 1..bits.end } else { bits.start..i };
        match self.scan(way, rest, r) {
            Ok(j) => Ok(Some(j)),
            // The start block does not contain the answer.
            Err(left) => self.climb(way, self.inner() + b, left),
        }
    }

    /// Returns the nearest position in a stretch of bits that changes the excess by `r`. If there is none, returns the remainder
    /// of `r` after the stretch as an error.
    ///
    /// A forward search counts the excess after a position, a backward search the excess before it.
    pub(super) fn scan(&self, way: Way, bits: std::ops::Range<u64>, r: i128) -> Result<u64, i128> {
        let mut left = r;
        let mut hits = |i| {
            left += if way == Forward { -self.step(i) } else { self.step(i) };
            left == 0
        };
        let hit = if way == Forward { bits.clone().find(|&i| hits(i)) } else { bits.clone().rev().find(|&i| hits(i)) };
        hit.ok_or(left)
    }

    /// Returns min-max node `k`. Refuses with 8 if one of its entries is below -2^32 or above 2^32.
    pub(super) fn examine(&self, k: u64) -> Result<Node, u8> {
        let node = self.node(k);
        let fits = |number: i128| (-(1 << 32)..=1 << 32).contains(&number);
        if fits(node.total) && fits(node.least) && fits(node.greatest) {
            Ok(node)
        } else {
            Err(8)
        }
    }

    /// Tests whether an examined min-max node contains the remainder `r`. Also returns the remainder after the node.
    ///
    /// A backward search enters the stretch of the node at its end, so it compares `r` plus the total of the node with the least
    /// and the greatest excess. If that sum is 0, the first bit of the stretch is an answer.
    pub(super) fn asked(way: Way, node: Node, r: i128) -> (bool, i128) {
        let within = |s: i128| node.least <= s && s <= node.greatest;
        match way {
            Forward => (within(r), r - node.total),
            Backward => (r + node.total == 0 || within(r + node.total), r + node.total),
        }
    }

    /// Climbs from a block leaf to the root and examines each sibling that is ahead in the direction of the search.
    ///
    /// The first sibling that contains the remainder `r` starts the descent. If a sibling is missing, or at the root, the answer
    /// is nothing.
    pub(super) fn climb(&self, way: Way, leaf: u64, r: i128) -> Found {
        let (mut k, mut levels, mut r) = (leaf, 0, r);
        while k > 0 {
            let is_left = k % 2 == 1;
            if is_left == (way == Forward) {
                let sibling = if way == Forward { k + 1 } else { k - 1 };
                if sibling >= self.count() {
                    return Ok(None);
                }
                let (holds, left) = Self::asked(way, self.examine(sibling)?, r);
                if holds {
                    return self.descend(way, sibling, levels, r);
                }
                r = left;
            }
            k = (k - 1) / 2;
            levels += 1;
        }
        Ok(None)
    }

    /// Descends `levels` levels from a min-max node to a block leaf, and scans its block.
    ///
    /// On each level it examines the nearer child first, and the farther child with the remainder after the nearer one. Refuses
    /// with 8 if neither child contains the remainder, if a child that it needs is missing, or if the block does not contain the
    /// position.
    pub(super) fn descend(&self, way: Way, node: u64, levels: u32, r: i128) -> Found {
        let (mut k, mut r) = (node, r);
        for _ in 0..levels {
            let (near, far) = if way == Forward { (2 * k + 1, 2 * k + 2) } else { (2 * k + 2, 2 * k + 1) };
            let (holds, left) = self.child(way, near, r)?;
            if holds {
                k = near;
            } else {
                if !self.child(way, far, left)?.0 {
                    return Err(8);
                }
                (k, r) = (far, left);
            }
        }
        // Only a foreign node buffer leads to a block that does not contain the position.
        self.scan(way, self.block_bits(k - self.inner()), r).map(Some).map_err(|_| 8)
    }

    /// Examines a child during a descent. Refuses with 8 if the child is missing.
    pub(super) fn child(&self, way: Way, k: u64, r: i128) -> Result<(bool, i128), u8> {
        if k >= self.count() {
            return Err(8);
        }
        Ok(Self::asked(way, self.examine(k)?, r))
    }
}
