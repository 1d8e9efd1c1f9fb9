//! SCOPE, The row and its excess; SCOPE, The calls: the bits of the row, and the calls that consist of searches.

use super::walk::Way::{self, Backward, Forward};
use super::{Found, Passed};

impl Passed<'_> {
    /// Tests whether bit `i` is an open bit. The least significant bit of a word comes first.
    pub(super) fn bit(&self, i: u64) -> bool {
        self.words[(i / 64) as usize] >> (i % 64) & 1 == 1
    }

    /// Tests whether `i` is the position of an open bit of the row.
    pub(super) fn is_open(&self, i: u64) -> bool {
        i < self.bits && self.bit(i)
    }

    /// Returns the amount that bit `i` adds to the excess.
    pub(super) fn step(&self, i: u64) -> i128 {
        if self.bit(i) {
            1
        } else {
            -1
        }
    }

    /// Searches forward for the excess one below the excess after `i`.
    pub(super) fn close(&self, i: u64) -> Found {
        self.search(Forward, i, -1)
    }

    /// Searches backward for the excess one below the excess before `i`.
    pub(super) fn open(&self, i: u64) -> Found {
        self.search(Backward, i, -1)
    }

    /// Searches backward for the open bit around `i`. The excess before a close bit includes its own pair, so the search goes
    /// one level further from there.
    pub(super) fn enclose(&self, i: u64) -> Found {
        self.search(Backward, i, if self.is_open(i) { -1 } else { -2 })
    }

    /// Returns the next position if it has an open bit.
    pub(super) fn first_child(&self, v: u64) -> Option<u64> {
        self.is_open(v + 1).then_some(v + 1)
    }

    /// Returns the outline node that ends just before the close bit of `v`, unless `v` has no child.
    pub(super) fn last_child(&self, v: u64) -> Found {
        if !self.is_open(v + 1) {
            return Ok(None);
        }
        match self.close(v)? {
            Some(c) => self.open(c - 1),
            None => Ok(None),
        }
    }

    /// Returns the position after the close bit of `v` if it has an open bit.
    pub(super) fn next_sibling(&self, v: u64) -> Found {
        Ok(self.close(v)?.map(|c| c + 1).filter(|&next| self.is_open(next)))
    }

    /// Returns the outline node that ends just before `v`, if there is one.
    pub(super) fn previous_sibling(&self, v: u64) -> Found {
        if v > 0 && !self.bit(v - 1) {
            self.open(v - 1)
        } else {
            Ok(None)
        }
    }

    /// Tests whether the row goes on with a close bit after `v`.
    pub(super) fn is_leaf(&self, v: u64) -> bool {
        v + 1 < self.bits && !self.bit(v + 1)
    }

    /// Tests whether `d` is between `a` and the close bit of `a`. Without such a close bit the answer is nothing.
    pub(super) fn is_ancestor(&self, a: u64, d: u64) -> Result<Option<bool>, u8> {
        Ok(self.close(a)?.map(|c| a <= d && d < c))
    }

    /// Searches backward for the excess `k` below the excess before `v`. The ancestor 0 levels above `v` is `v` itself.
    pub(super) fn level_ancestor(&self, v: u64, k: u64) -> Found {
        if k == 0 {
            Ok(Some(v))
        } else {
            self.search(Backward, v, -i128::from(k))
        }
    }

    /// Searches forward from the close bit of `v` for the next open bit on the same level.
    pub(super) fn level_next(&self, v: u64) -> Found {
        match self.close(v)? {
            Some(c) => self.search(Forward, c, 1),
            None => Ok(None),
        }
    }

    /// Searches backward for the previous close bit on the level of `v`, then for the open bit that matches it.
    pub(super) fn level_prev(&self, v: u64) -> Found {
        match self.search(Backward, v, 1)? {
            Some(c) => self.open(c),
            None => Ok(None),
        }
    }

    /// Searches forward from position 0 for the excess `k` above the excess after it. Level 0 begins at position 0.
    pub(super) fn level_leftmost(&self, k: u64) -> Found {
        if k == 0 && self.bits > 0 {
            Ok(Some(0))
        } else {
            self.search(Forward, 0, k.into())
        }
    }

    /// Searches backward from a start position for the excess `k` above the excess there, then answers `open` of the position
    /// found.
    ///
    /// The start position is twice the number of open bits, minus 1. It is computed as `n` plus the total of the root of the
    /// min-max tree, minus 1, also if the node buffer is foreign. A start outside the row gives nothing. A level above `n` gives
    /// nothing before any min-max node is examined.
    pub(super) fn level_rightmost(&self, k: u64) -> Found {
        if self.bits == 0 || k > self.bits {
            return Ok(None);
        }
        let start = i128::from(self.bits) + self.examine(0)?.total - 1;
        if start < 0 || start >= i128::from(self.bits) {
            return Ok(None);
        }
        match self.search(Backward, start as u64, k.into())? {
            Some(c) => self.open(c),
            None => Ok(None),
        }
    }

    /// Tests whether the excess is positive between the ends of the row and 0 at its end, with at least two bits.
    pub(super) fn one_tree(&self) -> bool {
        let mut excess = 0;
        for k in 0..self.bits {
            if k > 0 && excess <= 0 {
                return false;
            }
            excess += self.step(k);
        }
        self.bits >= 2 && excess == 0
    }
}

/// SCOPE, Listing children.
impl Passed<'_> {
    /// Returns the encoded answers of the steps of a listing, up to and including the first nothing, but at most `room`.
    ///
    /// A forward listing goes from the first child to each next sibling. A backward listing goes from the last child to each
    /// previous sibling.
    pub(super) fn listing(&self, v: u64, room: usize, way: Way) -> Result<Vec<i64>, u8> {
        // The creation of the listing refuses a bad handle, and propagates a refusal of the search for its first answer.
        self.admit_node(v)?;
        let mut held = if way == Forward { Ok(self.first_child(v)) } else { Ok(self.last_child(v)?) };
        let mut steps = Vec::new();
        while steps.len() < room {
            // A step answers the value in `held`, then searches for the next value. If that search refuses, the refusal is the
            // answer of the next step.
            steps.push(match held {
                Ok(Some(c)) => c as i64,
                Ok(None) => -1,
                Err(number) => -1 - i64::from(number),
            });
            held = match held {
                Ok(Some(c)) => self.admit_node(c).and_then(|()| match way {
                    Forward => self.next_sibling(c),
                    Backward => self.previous_sibling(c),
                }),
                Ok(None) => break,
                // A refusal ends the listing.
                Err(_) => Ok(None),
            };
        }
        Ok(steps)
    }
}
