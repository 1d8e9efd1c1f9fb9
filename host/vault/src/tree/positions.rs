use super::{ask, place, Tree};
use crate::{words, Refusal};

/// Calls on positions. They return `None` if `at` is not below the bit count.
///
/// `E(k)` is the excess: open bits minus close bits among the first `k` bits.
impl Tree<'_> {
    /// Returns the least position `j > at` of the row with `E(j + 1) = E(at + 1) + r`, or `None` if there is none.
    ///
    /// ```
    /// use vault::Tree;
    ///
    /// let tree: Tree = "(()(()))".parse()?;
    /// assert_eq!(tree.fwd_search(0, 1), Ok(Some(1)));
    /// assert_eq!(tree.fwd_search(2, 0), Ok(Some(6)));
    /// assert_eq!(tree.fwd_search(7, -1), Ok(None));
    /// # Ok::<(), vault::Refusal>(())
    /// ```
    #[inline]
    pub fn fwd_search(&self, at: usize, r: i64) -> Result<Option<usize>, Refusal> {
        place(ask!(self.fwd_search(at as u64, r)))
    }

    /// Returns the greatest position `j < at` with `E(j) = E(at) + r`, or `None` if there is none.
    ///
    /// ```
    /// use vault::Tree;
    ///
    /// let tree: Tree = "(()(()))".parse()?;
    /// assert_eq!(tree.bwd_search(7, 0), Ok(Some(3)));
    /// assert_eq!(tree.bwd_search(4, 1), Ok(None));
    /// # Ok::<(), vault::Refusal>(())
    /// ```
    #[inline]
    pub fn bwd_search(&self, at: usize, r: i64) -> Result<Option<usize>, Refusal> {
        place(ask!(self.bwd_search(at as u64, r)))
    }

    /// Returns the position of the close bit that matches the open bit at `at`, or `None` if there is none.
    ///
    /// Exactly, for any bit at `at`: `fwd_search(at, -1)`.
    #[inline]
    pub fn close(&self, at: usize) -> Result<Option<usize>, Refusal> {
        place(ask!(self.close(at as u64)))
    }

    /// Returns the position of the open bit that matches the close bit at `at`, or `None` if there is none.
    ///
    /// Exactly, for any bit at `at`: `bwd_search(at, -1)`.
    #[inline]
    pub fn open(&self, at: usize) -> Result<Option<usize>, Refusal> {
        place(ask!(self.open(at as u64)))
    }

    /// Returns the handle of the nearest pair of parentheses around the pair of the bit at `at`, or `None` if there is none.
    ///
    /// Exactly: `bwd_search(at, -1)` if the bit at `at` is an open bit, and `bwd_search(at, -2)` if it is a close bit.
    ///
    /// ```
    /// use vault::Tree;
    ///
    /// let tree: Tree = "(()(()))".parse()?;
    /// assert_eq!(tree.enclose(4), Ok(Some(3)));
    /// assert_eq!(tree.enclose(6), Ok(Some(0)));
    /// assert_eq!(tree.enclose(0), Ok(None));
    /// # Ok::<(), vault::Refusal>(())
    /// ```
    #[inline]
    pub fn enclose(&self, at: usize) -> Result<Option<usize>, Refusal> {
        place(ask!(self.enclose(at as u64)))
    }
}
