use super::{ask, place, Tree};
use crate::{words, Refusal};

/// Calls on levels. The root has level 0. A level or a distance above the bit count gives `None`.
impl Tree<'_> {
    /// Returns the ancestor that is `levels` levels above `node`, or `None` if there is none.
    ///
    /// `levels` is a distance: 0 gives `node` itself, 1 gives its parent.
    ///
    /// ```
    /// use vault::Tree;
    ///
    /// let tree: Tree = "(()(()))".parse()?;
    /// assert_eq!(tree.level_ancestor(4, 0), Ok(Some(4)));
    /// assert_eq!(tree.level_ancestor(4, 2), Ok(Some(0)));
    /// assert_eq!(tree.level_ancestor(4, 3), Ok(None));
    /// # Ok::<(), vault::Refusal>(())
    /// ```
    #[inline]
    pub fn level_ancestor(&self, node: usize, levels: u64) -> Result<Option<usize>, Refusal> {
        place(ask!(self.level_ancestor(node as u64, levels)))
    }

    /// Returns the next outline node on the level of `node`, or `None` if there is none.
    #[inline]
    pub fn level_next(&self, node: usize) -> Result<Option<usize>, Refusal> {
        place(ask!(self.level_next(node as u64)))
    }

    /// Returns the previous outline node on the level of `node`, or `None` if there is none.
    #[inline]
    pub fn level_prev(&self, node: usize) -> Result<Option<usize>, Refusal> {
        place(ask!(self.level_prev(node as u64)))
    }

    /// Returns the first outline node on the level `level`, or `None` if there is none.
    ///
    /// For level 0 it returns 0 on every row that has bits.
    ///
    /// ```
    /// use vault::Tree;
    ///
    /// let tree: Tree = "(()(()))".parse()?;
    /// assert_eq!(tree.level_leftmost(1), Ok(Some(1)));
    /// assert_eq!(tree.level_rightmost(1), Ok(Some(3)));
    /// assert_eq!(tree.level_leftmost(3), Ok(None));
    /// # Ok::<(), vault::Refusal>(())
    /// ```
    #[inline]
    pub fn level_leftmost(&self, level: u64) -> Result<Option<usize>, Refusal> {
        place(ask!(self.level_leftmost(level)))
    }

    /// Returns the last outline node on the level `level`, or `None` if there is none.
    ///
    /// Exception: if the root has no child, it returns `None` for level 0, although the root is on level 0. The original, the
    /// Rust code that this project ports, does the same.
    #[inline]
    pub fn level_rightmost(&self, level: u64) -> Result<Option<usize>, Refusal> {
        place(ask!(self.level_rightmost(level)))
    }
}
