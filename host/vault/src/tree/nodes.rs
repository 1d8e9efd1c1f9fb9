use super::{ask, place, Tree, TESTED};
use crate::{words, Children, Refusal};

/// Calls on outline nodes. Arguments and answers are handles. Any other argument is refused with [`Refusal::NotAHandle`].
impl<'a> Tree<'a> {
    /// Returns the handle of the root, which is 0, or `None` if the row has no bits. Bit 0 is not tested.
    #[inline]
    pub fn root(&self) -> Option<usize> {
        place(words::root(&self.words, self.bits as u64)).expect(TESTED)
    }

    /// Returns the outline node directly around `node`, or `None` if there is none.
    #[inline]
    pub fn parent(&self, node: usize) -> Result<Option<usize>, Refusal> {
        place(ask!(self.parent(node as u64)))
    }

    /// Returns the first child of `node`, or `None` if it has no child.
    #[inline]
    pub fn first_child(&self, node: usize) -> Result<Option<usize>, Refusal> {
        place(words::first_child(&self.words, self.bits as u64, node as u64))
    }

    /// Returns the last child of `node`, or `None` if it has no child.
    #[inline]
    pub fn last_child(&self, node: usize) -> Result<Option<usize>, Refusal> {
        place(ask!(self.last_child(node as u64)))
    }

    /// Returns the next child of the same parent, or `None` if `node` is the last child.
    #[inline]
    pub fn next_sibling(&self, node: usize) -> Result<Option<usize>, Refusal> {
        place(ask!(self.next_sibling(node as u64)))
    }

    /// Returns the previous child of the same parent, or `None` if `node` is the first child.
    #[inline]
    pub fn previous_sibling(&self, node: usize) -> Result<Option<usize>, Refusal> {
        place(ask!(self.previous_sibling(node as u64)))
    }

    /// Tests whether `node` has no child.
    ///
    /// Returns `true` if the bit after `node` is a close bit. Returns `false` if that bit is an open bit or if `node` is the
    /// last position.
    #[inline]
    pub fn is_leaf(&self, node: usize) -> Result<bool, Refusal> {
        words::is_leaf(&self.words, self.bits as u64, node as u64)
    }

    /// Tests whether the outline node `ancestor` contains the outline node `descendant`. The answer is also `true` if both are
    /// the same outline node.
    ///
    /// Returns `None` if `ancestor` has no matching close bit.
    ///
    /// ```
    /// use vault::Tree;
    ///
    /// let tree: Tree = "(()(()))".parse()?;
    /// assert_eq!(tree.is_ancestor(3, 4), Ok(Some(true)));
    /// assert_eq!(tree.is_ancestor(3, 3), Ok(Some(true)));
    /// assert_eq!(tree.is_ancestor(1, 3), Ok(Some(false)));
    /// assert_eq!("((".parse::<Tree>()?.is_ancestor(0, 1), Ok(None));
    /// # Ok::<(), vault::Refusal>(())
    /// ```
    #[inline]
    pub fn is_ancestor(&self, ancestor: usize, descendant: usize) -> Result<Option<bool>, Refusal> {
        ask!(self.is_ancestor(ancestor as u64, descendant as u64))
    }

    /// Returns an iterator over the children of `node`, from the first to the last.
    ///
    /// ```
    /// use vault::{Refusal, Tree};
    ///
    /// let tree: Tree = "(()(()))".parse()?;
    /// assert_eq!(tree.children(0)?.collect::<Result<Vec<_>, _>>(), Ok(vec![1, 3]));
    /// assert_eq!(tree.children(1)?.count(), 0);
    /// assert_eq!(tree.children(2).unwrap_err(), Refusal::NotAHandle);
    /// # Ok::<(), Refusal>(())
    /// ```
    pub fn children(&self, node: usize) -> Result<Children<'_, 'a>, Refusal> {
        Children::rising(self, node)
    }

    /// Returns an iterator over the children of `node`, from the last to the first.
    ///
    /// ```
    /// use vault::Tree;
    ///
    /// let tree: Tree = "(()(()))".parse()?;
    /// assert_eq!(tree.rev_children(0)?.collect::<Result<Vec<_>, _>>(), Ok(vec![3, 1]));
    /// # Ok::<(), vault::Refusal>(())
    /// ```
    pub fn rev_children(&self, node: usize) -> Result<Children<'_, 'a>, Refusal> {
        Children::falling(self, node)
    }
}
