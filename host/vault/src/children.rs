use std::iter::FusedIterator;

use crate::{Refusal, Tree};

/// An iterator over the handles of the children of an outline node.
///
/// With a node buffer as built every item is `Ok`. With any other node buffer an item can be a wrong position, or the search
/// for the next item can refuse. A refusal is the last item.
#[derive(Clone, Debug)]
pub struct Children<'t, 'a> {
    tree: &'t Tree<'a>,
    /// Whether the order is from the first child to the last.
    rising: bool,
    /// The next item, or `Ok(None)` after the last one.
    held: Result<Option<usize>, Refusal>,
}

impl<'t, 'a> Children<'t, 'a> {
    /// Lists the children of `node` from the first to the last.
    pub(crate) fn rising(tree: &'t Tree<'a>, node: usize) -> Result<Self, Refusal> {
        let first = tree.first_child(node)?;
        Ok(Children { tree, rising: true, held: Ok(first) })
    }

    /// Lists the children of `node` from the last to the first.
    pub(crate) fn falling(tree: &'t Tree<'a>, node: usize) -> Result<Self, Refusal> {
        let last = tree.last_child(node)?;
        Ok(Children { tree, rising: false, held: Ok(last) })
    }

    /// Returns the child that follows `child` in the order of this iterator.
    #[inline]
    fn after(&self, child: usize) -> Result<Option<usize>, Refusal> {
        if self.rising {
            self.tree.next_sibling(child)
        } else {
            self.tree.previous_sibling(child)
        }
    }
}

impl Iterator for Children<'_, '_> {
    type Item = Result<usize, Refusal>;

    #[inline]
    fn next(&mut self) -> Option<Self::Item> {
        let answer = self.held.transpose()?;
        self.held = match answer {
            Ok(child) => self.after(child),
            Err(_) => Ok(None),
        };
        Some(answer)
    }
}

impl FusedIterator for Children<'_, '_> {}

#[cfg(test)]
mod tests {
    use super::*;

    /// One wrong total in the node buffer leads the backward search to a close bit. The listing returns that position, then
    /// `NotAHandle`, and then ends.
    #[test]
    fn a_refusal_met_on_the_way_is_the_last_item() {
        let built: Tree = "((((())))((()()())))".parse().unwrap();
        let built = Tree::build(built.words(), built.bits(), 8).unwrap();
        let mut nodes = built.nodes().to_vec();
        nodes[3 * 4] += 3;
        let tree = Tree::from_parts(built.words(), built.bits(), nodes, 8).unwrap();
        let mut children = tree.rev_children(9).unwrap();
        assert_eq!(children.next(), Some(Ok(5)));
        assert_eq!(children.next(), Some(Err(Refusal::NotAHandle)));
        assert_eq!((children.next(), children.next()), (None, None));
    }
}
