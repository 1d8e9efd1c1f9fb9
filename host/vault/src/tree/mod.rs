mod levels;
mod nodes;
mod positions;
#[cfg(test)]
mod tests;

use std::borrow::Cow;
use std::str::FromStr;

use crate::{words, Refusal};

/// A row of parentheses and its node buffer, each owned or borrowed.
///
/// - Calls on positions accept any number. They return `Ok(None)` if the number is not below the bit count.
/// - Calls on outline nodes take handles. They return [`Refusal::NotAHandle`] for any other number.
///
/// Every answer is correct if the node buffer is as built. Parsing, [`build`](Tree::build) and [`build_in`](Tree::build_in)
/// produce such a node buffer.
///
/// [`from_parts`](Tree::from_parts) accepts any entries, and [`is_as_built`](Tree::is_as_built) tests them. **With a node
/// buffer that is not as built, a call can return a wrong answer instead of [`Refusal::NodesMisfit`].** A wrong position is
/// still below the bit count.
///
/// ```
/// use vault::{Refusal, Tree};
///
/// let tree: Tree = "(()(()))".parse()?;
/// assert_eq!(tree.close(3), Ok(Some(6)));
/// assert_eq!(tree.parent(4), Ok(Some(3)));
/// assert_eq!(tree.is_ancestor(1, 4), Ok(Some(false)));
/// assert_eq!(tree.parent(2), Err(Refusal::NotAHandle));
/// # Ok::<(), Refusal>(())
/// ```
#[derive(Clone, Debug, PartialEq, Eq)]
pub struct Tree<'a> {
    words: Cow<'a, [u64]>,
    bits: usize,
    nodes: Cow<'a, [i64]>,
    block: usize,
}

/// Constructors and conversions.
impl<'a> Tree<'a> {
    /// The block size that parsing uses.
    pub const BLOCK: usize = 512;

    /// Creates the tree of a row and builds its node buffer.
    ///
    /// Bit `i` of the row is bit `i % 64` of word `i / 64`, where bit 0 of a word is the least significant one. The tree owns
    /// the words if they are passed as a vector, and borrows them if they are passed as a slice. It owns its node buffer.
    ///
    /// ```
    /// use vault::Tree;
    ///
    /// let borrowed = [0b0001_1011];
    /// let tree = Tree::build(&borrowed, 8, 64)?;
    /// assert_eq!(tree.last_child(0), Ok(Some(3)));
    ///
    /// let owned = Tree::build(vec![0b0001_1011], 8, 64)?;
    /// assert_eq!(owned, tree);
    /// # Ok::<(), vault::Refusal>(())
    /// ```
    pub fn build(words: impl Into<Cow<'a, [u64]>>, bits: usize, block: usize) -> Result<Self, Refusal> {
        let words = words.into();
        // The build into an empty slice tests the block size, the bit count and the number of words. The size of the node
        // buffer is computed only after these tests: block size 0 would divide by 0, and a huge bit count would overflow.
        let nodes = match words::build(&words, bits as u64, &mut [], block as u64) {
            Err(Refusal::TooFewNodes) => {
                let mut nodes = vec![0; node_numbers(bits, block)];
                words::build(&words, bits as u64, &mut nodes, block as u64)?;
                nodes
            }
            tested => tested.map(|()| Vec::new())?,
        };
        Ok(Tree { words, bits, nodes: nodes.into(), block })
    }

    /// Creates the tree of a row and builds its node buffer in the slice `nodes`.
    ///
    /// The [crate documentation](crate#size-of-the-node-buffer) gives the number of entries that the row needs. Only these
    /// entries are written. All later elements keep their value. On refusal the whole slice is unchanged.
    ///
    /// ```
    /// use vault::{Refusal, Tree};
    ///
    /// let words = [0b0001_1011];
    /// let mut nodes = [7; 10];
    /// assert_eq!(Tree::build_in(&words, 8, &mut nodes[..5], 8), Err(Refusal::TooFewNodes));
    ///
    /// let tree = Tree::build_in(&words, 8, &mut nodes, 8)?;
    /// assert!(tree.is_as_built());
    /// assert_eq!(nodes, [0, 0, 3, 0, 0, 3, 7, 7, 7, 7]);
    /// # Ok::<(), Refusal>(())
    /// ```
    pub fn build_in(
        words: impl Into<Cow<'a, [u64]>>,
        bits: usize,
        nodes: &'a mut [i64],
        block: usize,
    ) -> Result<Self, Refusal> {
        let words = words.into();
        words::build(&words, bits as u64, nodes, block as u64)?;
        Ok(Tree { words, bits, nodes: Cow::Borrowed(nodes), block })
    }

    /// Creates a tree from a row and an existing node buffer.
    ///
    /// Only the block size, the bit count and the two lengths are tested. With a node buffer that is not as built, calls can
    /// return wrong answers. [`is_as_built`](Tree::is_as_built) tests the entries.
    ///
    /// ```
    /// use vault::Tree;
    ///
    /// let (words, nodes) = ([0b0001_1011], [0, 0, 3, 0, 0, 2]);
    /// let tree = Tree::from_parts(&words, 8, &nodes, 8)?;
    /// assert!(!tree.is_as_built());
    /// # Ok::<(), vault::Refusal>(())
    /// ```
    pub fn from_parts(
        words: impl Into<Cow<'a, [u64]>>,
        bits: usize,
        nodes: impl Into<Cow<'a, [i64]>>,
        block: usize,
    ) -> Result<Self, Refusal> {
        let tree = Tree { words: words.into(), bits, nodes: nodes.into(), block };
        // This call tests all its arguments. Its position is not below the bit count, so it reads neither bits nor entries.
        tree.close(bits)?;
        Ok(tree)
    }

    /// Returns the words, the bit count, the node buffer and the block size.
    pub fn into_parts(self) -> (Cow<'a, [u64]>, usize, Cow<'a, [i64]>, usize) {
        (self.words, self.bits, self.nodes, self.block)
    }

    /// Converts to a tree that owns its words and its node buffer.
    pub fn into_owned(self) -> Tree<'static> {
        Tree {
            words: Cow::Owned(self.words.into_owned()),
            bits: self.bits,
            nodes: Cow::Owned(self.nodes.into_owned()),
            block: self.block,
        }
    }
}

/// Returns the number of entries that the node buffer needs, for a tested block size and a tested bit count above 0.
fn node_numbers(bits: usize, block: usize) -> usize {
    let leaves = bits.div_ceil(block);
    let inner = (leaves.next_power_of_two() - 1).max(1);
    3 * (leaves + inner)
}

/// Converts a text of parentheses to a tree with blocks of [`Tree::BLOCK`] bits.
impl FromStr for Tree<'static> {
    type Err = Refusal;

    fn from_str(text: &str) -> Result<Self, Refusal> {
        let mut words = vec![0; text.len().div_ceil(64)];
        let bits = words::read_text(text.as_bytes(), &mut words)?;
        Tree::build(words, bits as usize, Tree::BLOCK)
    }
}

/// The parts of a tree, and tests of them.
impl Tree<'_> {
    /// Returns the words of the row.
    pub fn words(&self) -> &[u64] {
        &self.words
    }

    /// Returns the bit count of the row.
    pub fn bits(&self) -> usize {
        self.bits
    }

    /// Returns the node buffer: three entries per min-max node, then any elements that the row does not need.
    pub fn nodes(&self) -> &[i64] {
        &self.nodes
    }

    /// Returns the block size.
    pub fn block(&self) -> usize {
        self.block
    }

    /// Tests whether the row is one tree: its first bit is an open bit, and the matching close bit is its last bit.
    ///
    /// ```
    /// use vault::Tree;
    ///
    /// assert!("(()(()))".parse::<Tree>()?.is_one_tree());
    /// assert!(!"()()".parse::<Tree>()?.is_one_tree());
    /// # Ok::<(), vault::Refusal>(())
    /// ```
    pub fn is_one_tree(&self) -> bool {
        words::one_tree(&self.words, self.bits as u64).expect(TESTED)
    }

    /// Tests whether the node buffer begins with exactly the entries that a build writes for this row, bit count and block
    /// size. If so, every answer is correct.
    pub fn is_as_built(&self) -> bool {
        ask!(self.as_built()).expect(TESTED)
    }
}

/// The panic text of calls that never refuse, because the constructors have made the same tests.
const TESTED: &str = "the constructor of the tree tested its words and its node buffer";

/// Calls a function of [`words`] on the row and the node buffer of a tree.
macro_rules! ask {
    ($tree:ident.$call:ident($($arg:expr),*)) => {
        words::$call(&$tree.words, $tree.bits as u64, &$tree.nodes, $tree.block as u64, $($arg),*)
    };
}
use ask;

/// Converts the position in an answer from `u64` to `usize`. Both types have 64 bits.
#[inline]
fn place(answer: Result<Option<u64>, Refusal>) -> Result<Option<usize>, Refusal> {
    answer.map(|found| found.map(|at| at as usize))
}
