//! The trees that are measured.

use differential::{rows, Rng, Row};
use original::BpTree;
use vault::Tree;

/// The block size: the default of the original.
pub const BLOCK: usize = 512;

/// A kind of tree and its size.
pub struct Kind {
    pub name: &'static str,
    pub log_bits: u32,
    seed: u64,
    draw: fn(&mut Rng, usize) -> Row,
}

/// Uniform random trees of four sizes, a path with leaves beside it, and a shallow and wide tree.
pub const ALL: [Kind; 6] = [
    Kind { name: "uniform 2^16", log_bits: 16, seed: 16_000, draw: rows::uniform_tree },
    Kind { name: "uniform 2^20", log_bits: 20, seed: 20_000, draw: rows::uniform_tree },
    Kind { name: "uniform 2^24", log_bits: 24, seed: 24_000, draw: rows::uniform_tree },
    Kind { name: "uniform 2^26", log_bits: 26, seed: 26_000, draw: rows::uniform_tree },
    Kind { name: "path 2^24", log_bits: 24, seed: 24_001, draw: rows::path },
    Kind { name: "bushy 2^24", log_bits: 24, seed: 24_002, draw: rows::bushy },
];

/// A random tree, and the random number generator that then creates its questions.
pub struct Sample {
    pub row: Row,
    pub rng: Rng,
}

impl Sample {
    pub fn draw(kind: &Kind) -> Self {
        let mut rng = Rng::new(kind.seed);
        let row = (kind.draw)(&mut rng, 1 << kind.log_bits);
        Sample { row, rng }
    }

    /// Builds the tree of the original and ours. Panics unless their min-max trees are equal.
    pub fn build(&self) -> (BpTree<BLOCK>, Tree<'_>) {
        let theirs = original::row(self.row.words.clone(), self.row.bits);
        let ours = Tree::build(&self.row.words, self.row.bits, BLOCK).expect("the row is a tree");
        assert_eq!(original::node_numbers(&theirs, BLOCK), ours.nodes(), "the min-max trees differ");
        (BpTree::from_bit_vector(theirs), ours)
    }
}
