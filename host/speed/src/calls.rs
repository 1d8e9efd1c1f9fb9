//! The builds and calls that are measured, of the original and of the vault.

use std::ops::Range;

use original::{BpTree, IsAncestor as _, LevelTree as _, Tree as _};
use vault::{Refusal, Tree};

use crate::clock::time;
use crate::questions::{Asked, COUNT};
use crate::trees::{Sample, BLOCK};

/// A build. Each function returns its time in nanoseconds.
pub struct Build {
    pub name: &'static str,
    pub original: fn(&Sample) -> u64,
    pub ours: fn(&Sample) -> u64,
}

/// The two builds. The tree of the original also has rank and select, which no measured call needs. The second build therefore
/// measures only its min-max tree.
pub const BUILDS: [Build; 2] = [
    Build {
        name: "build",
        original: |sample| {
            let row = original::row(sample.row.words.clone(), sample.row.bits);
            time(|| BpTree::<BLOCK>::from_bit_vector(row))
        },
        ours: build_ours,
    },
    Build {
        name: "build, nodes alone",
        original: |sample| {
            let row = original::row(sample.row.words.clone(), sample.row.bits);
            time(|| original::build_nodes(&row, BLOCK))
        },
        ours: build_ours,
    },
];

fn build_ours(sample: &Sample) -> u64 {
    time(|| Tree::build(&sample.row.words, sample.row.bits, BLOCK))
}

/// A call. The functions `original` and `ours` return the sum of the answers to a part of the questions.
pub struct Call {
    pub name: &'static str,
    pub original: fn(&Asked, Range<usize>) -> i64,
    pub ours: fn(&Asked, Range<usize>) -> i64,
    /// Panics unless all answers of the two implementations are equal. Returns the number of answers.
    pub compare: fn(&Asked) -> u64,
}

/// Generates the calls. Each line has the name, the answer of the original to question `i`, and the answer of the vault.
macro_rules! calls {
    ($($name:literal: |$asked:ident, $i:ident| $original:expr, $ours:expr;)*) => {
        pub const CALLS: &[Call] = &[$({
            #[inline(never)]
            fn original($asked: &Asked, part: Range<usize>) -> i64 {
                part.fold(0, |sum: i64, $i| sum.wrapping_add($original.sum()))
            }
            #[inline(never)]
            fn ours($asked: &Asked, part: Range<usize>) -> i64 {
                part.fold(0, |sum: i64, $i| sum.wrapping_add($ours.sum()))
            }
            fn compare($asked: &Asked) -> u64 {
                let mut answers = 0;
                for $i in 0..COUNT {
                    let (theirs, ours) = ($original.all(), $ours.all());
                    assert_eq!(theirs, ours, "{} differs at question {}", $name, $i);
                    answers += theirs.len() as u64;
                }
                answers
            }
            Call { name: $name, original, ours, compare }
        }),*];
    };
}

calls! {
    "close": |x, i| x.theirs.close(x.node[i]), x.ours.close(x.node[i]);
    "open": |x, i| x.theirs.open(x.close[i]), x.ours.open(x.close[i]);
    "enclose": |x, i| x.theirs.enclose(x.node[i]), x.ours.enclose(x.node[i]);
    "is_ancestor": |x, i| x.theirs.is_ancestor(x.node[i], x.other[i]), x.ours.is_ancestor(x.node[i], x.other[i]);
    "level_ancestor": |x, i| x.theirs.level_ancestor(x.node[i], x.level[i]), x.ours.level_ancestor(x.node[i], x.level[i]);
    "level_next": |x, i| x.theirs.level_next(x.node[i]), x.ours.level_next(x.node[i]);
    "level_prev": |x, i| x.theirs.level_prev(x.node[i]), x.ours.level_prev(x.node[i]);
    "next_sibling": |x, i| x.theirs.next_sibling(x.node[i]), x.ours.next_sibling(x.node[i]);
    "children": |x, i| Listed(x.theirs.children(x.parent[i]).map(Ok)), Listed(x.ours.children(x.parent[i]).unwrap());
    "fwd_search, near": |x, i| x.theirs.fwd_search(x.node[i], x.near[i]), x.ours.fwd_search(x.node[i], x.near[i]);
    "fwd_search, far": |x, i| x.theirs.fwd_search(x.node[i], x.far[i]), x.ours.fwd_search(x.node[i], x.far[i]);
    "bwd_search, near": |x, i| x.theirs.bwd_search(x.node[i], x.near[i]), x.ours.bwd_search(x.node[i], x.near[i]);
    "bwd_search, far": |x, i| x.theirs.bwd_search(x.node[i], x.far[i]), x.ours.bwd_search(x.node[i], x.far[i]);
}

/// An answer as numbers. The sum keeps the compiler from removing a call, and the list is for the comparison.
trait Answer: Sized {
    fn sum(self) -> i64;

    fn all(self) -> Vec<i64> {
        vec![self.sum()]
    }
}

impl Answer for Option<usize> {
    #[inline]
    fn sum(self) -> i64 {
        self.map_or(-1, |at| at as i64)
    }
}

impl Answer for Option<bool> {
    #[inline]
    fn sum(self) -> i64 {
        self.map_or(-1, i64::from)
    }
}

/// An answer of the vault. These questions are never refused.
impl<T> Answer for Result<Option<T>, Refusal>
where
    Option<T>: Answer,
{
    #[inline]
    fn sum(self) -> i64 {
        self.unwrap().sum()
    }
}

/// The children of an outline node, at most [`LISTED`] of them.
struct Listed<I>(I);

const LISTED: usize = 64;

impl<I: Iterator<Item = Result<usize, Refusal>>> Answer for Listed<I> {
    #[inline]
    fn sum(self) -> i64 {
        self.0.take(LISTED).fold(0, |sum, child| sum + child.unwrap() as i64)
    }

    fn all(self) -> Vec<i64> {
        self.0.take(LISTED).map(|child| child.unwrap() as i64).collect()
    }
}
