//! Navigation in outlines that are stored as rows of parentheses, one bit per parenthesis.
//!
//! A [`Tree`] holds a row and its node buffer. The node buffer is an index over the row: with it, a search skips most of the
//! bits between its start and a distant answer. Parse a text, build a tree from a row, or create one from existing slices:
//!
//! ```
//! use vault::{Refusal, Tree};
//!
//! let tree: Tree = "(()(()))".parse()?;
//! assert!(tree.is_one_tree());
//! assert_eq!(tree.close(0), Ok(Some(7)));
//! assert_eq!(tree.enclose(4), Ok(Some(3)));
//! assert_eq!(tree.children(0)?.collect::<Result<Vec<_>, _>>()?, [1, 3]);
//! # Ok::<(), Refusal>(())
//! ```
//!
//! # Terms
//!
//! | term | meaning |
//! |---|---|
//! | row | 64-bit words and a bit count `bits`; a 1 bit is an open bit, `(`, and a 0 bit is a close bit, `)` |
//! | position | the index of a bit in the row, from 0 |
//! | excess `E(k)` | open bits minus close bits among the first `k` bits |
//! | outline node | a node of the tree that the row encodes: a pair of matching parentheses |
//! | handle | a position below `bits` whose bit is an open bit; it names an outline node if the bit has a matching close bit |
//! | level | the number of outline nodes around an outline node; the root has level 0 |
//! | block | the row is cut into blocks of `block` bits; the last block may be shorter |
//! | node buffer | the entries of the min-max tree, the index over the row: three `i64` entries per node of that tree |
//! | as built | of a node buffer: it begins with exactly the entries that a build writes for this row, `bits` and `block` |
//!
//! The block size `block` is a multiple of 8 from 8 to 65,536. [`Tree::BLOCK`], which is 512, is a good first choice.
//! The calls on outline nodes accept every open bit as a handle, also one without a matching close bit.
//!
//! # Size of the node buffer
//!
//! A row without bits needs no entries. Any other row needs `3 * (leaves + inner)` entries:
//!
//! - `leaves` is `bits / block`, rounded up;
//! - `inner` is one less than the least power of two that is at least `leaves`, but at least 1.
//!
//! # Answers
//!
//! Most calls return `Ok(Some(..))`, `Ok(None)` if there is no such position, or `Err` with a [`Refusal`] if they cannot
//! answer. A call that always has an answer returns it without the `Option`. A call of [`Tree`] that never refuses returns
//! its answer without the `Result`. Every call terminates, and no input makes it panic.
//!
//! **With a node buffer that is not as built, a call can return a wrong answer instead of [`Refusal::NodesMisfit`].** Test a
//! node buffer that you did not build with [`Tree::is_as_built`] or [`words::as_built`].
//!
//! The answers come from proved code in two static libraries. The modules [`words`] and [`bytes`] give direct access to the
//! functions of the libraries, over slices that the caller passes.
#![deny(unsafe_code)]

#[cfg(not(all(target_arch = "x86_64", target_os = "linux")))]
compile_error!("the static libraries exist only for Linux on x86-64");

mod answer;
pub mod bytes;
mod calls;
mod children;
mod refusal;
mod tree;
pub mod words;

pub use children::Children;
pub use refusal::Refusal;
pub use tree::Tree;
