//! Prints the answers of the original to a fixed list of calls, in the format of the program `test_replay`.
//!
//! The output is the file that CI compares with the output of `test_replay`. The command, in the folder of the workspace:
//!
//!     cargo run --release -p original --bin answers < ../crates/test_replay/stdin > ../crates/test_replay/stdout
//!
//! Standard input has one row of parentheses per line, and no empty line. For each row and each of the block sizes 8 and 64 the
//! program prints
//!
//! - a line with the block size and the row,
//! - a line for each position,
//! - a line for each level, up to and including the first one without answers.
//!
//! Spaces separate the answers. An answer is a position, `-` for nothing, `y` for yes or `n` for no.
#![forbid(unsafe_code)]

use std::io::{self, BufWriter, Write};

use original::{BpTree, IsAncestor, LevelTree, Tree};

/// The values of `r` for the two searches from every position.
const APART: [i64; 3] = [-2, 0, 3];

fn main() -> io::Result<()> {
    let mut out = BufWriter::new(io::stdout().lock());
    for row in io::stdin().lines() {
        let row = row?;
        print_row::<8>(&row, &mut out)?;
        print_row::<64>(&row, &mut out)?;
    }
    out.flush()
}

fn print_row<const BLOCK: usize>(row: &str, out: &mut impl Write) -> io::Result<()> {
    let tree = tree_over::<BLOCK>(row);
    writeln!(out, "block {BLOCK} {row}")?;
    let mut before = None;
    for (v, bit) in row.bytes().enumerate() {
        let mut answers = of_position(&tree, v);
        if bit == b'(' {
            answers.extend(of_node(&tree, v, before.replace(v).unwrap_or(v)));
        }
        writeln!(out, "{v} {}", answers.join(" "))?;
    }
    print_levels(&tree, row.len() as u64, out)
}

/// Prints the levels from 0 on, up to and including the first one without a leftmost and a rightmost outline node.
fn print_levels<const BLOCK: usize>(tree: &BpTree<BLOCK>, bits: u64, out: &mut impl Write) -> io::Result<()> {
    for level in 0..bits {
        let ends = [tree.level_leftmost(level), tree.level_rightmost(level)];
        writeln!(out, "level {level} {}", ends.map(found).join(" "))?;
        if ends == [None, None] {
            break;
        }
    }
    Ok(())
}

fn tree_over<const BLOCK: usize>(row: &str) -> BpTree<BLOCK> {
    let mut words = vec![0; row.len().div_ceil(64)];
    for (i, _) in row.match_indices('(') {
        words[i / 64] |= 1 << (i % 64);
    }
    BpTree::from_bit_vector(original::row(words, row.len()))
}

/// Returns the answers of the calls that take any position.
fn of_position<const BLOCK: usize>(tree: &BpTree<BLOCK>, i: usize) -> Vec<String> {
    let single = [tree.close(i), tree.open(i), tree.enclose(i)];
    let forward = APART.map(|r| tree.fwd_search(i, r));
    let backward = APART.map(|r| tree.bwd_search(i, r));
    single.into_iter().chain(forward).chain(backward).map(found).collect()
}

/// Returns the answers of the calls that take a handle `v`. `before` is the previous handle of the row, or `v` itself if there
/// is none.
fn of_node<const BLOCK: usize>(tree: &BpTree<BLOCK>, v: usize, before: usize) -> Vec<String> {
    let around =
        [tree.parent(v), tree.first_child(v), tree.last_child(v), tree.next_sibling(v), tree.previous_sibling(v)];
    let whether = [Some(tree.is_leaf(v)), tree.is_ancestor(v, v), tree.is_ancestor(before, v)];
    let levels = [tree.level_ancestor(v, 1), tree.level_ancestor(v, 3), tree.level_next(v), tree.level_prev(v)];
    let answers = around.map(found).into_iter().chain(whether.map(told)).chain(levels.map(found));
    answers.chain(listing(tree.children(v))).chain(listing(tree.rev_children(v))).collect()
}

/// Returns the answers of a listing and the nothing that ends them.
fn listing(children: impl Iterator<Item = usize>) -> impl Iterator<Item = String> {
    children.map(Some).chain([None]).map(found)
}

fn found(answer: Option<usize>) -> String {
    answer.map_or("-".to_owned(), |at| at.to_string())
}

fn told(answer: Option<bool>) -> String {
    answer.map_or("-", |yes| if yes { "y" } else { "n" }).to_owned()
}
