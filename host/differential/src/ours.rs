//! The calls of the vault, over words and over bytes.

use vault::Refusal;

use crate::{Answer, Call, Rng};

/// The byte that fills the output slice of a listing. It shows which part the listing writes.
const UNWRITTEN: u8 = 0x5a;

/// Generates the function that makes a call through the module `words` or `bytes` of the vault.
macro_rules! asking {
    ($name:ident, $way:ident, $Word:ty, $Number:ty, $list:ident) => {
        pub fn $name(row: &[$Word], bits: u64, nodes: &[$Number], block: u64, call: Call) -> Answer {
            use vault::$way as way;
            match call {
                Call::FwdSearch { at, r } => value(way::fwd_search(row, bits, nodes, block, at, r)),
                Call::BwdSearch { at, r } => value(way::bwd_search(row, bits, nodes, block, at, r)),
                Call::Close { at } => value(way::close(row, bits, nodes, block, at)),
                Call::Open { at } => value(way::open(row, bits, nodes, block, at)),
                Call::Enclose { at } => value(way::enclose(row, bits, nodes, block, at)),
                Call::Root => value(way::root(row, bits)),
                Call::Parent { node } => value(way::parent(row, bits, nodes, block, node)),
                Call::FirstChild { node } => value(way::first_child(row, bits, node)),
                Call::LastChild { node } => value(way::last_child(row, bits, nodes, block, node)),
                Call::NextSibling { node } => value(way::next_sibling(row, bits, nodes, block, node)),
                Call::PreviousSibling { node } => value(way::previous_sibling(row, bits, nodes, block, node)),
                Call::IsLeaf { node } => value(way::is_leaf(row, bits, node)),
                Call::IsAncestor { ancestor, descendant } => {
                    value(way::is_ancestor(row, bits, nodes, block, ancestor, descendant))
                }
                Call::LevelAncestor { node, level } => value(way::level_ancestor(row, bits, nodes, block, node, level)),
                Call::LevelNext { node } => value(way::level_next(row, bits, nodes, block, node)),
                Call::LevelPrev { node } => value(way::level_prev(row, bits, nodes, block, node)),
                Call::LevelLeftmost { level } => value(way::level_leftmost(row, bits, nodes, block, level)),
                Call::LevelRightmost { level } => value(way::level_rightmost(row, bits, nodes, block, level)),
                Call::OneTree => value(way::one_tree(row, bits)),
                Call::AsBuilt => value(way::as_built(row, bits, nodes, block)),
                Call::Children { node, room } => $list(room, |out| way::children(row, bits, nodes, block, node, out)),
                Call::RevChildren { node, room } => {
                    $list(room, |out| way::rev_children(row, bits, nodes, block, node, out))
                }
            }
        }
    };
}

asking!(over_words, words, u64, i64, list_numbers);
asking!(over_bytes, bytes, u8, u8, list_bytes);

fn value(answer: Result<impl Into<Answer>, Refusal>) -> Answer {
    answer.map_or_else(|refusal| Answer::refused(refusal.number()), Into::into)
}

/// Makes a listing with room for a number of answers. The rest of the output slice has to be unchanged.
fn list_numbers(room: usize, list: impl FnOnce(&mut [i64]) -> Result<u64, Refusal>) -> Answer {
    let unwritten = i64::from_le_bytes([UNWRITTEN; 8]);
    let mut out = vec![unwritten; room];
    let written = list(&mut out);
    let (steps, rest) = out.split_at(written.unwrap_or(0) as usize);
    assert!(rest.iter().all(|&number| number == unwritten), "the listing wrote past its last answer");
    value(written.map(|_| Answer::Steps(steps.to_vec())))
}

/// Makes a listing into bytes. The output slice has up to seven extra bytes that do not count.
fn list_bytes(room: usize, list: impl FnOnce(&mut [u8]) -> Result<u64, Refusal>) -> Answer {
    let mut out = vec![UNWRITTEN; 8 * room + room % 8];
    let written = list(&mut out);
    let (steps, rest) = out.split_at(8 * written.unwrap_or(0) as usize);
    assert!(rest.iter().all(|&byte| byte == UNWRITTEN), "the listing wrote past its last answer");
    value(written.map(|_| Answer::Steps(numbers_of(steps))))
}

/// Returns words or entries as bytes, with up to seven extra bytes.
pub fn bytes_of<T: Copy>(values: &[T], bytes: impl Fn(T) -> [u8; 8], rng: &mut Rng) -> Vec<u8> {
    let more = rng.index(8);
    let tail = rng.any().to_le_bytes();
    values.iter().flat_map(|&value| bytes(value)).chain(tail[..more].iter().copied()).collect()
}

/// Returns the `i64` values that the bytes encode.
pub fn numbers_of(bytes: &[u8]) -> Vec<i64> {
    bytes.chunks_exact(8).map(|eight| i64::from_le_bytes(eight.try_into().expect("eight bytes"))).collect()
}
