//! Wrong arguments: damaged node buffers, foreign node buffers, wrong bit counts and block sizes, short slices.

use crate::plain::Passed;
use crate::{rows, Case, Rng, Row};

/// Creates a case that starts with a node buffer as built and then gets one or two random faults.
pub fn any(rng: &mut Rng, most: usize) -> Case {
    let row = rows::any(rng, most);
    let fit = any_block(rng);
    let (mut words, mut bits, mut nodes, mut block) = (row.with_surplus(rng), row.bits as u64, build(&row, fit), fit);
    for _ in 0..1 + rng.below(2) {
        match rng.below(12) {
            0..3 => damage(rng, &mut nodes),
            3..5 => nodes.iter_mut().for_each(|number| *number = any_number(rng)),
            5 => nodes = resized(build(&rows::any(rng, most), fit), nodes.len(), rng),
            6 => nodes = resized(build(&row, any_block(rng)), nodes.len(), rng),
            7 => flip(rng, &mut words),
            8 => shorten(rng, &mut words),
            9 => shorten(rng, &mut nodes),
            10 => bits = any_bits(rng, bits),
            _ => block = wrong_block(rng),
        }
    }
    Case::new(words, bits, nodes, block, rng)
}

/// Returns the entries that a build writes for a row.
fn build(row: &Row, block: u64) -> Vec<i64> {
    Passed { words: &row.words, bits: row.bits as u64, nodes: &[], block, most: u64::MAX }.build()
}

/// Returns a valid block size: one that the original is compiled for, or another.
fn any_block(rng: &mut Rng) -> u64 {
    match rng.below(8) {
        0 => 8 * (1 + rng.below(8192)),
        1 => 8 * (1 + rng.below(16)),
        _ => rng.pick(&[8, 8, 8, 16, 64, 512]),
    }
}

/// Returns a block size that is invalid most of the time.
fn wrong_block(rng: &mut Rng) -> u64 {
    match rng.below(3) {
        0 => rng.pick(&[0, 1, 4, 7, 9, 12, 65_528, 65_536, 65_537, 65_544, 1 << 32, 1 << 63, u64::MAX]),
        1 => rng.below(200),
        _ => any_block(rng),
    }
}

/// Returns a bit count: near the right one, at a limit, or anything.
fn any_bits(rng: &mut Rng, bits: u64) -> u64 {
    match rng.below(4) {
        0 => bits.saturating_add(rng.below(20)).saturating_sub(10),
        1 => rng.pick(&[0, 1, 64, 65, 4095, 4096, 4097, 1 << 32, (1 << 32) + 1, 1 << 63, u64::MAX]),
        2 => rng.below(bits.saturating_add(1)),
        _ => rng.any() >> rng.below(64),
    }
}

/// Returns an entry for a node buffer: small, anywhere from -2^32 to 2^32, at an edge of that range, or at an end of `i64`.
fn any_number(rng: &mut Rng) -> i64 {
    const EDGE: i64 = 1 << 32;
    match rng.below(16) {
        0 => rng.pick(&[EDGE, -EDGE, EDGE - 1, 1 - EDGE]),
        1 if rng.once_in(4) => rng.pick(&[EDGE + 1, -EDGE - 1, i64::MIN, i64::MIN + 1, i64::MAX]),
        2 if rng.once_in(8) => rng.any() as i64,
        1..3 => rng.within(EDGE),
        3 | 4 => rng.within(1000),
        _ => rng.within(12),
    }
}

/// Changes some entries: by a small amount, or to any value.
fn damage(rng: &mut Rng, nodes: &mut [i64]) {
    if nodes.is_empty() {
        return;
    }
    for _ in 0..1 + rng.below(6) {
        let k = rng.index(nodes.len());
        nodes[k] = if rng.once_in(3) { any_number(rng) } else { nodes[k].wrapping_add(rng.within(5)) };
    }
}

/// Flips one bit.
fn flip(rng: &mut Rng, words: &mut [u64]) {
    if !words.is_empty() {
        let k = rng.index(words.len());
        words[k] ^= 1 << rng.below(64);
    }
}

/// Removes elements from the end, mostly a few.
fn shorten<T>(rng: &mut Rng, values: &mut Vec<T>) {
    let less = if rng.once_in(3) { rng.index(values.len() + 1) } else { rng.index(4) };
    values.truncate(values.len().saturating_sub(less));
}

/// Cuts the entries to a length, or fills them up with random ones.
fn resized(mut nodes: Vec<i64>, length: usize, rng: &mut Rng) -> Vec<i64> {
    nodes.truncate(length);
    while nodes.len() < length {
        nodes.push(any_number(rng));
    }
    nodes
}
