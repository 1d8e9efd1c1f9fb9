//! Rows of parentheses: all rows of a size, and random rows.

use crate::Rng;

/// A row without surplus: it has only the words that its bits need, and unused bits are 0.
#[derive(Clone, Debug, PartialEq, Eq)]
pub struct Row {
    /// Bit i of the row is bit `i % 64` of word `i / 64`.
    pub words: Vec<u64>,
    /// The bit count.
    pub bits: usize,
}

impl Row {
    /// Creates a row from its bits. `true` is an open bit.
    pub fn new(bits: &[bool]) -> Self {
        let mut words = vec![0; bits.len().div_ceil(64)];
        for (i, _) in bits.iter().enumerate().filter(|(_, &open)| open) {
            words[i / 64] |= 1 << (i % 64);
        }
        Row { words, bits: bits.len() }
    }

    /// Creates a row from the first `bits` bits of the words.
    pub fn of_words(words: &[u64], bits: usize) -> Self {
        Row::new(&(0..bits).map(|i| words[i / 64] >> (i % 64) & 1 == 1).collect::<Vec<_>>())
    }

    /// Tests whether bit `i` is an open bit.
    pub fn opens(&self, i: usize) -> bool {
        self.words[i / 64] >> (i % 64) & 1 == 1
    }

    /// Returns the number of open bits.
    pub fn count_opens(&self) -> u64 {
        self.words.iter().map(|word| u64::from(word.count_ones())).sum()
    }

    /// Returns the row as a text of parentheses.
    pub fn text(&self) -> String {
        (0..self.bits).map(|i| if self.opens(i) { '(' } else { ')' }).collect()
    }

    /// Returns the words with random bits past the end of the row and with up to two surplus words. Neither ever matters.
    pub fn with_surplus(&self, rng: &mut Rng) -> Vec<u64> {
        let mut words = self.words.clone();
        if !self.bits.is_multiple_of(64) {
            *words.last_mut().expect("a row with bits has words") |= rng.any() << (self.bits % 64);
        }
        words.extend((0..rng.below(3)).map(|_| rng.any()));
        words
    }
}

/// Returns every row of `bits` bits.
pub fn every(bits: usize) -> impl Iterator<Item = Row> {
    (0..1u64 << bits).map(move |word| Row::of_words(&[word], bits))
}

/// Returns a random row of up to `most` bits. Half of these rows are trees, and a tree has at least two bits.
pub fn any(rng: &mut Rng, most: usize) -> Row {
    let bits = match rng.below(4) {
        0 => rng.index(most.min(40) + 1),
        1 => rng.index(most.min(600) + 1),
        _ => rng.index(most + 1),
    };
    let even = (bits / 2 * 2).max(2);
    match rng.below(8) {
        0 | 1 => uniform_tree(rng, even),
        2 => path(rng, even),
        3 => bushy(rng, even),
        4 | 5 => biased(rng, bits),
        6 => stretches(rng, bits),
        _ => nested(bits),
    }
}

/// Returns a random tree. All trees of `bits` bits, an even number, are equally likely.
pub fn uniform_tree(rng: &mut Rng, bits: usize) -> Row {
    let mut row = Vec::with_capacity(bits);
    row.push(true);
    let mut excess = 0u128;
    for left in (1..=bits as u128 - 2).rev() {
        // The share of the possible continuations of the row whose next bit is an open bit.
        let opens = (u128::from(rng.any()) * (2 * left * (excess + 1))) >> 64 < (excess + 2) * (left - excess);
        row.push(opens);
        excess = if opens { excess + 1 } else { excess - 1 };
    }
    row.push(false);
    Row::new(&row)
}

/// Returns a long path of outline nodes. About one outline node in ten is a leaf beside the path.
pub fn path(rng: &mut Rng, bits: usize) -> Row {
    let mut row = Vec::with_capacity(bits);
    let mut open = 0;
    for _ in 0..bits / 2 {
        if open > 0 && rng.once_in(10) {
            row.extend([true, false]);
        } else {
            row.push(true);
            open += 1;
        }
    }
    row.extend(std::iter::repeat_n(false, open));
    Row::new(&row)
}

/// Returns a random recursive tree: the parent of each outline node is any earlier one. Such a tree is shallow and wide.
pub fn bushy(rng: &mut Rng, bits: usize) -> Row {
    const NONE: u32 = u32::MAX;
    let nodes = bits / 2;
    let (mut child, mut sibling) = (vec![NONE; nodes], vec![NONE; nodes]);
    for (node, sibling) in sibling.iter_mut().enumerate().skip(1) {
        *sibling = std::mem::replace(&mut child[rng.index(node)], node as u32);
    }
    let mut row = Vec::with_capacity(bits);
    row.push(true);
    let mut open = vec![0usize];
    while let Some(&node) = open.last() {
        let next = child[node];
        if next == NONE {
            row.push(false);
            open.pop();
        } else {
            child[node] = sibling[next as usize];
            row.push(true);
            open.push(next as usize);
        }
    }
    Row::new(&row)
}

/// Returns random bits. Each is an open bit with the same probability.
fn biased(rng: &mut Rng, bits: usize) -> Row {
    let opens = 1 + rng.below(15);
    Row::new(&(0..bits).map(|_| rng.below(16) < opens).collect::<Vec<_>>())
}

/// Returns stretches of equal bits.
fn stretches(rng: &mut Rng, bits: usize) -> Row {
    let mut row = Vec::with_capacity(bits + 100);
    while row.len() < bits {
        let (open, length) = (rng.once_in(2), 1 + rng.index(100));
        row.extend(std::iter::repeat_n(open, length));
    }
    row.truncate(bits);
    Row::new(&row)
}

/// Returns a row whose first half is open bits and whose second half is close bits.
fn nested(bits: usize) -> Row {
    Row::new(&(0..bits).map(|i| i < bits.div_ceil(2)).collect::<Vec<_>>())
}

#[cfg(test)]
mod tests {
    use super::*;

    fn is_tree(row: &Row) -> bool {
        let mut excess = 0;
        let after = |i| {
            excess += if row.opens(i) { 1 } else { -1 };
            excess
        };
        let runs: Vec<i32> = (0..row.bits).map(after).collect();
        row.bits >= 2 && runs[row.bits - 1] == 0 && runs[..row.bits - 1].iter().all(|&excess| excess > 0)
    }

    #[test]
    fn trees_are_trees() {
        let mut rng = Rng::new(1);
        for bits in (2..200).step_by(2) {
            for row in [uniform_tree(&mut rng, bits), path(&mut rng, bits), bushy(&mut rng, bits)] {
                assert!(row.bits == bits && is_tree(&row), "{}", row.text());
            }
        }
    }

    #[test]
    fn trees_of_eight_bits_are_drawn_evenly() {
        let mut rng = Rng::new(2);
        let mut drawn = std::collections::BTreeMap::new();
        for _ in 0..5000 {
            *drawn.entry(uniform_tree(&mut rng, 8).text()).or_insert(0) += 1;
        }
        assert_eq!(drawn.len(), 5);
        assert!(drawn.values().all(|&times| (900..1100).contains(&times)), "{drawn:?}");
    }
}
