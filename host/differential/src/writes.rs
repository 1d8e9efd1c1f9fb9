//! Comparison of the two calls that write rows and node buffers: the build and the text reader.

use crate::ours::{bytes_of, numbers_of};
use crate::plain::{self, Passed, MOST_BYTES, MOST_WORDS};
use crate::{Rng, Row, Tally};

/// Compares builds over words and over bytes with `plain`, and the entries also with the original.
///
/// The node buffer may start with any content. The build has to write exactly the entries of the row and leave the rest
/// unchanged. If the build is not refused, the entries have to be those of the original.
pub fn check_build(words: &[u64], bits: u64, nodes: &[i64], block: u64, rng: &mut Rng, tally: &mut Tally) {
    let told =
        |way: &str| format!("build over {way}: bits {bits}, block {block}, {} entries, words {words:x?}", nodes.len());

    let passed = |most| Passed { words, bits, nodes, block, most };
    let (wanted, left) = written(passed(MOST_WORDS), nodes);
    let mut ours = nodes.to_vec();
    let answer = vault::words::build(words, bits, &mut ours, block).map_err(|refusal| refusal.number());
    assert_eq!((answer, &ours), (wanted, &left), "{}", told("words"));

    let (wanted, left) = written(passed(MOST_BYTES), nodes);
    let row = bytes_of(words, u64::to_le_bytes, rng);
    let before = bytes_of(nodes, i64::to_le_bytes, rng);
    let mut ours = before.clone();
    let answer = vault::bytes::build(&row, bits, &mut ours, block).map_err(|refusal| refusal.number());
    assert_eq!((answer, numbers_of(&ours)), (wanted, left), "{}", told("bytes"));
    assert_eq!(ours[8 * nodes.len()..], before[8 * nodes.len()..], "{}: the extra bytes changed", told("bytes"));
    tally.calls += 2;

    if passed(MOST_WORDS).admit().is_ok() {
        let row = Row::of_words(words, bits as usize);
        let theirs = original::node_numbers(&original::row(row.words, row.bits), block as usize);
        assert_eq!(passed(MOST_WORDS).build(), theirs, "{}: the entries differ from the original", told("words"));
        tally.original += 1;
    }
}

/// Returns the answer that a build has to give, and the content that its node buffer has to have afterwards.
fn written(passed: Passed, nodes: &[i64]) -> (Result<(), u8>, Vec<i64>) {
    let mut left = nodes.to_vec();
    let answer = passed.admit();
    if answer.is_ok() {
        let built = passed.build();
        left[..built.len()].copy_from_slice(&built);
    }
    (answer, left)
}

/// Compares the text readers over words and over bytes with `plain`. The row may start with any content.
pub fn check_text(text: &[u8], words: &[u64], rng: &mut Rng, tally: &mut Tally) {
    let told = |way: &str| format!("text over {way}: {} words, text {:?}", words.len(), String::from_utf8_lossy(text));

    let (wanted, left) = read(text, words, MOST_WORDS);
    let mut ours = words.to_vec();
    let answer = vault::words::read_text(text, &mut ours).map_err(|refusal| refusal.number());
    assert_eq!((answer, &ours), (wanted, &left), "{}", told("words"));

    let (wanted, left) = read(text, words, MOST_BYTES);
    let before = bytes_of(words, u64::to_le_bytes, rng);
    let mut ours = before.clone();
    let answer = vault::bytes::read_text(text, &mut ours).map_err(|refusal| refusal.number());
    let left: Vec<u8> = left.iter().flat_map(|word| word.to_le_bytes()).collect();
    assert_eq!((answer, &ours[..left.len()]), (wanted, &left[..]), "{}", told("bytes"));
    assert_eq!(ours[left.len()..], before[left.len()..], "{}: the extra bytes changed", told("bytes"));
    tally.calls += 2;
}

/// Returns the answer that a text reader has to give, and the content that its words have to have afterwards.
fn read(text: &[u8], words: &[u64], most: u64) -> (Result<u64, u8>, Vec<u64>) {
    let mut left = words.to_vec();
    let answer = plain::read_text(text, words.len(), most).map(|written| {
        left[..written.len()].copy_from_slice(&written);
        text.len() as u64
    });
    (answer, left)
}
