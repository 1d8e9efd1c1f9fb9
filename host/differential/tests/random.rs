//! Compares random calls on random rows of up to 5,000 bits.
//!
//! With the block sizes 8, 64 and 512 and node buffers as built, the answers are compared with the original and with the second
//! implementation. With wrong arguments (see `hostile`), the second implementation decides.

use differential::known::Known;
use differential::{rounds, Rng, Tally};

/// Runs a number of rounds of a seed and returns the counts.
fn tallied(seed: u64, rounds: u64, round: impl Fn(&mut Rng, &mut Tally)) -> Tally {
    let mut tally = Tally::default();
    (0..rounds).for_each(|number| round(&mut Rng::of_round(seed, number), &mut tally));
    println!("{tally}");
    tally
}

#[test]
fn rows_in_blocks_of_8() {
    assert!(tallied(8, 5000, |rng, tally| rounds::honest(rng, 5000, 8, tally)).original > 100_000);
}

#[test]
fn rows_in_blocks_of_64() {
    assert!(tallied(64, 5000, |rng, tally| rounds::honest(rng, 5000, 64, tally)).original > 100_000);
}

#[test]
fn rows_in_blocks_of_512() {
    assert!(tallied(512, 5000, |rng, tally| rounds::honest(rng, 5000, 512, tally)).original > 100_000);
}

#[test]
fn whatever_is_passed() {
    let tally = tallied(1, 20_000, |rng, tally| rounds::dishonest(rng, 5000, tally));
    assert!(tally.hostile > 1_000_000);
    for known in [Known::HugeLevel, Known::BadHandle, Known::ForeignNodes, Known::TooShort, Known::OddBlock] {
        assert!(tally.of(known) > 1000, "too few calls fall under {known:?}");
    }
}

#[test]
fn texts() {
    assert_eq!(tallied(6, 20_000, |rng, tally| rounds::writing(rng, 5000, tally)).calls, 40_000);
}
