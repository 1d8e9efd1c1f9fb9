//! Compares every call on every row of up to 12 bits, with the block size 8.
//!
//! The calls have every position of the row and some past its end, and every `r` and level in reach and some beyond.

use differential::{check_build, rows, Call, Case, Rng, Tally};

/// Compares every call on every row whose bit count is in the range.
fn every_row_of(bits: std::ops::RangeInclusive<usize>) -> Tally {
    let mut tally = Tally::default();
    let mut rng = Rng::new(8);
    for bits in bits {
        let calls = Call::every(bits);
        for row in rows::every(bits) {
            let case = Case::built(&row, 8, &mut rng);
            check_build(&case.words, case.bits, &case.nodes, 8, &mut rng, &mut tally);
            calls.iter().for_each(|&call| case.check(call, &mut tally));
        }
    }
    println!("{tally}");
    tally
}

#[test]
fn rows_of_up_to_10_bits() {
    assert!(every_row_of(0..=10).original > 1_000_000);
}

#[test]
fn rows_of_11_bits() {
    assert!(every_row_of(11..=11).original > 1_000_000);
}

#[test]
fn rows_of_12_bits() {
    assert!(every_row_of(12..=12).original > 1_000_000);
}
