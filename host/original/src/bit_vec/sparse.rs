//! Replacement. `bit_vec/mod.rs` declares this module but uses nothing of it. As a child of `bit_vec` the module can access
//! private fields, so it can create a bit vector from words.

use super::BitVec;

/// Creates a bit vector of the first `len` bits of `data`. It keeps surplus words, and the bits from `len` on, unchanged.
pub fn row(data: Vec<u64>, len: usize) -> BitVec {
    BitVec { data, len }
}
