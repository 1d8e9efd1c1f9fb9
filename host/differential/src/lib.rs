//! Compares the calls of the vault with the original and with [`plain`], a second implementation of SCOPE
//! (`docs/SCOPE.md`).
//!
//! A [`Case`] is a row with a bit count, a node buffer and a block size, each of which may be wrong. A [`Call`] is made on it
//! over words and over bytes.
//!
//! - Both answers have to be equal to the answer of [`plain`].
//! - The call must not change any slice.
//! - If the original can answer the call, its answer has to be the same. The exceptions are the differences that [`known`]
//!   names. The [`Tally`] counts them, so that none goes unnoticed.
#![forbid(unsafe_code)]

mod call;
mod case;
pub mod hostile;
pub mod known;
mod ours;
pub mod plain;
mod rng;
pub mod rounds;
pub mod rows;
mod tally;
mod theirs;
mod writes;

pub use call::{Answer, Call};
pub use case::Case;
pub use rng::Rng;
pub use rows::Row;
pub use tally::Tally;
pub use theirs::{original_over, Original, BLOCKS};
pub use writes::{check_build, check_text};
