//! The calls over byte slices, for rows of up to 4,096 bits. They serve callers that receive rows and node buffers as bytes.
//!
//! These items have eight bytes each, with the least significant byte first: a word of the row, an entry of the node buffer,
//! and a value that [`children`] or [`rev_children`] writes. Negative values are in two's complement.
//! If the length of such a slice is not a multiple of 8, the one to seven bytes at its end are ignored.
//! The first bit of the row is therefore the least significant bit of the first byte.
//!
//! The text of [`read_text`] has one byte per parenthesis, and its length need not be a multiple of 8.
//! [`read_text`] takes no bit count and tests refusals 2, 6 and 3, in this order.
//!
//! The functions and their refusals are those of [`words`](crate::words), except that
//! [`TooManyBits`](crate::Refusal::TooManyBits) starts above 4,096 bits.
//!
//! ```
//! use vault::{bytes, Refusal};
//!
//! let row = [0b0001_1011, 0, 0, 0, 0, 0, 0, 0]; // (()(()))
//! let mut nodes = [0xff; 48];
//! bytes::build(&row, 8, &mut nodes, 8)?;
//! assert_eq!(nodes[16..24], 3i64.to_le_bytes());
//! assert_eq!(bytes::enclose(&row, 8, &nodes, 8, 4), Ok(Some(3)));
//! assert_eq!(bytes::is_ancestor(&row, 8, &nodes, 8, 1, 3), Ok(Some(false)));
//! assert_eq!(bytes::close(&row, 4_097, &nodes, 8, 0), Err(Refusal::TooManyBits));
//! # Ok::<(), Refusal>(())
//! ```

crate::calls::calls!("bp_", u8, u8);
