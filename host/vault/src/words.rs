//! The calls over slices of words and node buffer entries, for rows of up to 2^32 bits. [`Tree`](crate::Tree) uses them.
//!
//! - Every call except [`read_text`] takes the row and its bit count `bits`.
//! - Calls that need the min-max tree also take the node buffer `nodes` and the block size `block`.
//! - A call tests all its arguments, in the order of the refusal numbers. Only [`read_text`] has another order: it tests
//!   refusals 2, 6 and 3.
//! - A call borrows the slices only while it runs. When it refuses, all slices are unchanged.
//! - A call on a position `at` accepts any number. It returns `Ok(None)` if `at` is not below `bits`.
//! - A call on an outline node returns [`NotAHandle`](crate::Refusal::NotAHandle) if the argument is not a handle.
//! - A call with an argument `level` returns `Ok(None)` if `level` is above `bits`.
//!
//! **The documented answers are those for a node buffer as built.** With any other node buffer a call can return a wrong
//! answer instead of [`NodesMisfit`](crate::Refusal::NodesMisfit). A wrong position is still below `bits`. [`as_built`]
//! tests a node buffer.
//!
//! The [crate documentation](crate) explains the terms and gives the size of the node buffer. `E(k)` is the excess: open bits
//! minus close bits among the first `k` bits. SCOPE, The calls (`docs/SCOPE.md`), has the exact definition of every call.
//!
//! ```
//! use vault::words;
//!
//! let row = [0b0001_1011]; // (()(())), where the first bit is the least significant one
//! let mut nodes = [0; 6];
//! words::build(&row, 8, &mut nodes, 8)?;
//! assert_eq!(nodes, [0, 0, 3, 0, 0, 3]);
//! assert_eq!(words::close(&row, 8, &nodes, 8, 3), Ok(Some(6)));
//! assert_eq!(words::close(&row, 8, &nodes, 8, 8), Ok(None));
//! # Ok::<(), vault::Refusal>(())
//! ```

crate::calls::calls!("bpw_", u64, i64);
