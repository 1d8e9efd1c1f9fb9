//! Safe functions over the C functions of the static libraries `capi` and `probe`.
//!
//! The macro `calls!` generates all of them twice: over words for the module [`words`], over bytes for the module [`bytes`].
//! All unsafe code of this crate is in this file.
//!
//! `include/faamosela.h` declares the C functions. Every slice crosses as a pointer and a length. The pointer is never null,
//! even if the slice is empty. For any content of the slices and any value of the numbers, each C function is proved to
//!
//! - terminate,
//! - read only within the slices that it receives,
//! - write only within the slices that it receives as mutable.
//!
//! The caller has to pass pointers that are aligned and valid for their lengths. A slice that is written must not overlap
//! another slice. Rust references guarantee all of this.
//!
//! [`words`]: crate::words
//! [`bytes`]: crate::bytes

/// Generates all calls over slices of the two types. The names of their C functions begin with `$prefix`.
macro_rules! calls {
    ($prefix:literal, $Word:ty, $Number:ty) => {
        use crate::answer::{count, decided, done, position, told};
        use crate::calls::{building, listing, over_nodes, over_row, reading};
        use crate::Refusal;

        building! { $prefix, $Word, $Number;
            /// Writes the node buffer of the row to `nodes`.
            ///
            /// The [crate documentation](crate#size-of-the-node-buffer) gives the number of entries that the row needs. Only
            /// these entries are written. All later elements keep their value. On refusal the whole slice is unchanged.
            build
        }

        reading! { $prefix, $Word;
            /// Converts a text of parentheses to a row and returns the number of bits, which is `text.len()`.
            ///
            /// `(` becomes an open bit, `)` a close bit. Refusals 2, 6 and 3 are tested, in this order.
            ///
            /// `row` needs room for `text.len() / 64` words, rounded up. Only these words are written. All later elements keep
            /// their value. Unused bits of the last written word are 0. On refusal the whole slice is unchanged.
            read_text
        }

        over_row! { $prefix, $Word;
            /// Tests whether the row is one tree: its first bit is an open bit, and the matching close bit is its last bit.
            one_tree() -> decided: bool;
            /// Returns the handle of the root, which is 0, or `None` if the row has no bits. Bit 0 is not tested.
            root() -> position: Option<u64>;
            /// Returns the first child of the outline node `node`, or `None` if it has no child.
            ///
            /// Exactly: `node + 1` if that is below `bits` and its bit is an open bit, otherwise `None`.
            first_child(node: u64) -> position: Option<u64>;
            /// Tests whether the outline node `node` has no child.
            ///
            /// Returns `true` if the bit after `node` is a close bit. Returns `false` if that bit is an open bit or if `node`
            /// is the last position.
            is_leaf(node: u64) -> decided: bool;
        }

        over_nodes! { $prefix, $Word, $Number;
            /// Tests whether the node buffer begins with exactly the entries that [`build`] writes for this row, `bits` and
            /// `block`.
            as_built() -> decided: bool;
            /// Returns the least position `j` with `at < j < bits` and `E(j + 1) = E(at + 1) + r`, or `None` if there is none.
            fwd_search(at: u64, r: i64) -> position: Option<u64>;
            /// Returns the greatest position `j < at` with `E(j) = E(at) + r`, or `None` if there is none.
            bwd_search(at: u64, r: i64) -> position: Option<u64>;
            /// Returns the position of the close bit that matches the open bit at `at`, or `None` if there is none.
            ///
            /// Exactly, for any bit at `at`: `fwd_search(at, -1)`.
            close(at: u64) -> position: Option<u64>;
            /// Returns the position of the open bit that matches the close bit at `at`, or `None` if there is none.
            ///
            /// Exactly, for any bit at `at`: `bwd_search(at, -1)`.
            open(at: u64) -> position: Option<u64>;
            /// Returns the handle of the nearest pair of parentheses around the pair of the bit at `at`, or `None` if there is
            /// none.
            ///
            /// Exactly: `bwd_search(at, -1)` if the bit at `at` is an open bit, and `bwd_search(at, -2)` if it is a close bit.
            enclose(at: u64) -> position: Option<u64>;
            /// Returns the outline node directly around `node`, or `None` if there is none.
            parent(node: u64) -> position: Option<u64>;
            /// Returns the last child of the outline node `node`, or `None` if it has no child.
            last_child(node: u64) -> position: Option<u64>;
            /// Returns the next child of the same parent, or `None` if `node` is the last child.
            next_sibling(node: u64) -> position: Option<u64>;
            /// Returns the previous child of the same parent, or `None` if `node` is the first child.
            previous_sibling(node: u64) -> position: Option<u64>;
            /// Tests whether the outline node `ancestor` contains the outline node `descendant`. The answer is also `true` if
            /// both are the same outline node.
            ///
            /// Returns `None` if `ancestor` has no matching close bit.
            is_ancestor(ancestor: u64, descendant: u64) -> told: Option<bool>;
            /// Returns the ancestor that is `level` levels above `node`, or `None` if there is none.
            ///
            /// Here `level` is a distance: 0 gives `node` itself, 1 gives its parent.
            level_ancestor(node: u64, level: u64) -> position: Option<u64>;
            /// Returns the next outline node on the level of `node`, or `None` if there is none.
            level_next(node: u64) -> position: Option<u64>;
            /// Returns the previous outline node on the level of `node`, or `None` if there is none.
            level_prev(node: u64) -> position: Option<u64>;
            /// Returns the first outline node on the level `level`, or `None` if there is none.
            ///
            /// For level 0 it returns 0 on every row that has bits.
            level_leftmost(level: u64) -> position: Option<u64>;
            /// Returns the last outline node on the level `level`, or `None` if there is none.
            ///
            /// Exception: if the root has no child, it returns `None` for level 0, although the root is on level 0.
            level_rightmost(level: u64) -> position: Option<u64>;
        }

        listing! { $prefix, $Word, $Number;
            /// Writes the handles of the children of `node` to `out`, from the first to the last, and then -1.
            ///
            /// Returns the number of values that it writes. This count includes the final -1 and a written refusal. Stops when
            /// `out` is full; the final -1 is then missing. Elements after the written values keep their value.
            ///
            /// Room for `bits + 2` values in `out` always suffices. With a node buffer as built, room for one value per child
            /// and the final -1 is enough.
            ///
            /// - Returned refusals, with no value written: 1 to 5, for wrong arguments.
            /// - Written refusal, followed by the final -1: 8, as the value -9, if the search for the next child refuses. This
            ///   happens only if the node buffer is not as built.
            children;
            /// Writes the handles of the children of `node` to `out`, from the last to the first, and then -1.
            ///
            /// The returned count, the end of the writing and the room in `out` are as for [`children`].
            ///
            /// - Returned refusals, with no value written: 1 to 5, for wrong arguments, and 8 if the search for the last child
            ///   refuses.
            /// - Written refusals, followed by the final -1: 8, as the value -9, if the search for the previous child refuses;
            ///   5, as the value -6, if the value written before it is the position of a close bit.
            ///
            /// Refusal 8 and the written refusal 5 occur only if the node buffer is not as built.
            rev_children;
        }
    };
}

/// Generates calls that take a row and no node buffer.
///
/// A call is written `name(arguments) -> read: Answer`. The function `read` of the module [`answer`](crate::answer) decodes
/// the value that the C function returns.
macro_rules! over_row {
    ($prefix:literal, $Word:ty;
        $($(#[$doc:meta])* $name:ident($($arg:ident: $Arg:ty),*) -> $read:ident: $Answer:ty;)*) => {$(
        $(#[$doc])*
        #[inline]
        #[allow(unsafe_code)]
        pub fn $name(row: &[$Word], bits: u64, $($arg: $Arg),*) -> Result<$Answer, Refusal> {
            extern "C" {
                #[link_name = concat!($prefix, stringify!($name))]
                fn call(row: *const $Word, row_len: usize, bits: u64, $($arg: $Arg),*) -> i64;
            }
            // SAFETY: the slice is borrowed during the call. The C function only reads it.
            $read(unsafe { call(row.as_ptr(), row.len(), bits, $($arg),*) })
        }
    )*};
}

/// Generates calls that take a row and its node buffer, written as in [`over_row`].
macro_rules! over_nodes {
    ($prefix:literal, $Word:ty, $Number:ty;
        $($(#[$doc:meta])* $name:ident($($arg:ident: $Arg:ty),*) -> $read:ident: $Answer:ty;)*) => {$(
        $(#[$doc])*
        #[inline]
        #[allow(unsafe_code)]
        pub fn $name(
            row: &[$Word],
            bits: u64,
            nodes: &[$Number],
            block: u64,
            $($arg: $Arg),*
        ) -> Result<$Answer, Refusal> {
            extern "C" {
                #[link_name = concat!($prefix, stringify!($name))]
                fn call(
                    row: *const $Word,
                    row_len: usize,
                    bits: u64,
                    nodes: *const $Number,
                    nodes_len: usize,
                    block: u64,
                    $($arg: $Arg),*
                ) -> i64;
            }
            // SAFETY: both slices are borrowed during the call. The C function only reads them.
            $read(unsafe { call(row.as_ptr(), row.len(), bits, nodes.as_ptr(), nodes.len(), block, $($arg),*) })
        }
    )*};
}

/// Generates the call that writes a node buffer.
macro_rules! building {
    ($prefix:literal, $Word:ty, $Number:ty; $(#[$doc:meta])* $name:ident) => {
        $(#[$doc])*
        #[inline]
        #[allow(unsafe_code)]
        pub fn $name(row: &[$Word], bits: u64, nodes: &mut [$Number], block: u64) -> Result<(), Refusal> {
            extern "C" {
                #[link_name = concat!($prefix, stringify!($name))]
                fn call(
                    row: *const $Word,
                    row_len: usize,
                    bits: u64,
                    nodes: *mut $Number,
                    nodes_len: usize,
                    block: u64,
                ) -> i64;
            }
            // SAFETY: the row is borrowed during the call, and the C function only reads it. The node buffer is borrowed as
            // mutable, so no other slice overlaps it.
            done(unsafe { call(row.as_ptr(), row.len(), bits, nodes.as_mut_ptr(), nodes.len(), block) })
        }
    };
}

/// Generates the call that reads a text and writes a row.
macro_rules! reading {
    ($prefix:literal, $Word:ty; $(#[$doc:meta])* $name:ident) => {
        $(#[$doc])*
        #[inline]
        #[allow(unsafe_code)]
        pub fn $name(text: &[u8], row: &mut [$Word]) -> Result<u64, Refusal> {
            extern "C" {
                #[link_name = concat!($prefix, stringify!($name))]
                fn call(text: *const u8, text_len: usize, row: *mut $Word, row_len: usize) -> i64;
            }
            // SAFETY: the text is borrowed during the call, and the C function only reads it. The row is borrowed as mutable,
            // so no other slice overlaps it.
            count(unsafe { call(text.as_ptr(), text.len(), row.as_mut_ptr(), row.len()) })
        }
    };
}

/// Generates the calls that write the children of an outline node.
macro_rules! listing {
    ($prefix:literal, $Word:ty, $Number:ty; $($(#[$doc:meta])* $name:ident;)*) => {$(
        $(#[$doc])*
        #[inline]
        #[allow(unsafe_code)]
        pub fn $name(
            row: &[$Word],
            bits: u64,
            nodes: &[$Number],
            block: u64,
            node: u64,
            out: &mut [$Number],
        ) -> Result<u64, Refusal> {
            extern "C" {
                #[link_name = concat!($prefix, stringify!($name))]
                fn call(
                    row: *const $Word,
                    row_len: usize,
                    bits: u64,
                    nodes: *const $Number,
                    nodes_len: usize,
                    block: u64,
                    node: u64,
                    out: *mut $Number,
                    out_len: usize,
                ) -> i64;
            }
            let (r, n) = (row.len(), nodes.len());
            // SAFETY: `row` and `nodes` are borrowed during the call, and the C function only reads them. `out` is borrowed as
            // mutable, so no other slice overlaps it.
            count(unsafe { call(row.as_ptr(), r, bits, nodes.as_ptr(), n, block, node, out.as_mut_ptr(), out.len()) })
        }
    )*};
}

pub(crate) use {building, calls, listing, over_nodes, over_row, reading};
