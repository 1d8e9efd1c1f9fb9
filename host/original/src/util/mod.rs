//! Replacement: the macros that the files of the original call, and `pdep`.

pub(crate) mod pdep;

/// Generates nothing. The macro of the original generates iterators over the bits of a vector, but no file in `docs/src` uses
/// them.
macro_rules! impl_vector_iterator {
    ($vec:ty, $into_iter:ident, $ref_iter:ident) => {};
}
pub(crate) use impl_vector_iterator;

/// Runs `body` and then `step`, `n` times. `step` changes the variable `i`.
macro_rules! unroll_n {
    ($n:literal, |$i:ident = $init:block| $body:expr, $step:expr) => {{
        #[allow(unused_mut)]
        let mut $i = $init;
        for _ in 0..$n {
            $body;
            $step;
        }
        let _ = $i;
    }};
}
pub(crate) use unroll_n;
