//! Replacement: parallel bit deposit. The original uses it for select within a word.

pub(crate) trait Pdep {
    fn pdep(self, mask: Self) -> Self;
}

impl Pdep for u64 {
    /// Moves the low bits of `self`, in order, to the positions of the 1 bits of `mask`. All other bits of the result are 0.
    fn pdep(self, mut mask: u64) -> u64 {
        let (mut bits, mut placed) = (self, 0);
        while mask != 0 {
            let place = mask & mask.wrapping_neg();
            if bits & 1 == 1 {
                placed |= place;
            }
            bits >>= 1;
            mask ^= place;
        }
        placed
    }
}
