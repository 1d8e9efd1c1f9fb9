//! Replacement: iterators over the positions of the zeros or ones of a vector, by a plain scan. The original's iterators over
//! all nodes of a tree use them.

use super::RsVec;

fn seek<const ZERO: bool>(vec: &RsVec, from: usize) -> Option<usize> {
    (from..vec.len()).find(|&i| (vec.get_unchecked(i) == 0) == ZERO)
}

pub struct SelectIter<'a, const ZERO: bool> {
    vec: &'a RsVec,
    from: usize,
}

impl<const ZERO: bool> Iterator for SelectIter<'_, ZERO> {
    type Item = usize;

    fn next(&mut self) -> Option<usize> {
        let at = seek::<ZERO>(self.vec, self.from)?;
        self.from = at + 1;
        Some(at)
    }
}

pub struct SelectIntoIter<const ZERO: bool> {
    vec: RsVec,
    from: usize,
}

impl<const ZERO: bool> Iterator for SelectIntoIter<ZERO> {
    type Item = usize;

    fn next(&mut self) -> Option<usize> {
        let at = seek::<ZERO>(&self.vec, self.from)?;
        self.from = at + 1;
        Some(at)
    }
}

impl RsVec {
    pub fn select_iter<const ZERO: bool>(&self) -> SelectIter<'_, ZERO> {
        SelectIter { vec: self, from: 0 }
    }

    pub fn iter0(&self) -> SelectIter<'_, true> {
        self.select_iter()
    }

    pub fn iter1(&self) -> SelectIter<'_, false> {
        self.select_iter()
    }

    pub fn into_iter1(self) -> SelectIntoIter<false> {
        SelectIntoIter { vec: self, from: 0 }
    }
}
