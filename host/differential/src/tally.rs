use std::fmt;

use crate::known::Known;
use crate::Answer;

/// Counts of the calls compared so far.
#[derive(Clone, Debug, Default, PartialEq, Eq)]
pub struct Tally {
    /// Calls of the static libraries. Each is compared with `plain`, the second implementation.
    pub calls: u64,
    /// Calls on cases whose node buffer is not as built or to which one of the refusals 1 to 4 applies.
    pub hostile: u64,
    /// Answers that are also compared with the original.
    pub original: u64,
    /// Answers over bytes, by kind. Index 0 counts positions, yes, no and listings. Index 1 counts nothing. Index k + 1 counts
    /// refusal k.
    pub answers: [u64; 10],
    /// Calls that fall under each known difference, in the order of [`Known::ALL`].
    pub known: [u64; Known::ALL.len()],
}

impl Tally {
    /// Returns the number of calls that fall under a known difference.
    pub fn of(&self, known: Known) -> u64 {
        self.known[known as usize]
    }

    /// Counts a call that is made over words and over bytes.
    pub(crate) fn count(&mut self, answer: &Answer, hostile: bool) {
        self.calls += 2;
        self.hostile += if hostile { 2 } else { 0 };
        self.answers[match answer {
            Answer::Value(value @ ..0) => -value as usize,
            _ => 0,
        }] += 1;
    }
}

impl fmt::Display for Tally {
    fn fmt(&self, f: &mut fmt::Formatter<'_>) -> fmt::Result {
        writeln!(
            f,
            "{} calls compared, {} of them hostile; {} answers also compared with the original",
            self.calls, self.hostile, self.original
        )?;
        write!(f, "  answered {}, nothing {}, refused", self.answers[0], self.answers[1])?;
        for (number, times) in (1..).zip(&self.answers[2..]) {
            write!(f, " {number}: {times}")?;
        }
        write!(f, "\n  known differences met:")?;
        for known in Known::ALL {
            write!(f, " {known:?} {}", self.of(known))?;
        }
        Ok(())
    }
}
