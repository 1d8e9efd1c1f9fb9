//! The known differences between the original and the vault, as predicates. `docs/DIFFERENCES.md` lists them.
//!
//! A call that falls under a known difference is counted. It is compared with [`plain`](crate::plain) but not with the original,
//! except for [`Known::Surplus`].
//!
//! Some differences exist only in a build with debug assertions and overflow checks, where the original panics. In a release
//! build these calls are compared like all others. `tests/differences.rs` tests the smallest input of each difference.

use crate::{Call, Case};

/// A known difference.
#[derive(Clone, Copy, Debug, PartialEq, Eq)]
pub enum Known {
    /// The empty row: `level_leftmost(0)` of the original returns 0. With checks on, its forward searches panic.
    EmptyRow,
    /// A row without open bits: with checks on, `level_rightmost` of the original panics.
    NoOpens,
    /// A level of 2^63 or more: the original converts it to a negative number.
    HugeLevel,
    /// An `r` or a level so near an end of `i64` that a sum can overflow: with checks on, the original panics.
    ExtremeR,
    /// An argument that is not a handle: the vault refuses it.
    BadHandle,
    /// A foreign node buffer: the original always uses the one that it builds itself.
    ForeignNodes,
    /// Too many bits, or too few words or entries: the original owns its row and its node buffer.
    TooShort,
    /// A block size that the vault refuses.
    OddBlock,
    /// `level_rightmost` with surplus words: the original counts their bits as bits of the row. This is the only difference
    /// where an answer of the original is still compared: the answer of its tree without the surplus words.
    Surplus,
}

impl Known {
    /// All known differences.
    pub const ALL: [Known; 9] = [
        Known::EmptyRow,
        Known::NoOpens,
        Known::HugeLevel,
        Known::ExtremeR,
        Known::BadHandle,
        Known::ForeignNodes,
        Known::TooShort,
        Known::OddBlock,
        Known::Surplus,
    ];

    /// Tests whether a call falls under this difference.
    pub fn covers(self, case: &Case, call: Call) -> bool {
        let checks = cfg!(debug_assertions);
        let row = case.row();
        let takes_nodes = call.takes_nodes();
        match self {
            Known::EmptyRow => {
                case.bits == 0 && (call == Call::LevelLeftmost { level: 0 } || (checks && searches_forward(call)))
            }
            Known::NoOpens => {
                checks && matches!(call, Call::LevelRightmost { .. }) && row.is_some_and(|row| row.count_opens() == 0)
            }
            Known::HugeLevel => call.level().is_some_and(|level| level >= 1 << 63),
            Known::ExtremeR => checks && movement(call).is_some_and(|r| can_overflow(r, case.bits)),
            Known::BadHandle => row.is_some() && call.handles().any(|v| !case.is_handle(v)),
            Known::ForeignNodes => takes_nodes && case.standing().is_ok() && !case.is_as_built(),
            Known::TooShort => row.is_none() || (takes_nodes && case.standing() == Err(4)),
            Known::OddBlock => takes_nodes && case.standing() == Err(1),
            Known::Surplus => {
                matches!(call, Call::LevelRightmost { .. }) && row.is_some_and(|row| row.words.len() < case.words.len())
            }
        }
    }

    /// Returns the first known difference that a call falls under.
    pub fn of(case: &Case, call: Call) -> Option<Known> {
        Known::ALL.into_iter().find(|known| known.covers(case, call))
    }
}

/// Tests whether the original starts the call with a forward search and does not test the position first.
fn searches_forward(call: Call) -> bool {
    matches!(call, Call::FwdSearch { .. } | Call::LevelLeftmost { .. })
}

/// Returns the change of the excess that the first search of a call looks for, if an argument determines it.
fn movement(call: Call) -> Option<i64> {
    match call {
        Call::FwdSearch { r, .. } | Call::BwdSearch { r, .. } => Some(r),
        _ => call.level().map(|level| level as i64),
    }
}

/// Tests whether `r` or `-r` can leave the range of `i64` when the bits of a row are added to it.
fn can_overflow(r: i64, bits: u64) -> bool {
    i128::from(r).abs() + i128::from(bits) > i128::from(i64::MAX)
}
