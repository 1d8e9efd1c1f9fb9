use std::fmt;

use crate::{Case, Rng};

/// A call and its own arguments: every call except the build and the text reader.
///
/// `room` is the number of answers that fit into the output slice of a listing.
#[derive(Clone, Copy, Debug, PartialEq, Eq)]
#[allow(missing_docs)] // SCOPE, The calls, explains the names
pub enum Call {
    FwdSearch { at: u64, r: i64 },
    BwdSearch { at: u64, r: i64 },
    Close { at: u64 },
    Open { at: u64 },
    Enclose { at: u64 },
    Root,
    Parent { node: u64 },
    FirstChild { node: u64 },
    LastChild { node: u64 },
    NextSibling { node: u64 },
    PreviousSibling { node: u64 },
    IsLeaf { node: u64 },
    IsAncestor { ancestor: u64, descendant: u64 },
    LevelAncestor { node: u64, level: u64 },
    LevelNext { node: u64 },
    LevelPrev { node: u64 },
    LevelLeftmost { level: u64 },
    LevelRightmost { level: u64 },
    Children { node: u64, room: usize },
    RevChildren { node: u64, room: usize },
    OneTree,
    AsBuilt,
}

/// An answer, encoded as the C functions encode it.
///
/// A `Value` is a position, 1 for yes, 0 for no, -1 for nothing, or -1 - k for refusal k. `Steps` holds the encoded answers of
/// the steps of a listing.
#[derive(Clone, Debug, PartialEq, Eq)]
#[allow(missing_docs)]
pub enum Answer {
    Value(i64),
    Steps(Vec<i64>),
}

impl Answer {
    /// Encodes the refusal that has this number.
    pub fn refused(number: u8) -> Self {
        Answer::Value(-1 - i64::from(number))
    }
}

impl From<Option<u64>> for Answer {
    fn from(found: Option<u64>) -> Self {
        Answer::Value(found.map_or(-1, |at| at as i64))
    }
}

impl From<bool> for Answer {
    fn from(yes: bool) -> Self {
        Answer::Value(i64::from(yes))
    }
}

impl From<Option<bool>> for Answer {
    fn from(told: Option<bool>) -> Self {
        told.map_or(Answer::Value(-1), Answer::from)
    }
}

impl fmt::Display for Answer {
    fn fmt(&self, f: &mut fmt::Formatter<'_>) -> fmt::Result {
        match self {
            Answer::Value(-1) => write!(f, "nothing"),
            Answer::Value(value) if *value < -1 => write!(f, "refused {}", -1 - value),
            Answer::Value(value) => write!(f, "{value}"),
            Answer::Steps(steps) => write!(f, "steps {steps:?}"),
        }
    }
}

impl Call {
    /// Returns the arguments of the call that have to be handles.
    pub fn handles(self) -> impl Iterator<Item = u64> {
        let (first, second) = match self {
            Call::Parent { node }
            | Call::FirstChild { node }
            | Call::LastChild { node }
            | Call::NextSibling { node }
            | Call::PreviousSibling { node }
            | Call::IsLeaf { node }
            | Call::LevelAncestor { node, .. }
            | Call::LevelNext { node }
            | Call::LevelPrev { node }
            | Call::Children { node, .. }
            | Call::RevChildren { node, .. } => (Some(node), None),
            Call::IsAncestor { ancestor, descendant } => (Some(ancestor), Some(descendant)),
            _ => (None, None),
        };
        first.into_iter().chain(second)
    }

    /// Tests whether the call takes a node buffer.
    pub fn takes_nodes(self) -> bool {
        !matches!(self, Call::Root | Call::FirstChild { .. } | Call::IsLeaf { .. } | Call::OneTree)
    }

    /// Returns the argument of the call that is a level.
    pub fn level(self) -> Option<u64> {
        match self {
            Call::LevelAncestor { level, .. } | Call::LevelLeftmost { level } | Call::LevelRightmost { level } => {
                Some(level)
            }
            _ => None,
        }
    }

    /// Returns every call at every position of a row and at some past its end. They have every `r` and level that the row can
    /// reach, and some beyond.
    pub fn every(bits: usize) -> Vec<Call> {
        let end = bits as u64 + 2;
        let positions: Vec<u64> = (0..=end).chain([u64::MAX]).collect();
        let levels: Vec<u64> = (0..=end).chain([(1 << 63) - 1, 1 << 63, u64::MAX]).collect();
        let moves: Vec<i64> = (-(end as i64)..=end as i64).chain([i64::MIN, i64::MAX]).collect();
        let mut calls = vec![Call::Root, Call::OneTree, Call::AsBuilt];
        for &at in &positions {
            calls.extend([Call::Close { at }, Call::Open { at }, Call::Enclose { at }]);
            calls.extend(moves.iter().flat_map(|&r| [Call::FwdSearch { at, r }, Call::BwdSearch { at, r }]));
            let node = at;
            calls.extend([
                Call::Parent { node },
                Call::FirstChild { node },
                Call::LastChild { node },
                Call::NextSibling { node },
                Call::PreviousSibling { node },
                Call::IsLeaf { node },
                Call::LevelNext { node },
                Call::LevelPrev { node },
            ]);
            calls.extend(
                [0, 1, bits + 2]
                    .into_iter()
                    .flat_map(|room| [Call::Children { node, room }, Call::RevChildren { node, room }]),
            );
            calls.extend(positions.iter().map(|&descendant| Call::IsAncestor { ancestor: node, descendant }));
            calls.extend(levels.iter().map(|&level| Call::LevelAncestor { node, level }));
        }
        calls.extend(levels.iter().flat_map(|&level| [Call::LevelLeftmost { level }, Call::LevelRightmost { level }]));
        calls
    }

    /// Returns a random call whose arguments mostly fit the case.
    pub fn any(rng: &mut Rng, case: &Case) -> Call {
        let bits = case.bits;
        let at = position(rng, case);
        let node = handle(rng, case);
        match rng.below(24) {
            0 | 1 => Call::FwdSearch { at, r: movement(rng, bits) },
            2 | 3 => Call::BwdSearch { at, r: movement(rng, bits) },
            4 => Call::Close { at },
            5 => Call::Open { at },
            6 => Call::Enclose { at },
            7 => Call::Root,
            8 => Call::Parent { node },
            9 => Call::FirstChild { node },
            10 => Call::LastChild { node },
            11 => Call::NextSibling { node },
            12 => Call::PreviousSibling { node },
            13 => Call::IsLeaf { node },
            14 => Call::IsAncestor { ancestor: node, descendant: handle(rng, case) },
            15 => Call::LevelAncestor { node, level: level(rng, bits) },
            16 => Call::LevelNext { node },
            17 => Call::LevelPrev { node },
            18 => Call::LevelLeftmost { level: level(rng, bits) },
            19 => Call::LevelRightmost { level: level(rng, bits) },
            20 => Call::Children { node, room: room(rng) },
            21 => Call::RevChildren { node, room: room(rng) },
            22 => Call::OneTree,
            _ => Call::AsBuilt,
        }
    }
}

/// Returns a handle most of the time, and any position once in six times.
fn handle(rng: &mut Rng, case: &Case) -> u64 {
    let at = position(rng, case);
    if rng.once_in(6) {
        at
    } else {
        case.handle_from(at)
    }
}

/// Returns a position: anywhere in the row, at the edge of a block, near the end of the row, or far past it.
fn position(rng: &mut Rng, case: &Case) -> u64 {
    let (bits, block) = (case.bits, case.block);
    let within = rng.below(bits.max(1));
    match rng.below(16) {
        0 => within / block.max(1) * block,
        1 => (within / block.max(1) * block).saturating_sub(1),
        2 => bits.saturating_add(2).saturating_sub(rng.below(6)),
        3 => rng.pick(&[0, u64::MAX, u64::MAX - 1, 1 << 32, 1 << 63]),
        _ => within,
    }
}

/// Returns an `r`: near 0, anywhere from `-bits` to `bits`, at an edge of that range, or at an end of `i64`.
fn movement(rng: &mut Rng, bits: u64) -> i64 {
    let reach = bits.min(1 << 33) as i64;
    match rng.below(8) {
        0 => rng.within(reach + 2),
        1 => rng.pick(&[reach, -reach, reach + 1, -reach - 1]),
        2 => rng.pick(&[i64::MIN, i64::MIN + 1, i64::MAX, i64::MAX - 1, 1 << 32, -1 << 32, 1 << 62]),
        3 => rng.within(3 + reach / 8),
        _ => rng.within(20),
    }
}

/// Returns a level: near 0, anywhere up to the bit count, or at a limit.
fn level(rng: &mut Rng, bits: u64) -> u64 {
    match rng.below(8) {
        0 => rng.below(bits.min(1 << 33) + 3),
        1 => rng.pick(&[bits, bits.saturating_add(1), 1 << 32, (1 << 63) - 1, 1 << 63, (1 << 63) + 1, u64::MAX]),
        _ => rng.below(20),
    }
}

/// Returns the room for a listing: mostly enough, at times too little, at times more than any listing needs.
fn room(rng: &mut Rng) -> usize {
    match rng.below(16) {
        0..4 => rng.index(5),
        4 => 5000,
        _ => rng.index(100),
    }
}
