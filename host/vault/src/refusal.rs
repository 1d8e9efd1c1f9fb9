use std::error::Error;
use std::fmt;

/// The reason why a call cannot answer. The numbers are those of SCOPE, Refusals (`docs/SCOPE.md`).
///
/// ```
/// use vault::{Refusal, Tree};
///
/// let refusal = "(()x)".parse::<Tree>().unwrap_err();
/// assert_eq!(refusal, Refusal::NotAParenthesis);
/// assert_eq!(refusal.number(), 6);
/// assert_eq!(refusal.to_string(), "refused 6: the text holds a byte other than ( or )");
/// ```
#[derive(Clone, Copy, Debug, PartialEq, Eq, PartialOrd, Ord, Hash)]
#[repr(u8)]
pub enum Refusal {
    /// The block size is 0, above 65,536 or not a multiple of 8.
    BlockSize = 1,
    /// There are more than 2^32 bits, or more than 4,096 in a call over byte slices.
    TooManyBits = 2,
    /// The row has fewer words than the bit count needs.
    TooFewWords = 3,
    /// The node buffer has fewer entries than the bit count and the block size need.
    TooFewNodes = 4,
    /// `node`, `ancestor` or `descendant` is not a handle: it is not below the bit count, or its bit is a close bit.
    NotAHandle = 5,
    /// The text contains a byte that is neither `(` nor `)`.
    NotAParenthesis = 6,
    /// The row is not one tree. No call of this crate returns this refusal; the program `levels` does.
    NotOneTree = 7,
    /// The node buffer does not fit the row. A search met an entry outside -2^32 to 2^32, or the entries announced a position
    /// that the search then did not find.
    NodesMisfit = 8,
}

impl Refusal {
    /// All refusals, in the order of their numbers.
    pub const ALL: [Refusal; 8] = [
        Refusal::BlockSize,
        Refusal::TooManyBits,
        Refusal::TooFewWords,
        Refusal::TooFewNodes,
        Refusal::NotAHandle,
        Refusal::NotAParenthesis,
        Refusal::NotOneTree,
        Refusal::NodesMisfit,
    ];

    /// Returns the number of the refusal, 1 to 8.
    pub const fn number(self) -> u8 {
        self as u8
    }
}

impl fmt::Display for Refusal {
    fn fmt(&self, f: &mut fmt::Formatter<'_>) -> fmt::Result {
        let reason = match self {
            Refusal::BlockSize => "the block size is 0, above 65,536 or not a multiple of 8",
            Refusal::TooManyBits => "the row has too many bits",
            Refusal::TooFewWords => "the row has fewer words than its bits need",
            Refusal::TooFewNodes => "the node buffer has fewer entries than the row needs",
            Refusal::NotAHandle => "a handle is past the end of the row or is not an open bit",
            Refusal::NotAParenthesis => "the text holds a byte other than ( or )",
            Refusal::NotOneTree => "the row is not one tree",
            Refusal::NodesMisfit => "the node buffer does not fit the row",
        };
        write!(f, "refused {}: {reason}", self.number())
    }
}

impl Error for Refusal {}
