use std::hint::black_box;

use crate::known::Known;
use crate::ours;
use crate::plain::{self, Passed, MOST_BYTES, MOST_WORDS};
use crate::theirs::{original_over, Original};
use crate::{Answer, Call, Rng, Row, Tally, BLOCKS};

/// The arguments that calls share: words, a bit count, a node buffer and a block size. Each of them may be wrong.
pub struct Case {
    /// The words of the row.
    pub words: Vec<u64>,
    /// The bit count.
    pub bits: u64,
    /// The node buffer.
    pub nodes: Vec<i64>,
    /// The block size.
    pub block: u64,
    /// The words and the node buffer as bytes, each with up to seven extra bytes that do not count.
    bytes: (Vec<u8>, Vec<u8>),
    /// Copies of all slices. After each call the slices have to be equal to them.
    copies: Copies,
    /// The row, if refusals 2 and 3 do not apply.
    row: Option<Row>,
    /// The refusal, 1 to 4, of every call that takes the node buffer, or `Ok` if none applies.
    standing: Result<(), u8>,
    as_built: bool,
    /// Two trees of the original: over all words, and over the words that the row needs.
    originals: Option<[Box<dyn Original>; 2]>,
}

struct Copies {
    words: Vec<u64>,
    nodes: Vec<i64>,
    bytes: (Vec<u8>, Vec<u8>),
}

/// Constructors and properties.
impl Case {
    /// Creates a case from any arguments.
    pub fn new(words: Vec<u64>, bits: u64, nodes: Vec<i64>, block: u64, rng: &mut Rng) -> Self {
        let passed = Passed { words: &words, bits, nodes: &nodes, block, most: MOST_WORDS };
        let standing = passed.admit();
        let as_built = standing.is_ok() && passed.as_built();
        let row = passed.admit_row().map(|()| Row::of_words(&words, bits as usize)).ok();
        let originals = row.as_ref().map(|row| {
            // With debug assertions on, the original panics on surplus words.
            let passed = if cfg!(debug_assertions) { &row.words } else { &words };
            let block = if BLOCKS.contains(&block) { block } else { BLOCKS[0] };
            [passed, &row.words].map(|words| original_over(words, row.bits, block))
        });
        let bytes = (ours::bytes_of(&words, u64::to_le_bytes, rng), ours::bytes_of(&nodes, i64::to_le_bytes, rng));
        let copies = Copies { words: words.clone(), nodes: nodes.clone(), bytes: bytes.clone() };
        Case { words, bits, nodes, block, bytes, copies, row, standing, as_built, originals }
    }

    /// Creates a case with a node buffer as built. It has surplus words, surplus entries, and random bits past the end of the row.
    pub fn built(row: &Row, block: u64, rng: &mut Rng) -> Self {
        let words = row.with_surplus(rng);
        let mut nodes = Passed { words: &words, bits: row.bits as u64, nodes: &[], block, most: MOST_WORDS }.build();
        nodes.extend((0..rng.below(4)).map(|_| rng.any() as i64));
        Case::new(words, row.bits as u64, nodes, block, rng)
    }

    /// Returns the row, or `None` if there are too many bits or too few words.
    pub fn row(&self) -> Option<&Row> {
        self.row.as_ref()
    }

    /// Returns the refusal, 1 to 4, of every call that takes the node buffer, or `Ok` if none applies.
    pub fn standing(&self) -> Result<(), u8> {
        self.standing
    }

    /// Tests whether the node buffer is as built.
    pub fn is_as_built(&self) -> bool {
        self.as_built
    }

    /// Tests whether `v` is a handle of the row.
    pub fn is_handle(&self, v: u64) -> bool {
        self.row().is_some_and(|row| v < self.bits && row.opens(v as usize))
    }

    /// Returns the first handle among the 64 positions from `at` on, or `at` itself if there is none.
    pub fn handle_from(&self, at: u64) -> u64 {
        (at..at.saturating_add(64)).find(|&v| self.is_handle(v)).unwrap_or(at)
    }
}

/// Calls and comparisons.
impl Case {
    /// Makes a call over words and over bytes, and compares its answers with those of `plain` and of the original.
    ///
    /// Panics if an answer differs, unless [`Known`] names the difference. Panics if the call changes a slice.
    pub fn check(&self, call: Call, tally: &mut Tally) {
        let plain = plain::ask(self.passed(MOST_WORDS), call);
        let ours = ours::over_words(&self.words, self.bits, &self.nodes, self.block, call);
        self.same("over words", call, &ours, "the second implementation", &plain);
        self.check_original(call, &ours, tally);

        let ours = ours::over_bytes(&self.bytes.0, self.bits, &self.bytes.1, self.block, call);
        let plain = if self.bits <= MOST_BYTES { plain } else { plain::ask(self.passed(MOST_BYTES), call) };
        self.same("over bytes", call, &ours, "the second implementation", &plain);

        self.unchanged(call);
        tally.count(&plain, !self.as_built);
    }

    /// Compares an answer with the original's answer, unless the call falls under a known difference.
    fn check_original(&self, call: Call, ours: &Answer, tally: &mut Tally) {
        let known = Known::of(self, call);
        if let Some(known) = known {
            tally.known[known as usize] += 1;
        }
        let Some([of_passed, of_row]) = &self.originals else { return };
        let asked = match known {
            None => of_passed,
            Some(Known::Surplus) => of_row,
            Some(_) => return,
        };
        if call.takes_nodes() && !BLOCKS.contains(&self.block) {
            return;
        }
        if let Some(theirs) = asked.ask(call) {
            tally.original += 1;
            self.same("over words", call, ours, "the original", &theirs);
        }
    }

    fn passed(&self, most: u64) -> Passed<'_> {
        Passed { words: &self.words, bits: self.bits, nodes: &self.nodes, block: self.block, most }
    }

    fn same(&self, way: &str, call: Call, ours: &Answer, other: &str, theirs: &Answer) {
        if ours != theirs {
            self.differs(&format!("{call:?} {way} answers {ours}, but {other} answers {theirs}"));
        }
    }

    /// Panics if the call changed a slice.
    fn unchanged(&self, call: Call) {
        let copies = black_box(&self.copies);
        if self.words != copies.words || self.nodes != copies.nodes || self.bytes != copies.bytes {
            self.differs(&format!("{call:?} changed a slice"));
        }
    }

    /// Panics with a description of the difference and of the case.
    #[cold]
    fn differs(&self, what: &str) -> ! {
        let row = match self.row() {
            Some(row) if self.bits <= 2000 => row.text(),
            _ => format!("{:x?}", self.words),
        };
        let nodes = if self.as_built { "as built".to_owned() } else { format!("{:?}", self.nodes) };
        panic!("{what}\n  bits {}, block {}\n  row {row}\n  nodes {nodes}", self.bits, self.block)
    }
}
