//! Measures the calls of the vault and of the original in one process, on the same rows and questions.
//!
//! Times are CPU times of the thread, and the two implementations take turns on parts of the questions. On a busy machine the
//! ratios therefore vary by only a few percent, while the times vary more. Both have to give the same answers.

mod calls;
mod clock;
mod machine;
mod measure;
mod questions;
mod report;
mod trees;

use std::path::Path;

use crate::measure::{Measured, Turns};
use crate::report::Report;
use crate::trees::Sample;

/// The number of runs per call. The result is their median, so the number is odd.
const RUNS: usize = 11;

/// The command line options. Without options everything is measured.
#[derive(Default)]
struct Told {
    runs: Option<usize>,
    tree: Option<String>,
    call: Option<String>,
}

impl Told {
    /// Tests whether everything is measured.
    fn is_whole(&self) -> bool {
        self.runs.is_none() && self.tree.is_none() && self.call.is_none()
    }
}

/// Parses the command line.
fn told(mut words: impl Iterator<Item = String>) -> Result<Told, String> {
    let mut told = Told::default();
    while let Some(word) = words.next() {
        let value = words.next().ok_or_else(|| format!("{word} needs a value"))?;
        match word.as_str() {
            "--runs" => told.runs = Some(value.parse().map_err(|_| format!("{value} is not a number"))?),
            "--tree" => told.tree = Some(value),
            "--call" => told.call = Some(value),
            _ => return Err(format!("unknown option {word}")),
        }
    }
    Ok(told)
}

/// Measures the selected trees and calls and prints a table. If everything is selected, it also writes `docs/SPEED.md`.
pub fn run(words: impl Iterator<Item = String>) -> Result<(), String> {
    let told = told(words)?;
    let wanted = |name: &Option<String>, this: &str| name.as_deref().is_none_or(|name| name == this);
    let runs = told.runs.unwrap_or(RUNS).max(1);
    let mut report = Report::new(runs);
    for tree in trees::ALL.iter().filter(|tree| wanted(&told.tree, tree.name)) {
        report::progress(&format!("{}: drawing the tree", tree.name));
        let sample = Sample::draw(tree);
        for build in calls::BUILDS.iter().filter(|build| wanted(&told.call, build.name)) {
            report::progress(&format!("{}: {}", tree.name, build.name));
            report.add(tree.name, build.name, time_build(&sample, build, runs));
        }
        let (theirs, ours) = sample.build();
        report::progress(&format!("{}: drawing the questions", tree.name));
        let asked = questions::Asked::draw(&sample, &theirs, &ours);
        for call in calls::CALLS.iter().filter(|call| wanted(&told.call, call.name)) {
            report::progress(&format!("{}: {}", tree.name, call.name));
            report.add(tree.name, call.name, time_call(&asked, call, runs));
        }
    }
    report::progress("");
    print!("{report}");
    if told.is_whole() {
        let file = Path::new(env!("CARGO_MANIFEST_DIR")).join("../../docs/SPEED.md");
        std::fs::write(&file, report.page()).map_err(|error| format!("cannot write docs/SPEED.md: {error}"))?;
    }
    Ok(())
}

/// Measures a build, in nanoseconds per bit.
fn time_build(sample: &Sample, build: &calls::Build, runs: usize) -> Measured {
    let mut turns = Turns::default();
    for _ in 0..runs.min(5) {
        turns.run(|run| {
            run.original((build.original)(sample));
            run.ours((build.ours)(sample));
        });
    }
    turns.measured(sample.row.bits as u64)
}

/// Measures a call, in nanoseconds per answer.
///
/// The questions are divided into parts. In each turn the two implementations answer different parts, so that neither finds the
/// data of its questions in the cache because of the other.
fn time_call(asked: &questions::Asked, call: &calls::Call, runs: usize) -> Measured {
    const PARTS: usize = 32;
    let answers = (call.compare)(asked);
    let part = |k: usize| {
        let length = questions::COUNT / PARTS;
        let start = k % PARTS * length;
        start..start + length
    };
    let mut turns = Turns::default();
    for _ in 0..runs {
        turns.run(|run| {
            for k in 0..PARTS {
                run.original(clock::time(|| (call.original)(asked, part(k))));
                run.ours(clock::time(|| (call.ours)(asked, part(k + PARTS / 2))));
            }
        });
    }
    turns.measured(answers)
}
