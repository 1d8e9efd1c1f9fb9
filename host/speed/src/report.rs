//! The report: as a table on the terminal and as the page `docs/SPEED.md`.

use std::fmt;
use std::io::{stderr, IsTerminal, Write};

use crate::machine;
use crate::measure::Measured;

/// Shows the current step on standard error. On a terminal each step replaces the line of the previous one, and an empty text
/// clears it.
pub fn progress(what: &str) {
    if stderr().is_terminal() {
        eprint!("\r{what:<60}{}", if what.is_empty() { "\r" } else { "" });
    } else if !what.is_empty() {
        eprintln!("{what}");
    }
    stderr().flush().ok();
}

/// The results of all trees and calls.
pub struct Report {
    runs: usize,
    lines: Vec<(&'static str, &'static str, Measured)>,
}

impl Report {
    pub fn new(runs: usize) -> Self {
        Report { runs, lines: Vec::new() }
    }

    pub fn add(&mut self, tree: &'static str, call: &'static str, measured: Measured) {
        self.lines.push((tree, call, measured));
    }

    /// Returns the different names of the lines, in order.
    fn names(&self, name: impl Fn(&(&'static str, &'static str, Measured)) -> &'static str) -> Vec<&'static str> {
        let mut names = Vec::new();
        for line in &self.lines {
            if !names.contains(&name(line)) {
                names.push(name(line));
            }
        }
        names
    }

    /// Returns a table with a line for each call and a column for each tree.
    fn table(&self, cell: impl Fn(Measured) -> String) -> String {
        let (trees, calls) = (self.names(|line| line.0), self.names(|line| line.1));
        let mut table = format!("| | {} |\n|---|{}\n", trees.join(" | "), "---:|".repeat(trees.len()));
        for call in calls {
            let measured = |tree| self.lines.iter().find(|line| line.0 == tree && line.1 == call).map(|line| line.2);
            let cells: Vec<String> = trees.iter().map(|&tree| measured(tree).map_or(String::new(), &cell)).collect();
            table += &format!("| {call} | {} |\n", cells.join(" | "));
        }
        table
    }

    /// Returns the page `docs/SPEED.md`. The file `page.md` is its template.
    pub fn page(&self) -> String {
        let times = |measured: Measured| {
            let digits = if measured.original < 10.0 { 2 } else { 0 };
            format!("{:.digits$} / {:.digits$}", measured.original, measured.ours)
        };
        include_str!("page.md")
            .replace("{machine}", &machine::kind())
            .replace("{date}", &machine::today())
            .replace("{runs}", &self.runs.to_string())
            .replace("{ratios}", &self.table(|measured| format!("{:.2}", measured.ratio)))
            .replace("{times}", &self.table(times))
    }
}

impl fmt::Display for Report {
    fn fmt(&self, f: &mut fmt::Formatter<'_>) -> fmt::Result {
        writeln!(f, "{:14} {:20} {:>12} {:>12} {:>7}", "tree", "call", "original ns", "ours ns", "ratio")?;
        for (tree, call, measured) in &self.lines {
            let Measured { original, ours, ratio } = measured;
            writeln!(f, "{tree:14} {call:20} {original:12.2} {ours:12.2} {ratio:7.3}")?;
        }
        Ok(())
    }
}

#[cfg(test)]
mod tests {
    use super::*;

    #[test]
    fn the_page_has_a_line_for_each_call_and_a_column_for_each_tree() {
        let mut report = Report::new(11);
        report.add("small", "close", Measured { original: 50.0, ours: 55.0, ratio: 1.1 });
        report.add("small", "build", Measured { original: 2.0, ours: 0.5, ratio: 0.25 });
        report.add("large", "close", Measured { original: 100.0, ours: 90.0, ratio: 0.9 });
        let page = report.page();
        assert!(!page.contains(['{', '}']));
        assert!(page.contains("| | small | large |\n|---|---:|---:|\n| close | 1.10 | 0.90 |\n| build | 0.25 |  |\n"));
        assert!(page.contains("| close | 50 / 55 | 100 / 90 |\n| build | 2.00 / 0.50 |  |\n"));
    }
}
