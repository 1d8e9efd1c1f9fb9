//! Times of the two implementations, and their medians and ratios.

/// The median times in nanoseconds per unit, and the median of the ratios of the runs.
#[derive(Clone, Copy, Debug, PartialEq)]
pub struct Measured {
    pub original: f64,
    pub ours: f64,
    pub ratio: f64,
}

/// The times of the two implementations in one run.
#[derive(Clone, Copy, Debug, Default)]
pub struct Run {
    original: u64,
    ours: u64,
}

impl Run {
    pub fn original(&mut self, nanoseconds: u64) {
        self.original += nanoseconds;
    }

    pub fn ours(&mut self, nanoseconds: u64) {
        self.ours += nanoseconds;
    }
}

/// All runs so far.
#[derive(Default)]
pub struct Turns(Vec<Run>);

impl Turns {
    pub fn run(&mut self, turn: impl FnOnce(&mut Run)) {
        let mut run = Run::default();
        turn(&mut run);
        self.0.push(run);
    }

    /// Computes the result for runs of `units` units each. The ratio is computed per run, because a disturbance of the machine
    /// slows both implementations in the same run.
    pub fn measured(&self, units: u64) -> Measured {
        let median = |of: fn(&Run) -> f64| {
            let mut values: Vec<f64> = self.0.iter().map(of).collect();
            values.sort_by(f64::total_cmp);
            values[values.len() / 2]
        };
        Measured {
            original: median(|run| run.original as f64) / units as f64,
            ours: median(|run| run.ours as f64) / units as f64,
            ratio: median(|run| run.ours as f64 / run.original as f64),
        }
    }
}

#[cfg(test)]
mod tests {
    use super::*;

    #[test]
    fn the_ratio_is_the_median_of_the_runs_ratios() {
        let mut turns = Turns::default();
        for (original, ours) in [(100, 50), (1000, 600), (200, 80)] {
            turns.run(|run| {
                run.original(original);
                run.ours(ours);
            });
        }
        assert_eq!(turns.measured(10), Measured { original: 20.0, ours: 8.0, ratio: 0.5 });
    }
}
