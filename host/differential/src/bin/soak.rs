//! Makes random calls for a given time and prints how many it compared.
//!
//! Usage: `soak --seconds N --seed S`. The option `--round R` repeats one round of a seed.
//!
//! At an unknown difference the program prints the number of the round and panics.
#![forbid(unsafe_code)]

use std::io::Write;
use std::panic::{catch_unwind, resume_unwind, AssertUnwindSafe};
use std::process::exit;
use std::time::{Duration, Instant};

use differential::{rounds, Rng, Tally};

/// The command line options.
struct Told {
    seconds: u64,
    seed: u64,
    round: Option<u64>,
}

fn main() {
    let told = told(std::env::args().skip(1)).unwrap_or_else(|problem| {
        eprintln!("{problem}\nusage: soak --seconds N --seed S [--round R]");
        exit(2);
    });
    let mut tally = Tally::default();
    if let Some(number) = told.round {
        run(told.seed, number, &mut tally);
    } else {
        let start = Instant::now();
        let mut said = Duration::ZERO;
        for number in 0.. {
            let spent = start.elapsed();
            if spent.as_secs() >= told.seconds {
                eprintln!();
                println!("{number} rounds of seed {}", told.seed);
                break;
            }
            if spent >= said {
                eprint!("\r{:>6} s of {}, round {number}, {} calls ", spent.as_secs(), told.seconds, tally.calls);
                std::io::stderr().flush().ok();
                said = spent + Duration::from_secs(1);
            }
            run(told.seed, number, &mut tally);
        }
    }
    println!("{tally}");
}

/// Runs one round. It depends only on the seed and on the number of the round.
fn run(seed: u64, number: u64, tally: &mut Tally) {
    let mut rng = Rng::of_round(seed, number);
    let most = if number.is_multiple_of(64) { 100_000 } else { 5000 };
    if let Err(difference) = catch_unwind(AssertUnwindSafe(|| rounds::any(&mut rng, most, tally))) {
        eprintln!("the difference is in round {number} of seed {seed}");
        resume_unwind(difference);
    }
}

/// Parses the command line.
fn told(mut words: impl Iterator<Item = String>) -> Result<Told, String> {
    let mut told = Told { seconds: 10, seed: 0, round: None };
    while let Some(word) = words.next() {
        let value = words.next().ok_or_else(|| format!("{word} needs a number"))?;
        let number = value.parse().map_err(|_| format!("{value} is not a number"))?;
        match word.as_str() {
            "--seconds" => told.seconds = number,
            "--seed" => told.seed = number,
            "--round" => told.round = Some(number),
            _ => return Err(format!("unknown option {word}")),
        }
    }
    Ok(told)
}
