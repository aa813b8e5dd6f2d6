//! Compares the two implementations of the verifier on generated plans.

use differential::coverage::Coverage;
use differential::{case, compare, program, runs};
use std::path::PathBuf;
use std::process::ExitCode;
use std::time::Instant;

const USAGE: &str = "usage: differential [--count N] [--seed S] [--start I] [--program FILE]
Compares the library on N plans, each with a text, from number I on. Every run also explores small plans of the seed and tries the program, FILE or
crates/judge/out/judge, on inputs of the seed, whatever N and I.";

/// A run of so many plans or more must meet all that is asked for.
const FULL_LENGTH: u64 = 20_000;

/// How many plans a run has if nothing is said.
const COUNT: u64 = 200_000;

/// The program that `rt run` builds in crates/judge.
const PROGRAM: &str = concat!(env!("CARGO_MANIFEST_DIR"), "/../crates/judge/out/judge");

/// What the command line asks for.
struct Options {
    count: u64,
    seed: u64,
    /// The number of the first plan.
    start: u64,
    /// The built program.
    program: PathBuf,
}

fn options(mut words: impl Iterator<Item = String>) -> Option<Options> {
    let mut options = Options {
        count: COUNT,
        seed: 1,
        start: 0,
        program: PROGRAM.into(),
    };
    while let Some(word) = words.next() {
        let value = words.next()?;
        match word.as_str() {
            "--count" => options.count = value.parse().ok()?,
            "--seed" => options.seed = value.parse().ok()?,
            "--start" => options.start = value.parse().ok()?,
            "--program" => options.program = value.into(),
            _ => return None,
        }
    }
    Some(options)
}

/// Compares all plans of the run and tells what they met.
fn compare_all(options: &Options) -> Result<Coverage, String> {
    let mut coverage = Coverage::default();
    for number in (options.start..).take(options.count as usize) {
        let case = case::make(options.seed, number);
        let answers = compare::compare(&case)
            .map_err(|report| format!("plan {number} of seed {}: {report}", options.seed))?;
        coverage.add(&case, &answers);
    }
    Ok(coverage)
}

fn run(options: &Options) -> Result<(), String> {
    let begun = Instant::now();
    let coverage = compare_all(options)?;
    print!("{coverage}");
    println!("{:<40}{:>8.1}", "seconds", begun.elapsed().as_secs_f64());
    let missing = coverage.missing();
    if options.count >= FULL_LENGTH && !missing.is_empty() {
        return Err(format!("never met: {}", missing.join("; ")));
    }
    println!("{}", runs::check_all(options.seed)?);
    let begun = Instant::now();
    let summary = program::check_all(&options.program, options.seed)?;
    println!("{summary}; {:.1} seconds", begun.elapsed().as_secs_f64());
    Ok(())
}

fn main() -> ExitCode {
    let Some(options) = options(std::env::args().skip(1)) else {
        eprintln!("{USAGE}");
        return ExitCode::from(2);
    };
    match run(&options) {
        Ok(()) => ExitCode::SUCCESS,
        Err(report) => {
            println!("{report}");
            ExitCode::FAILURE
        }
    }
}
