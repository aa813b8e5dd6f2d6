//! The table of times, how they grow, and how they stand to the bars.

use crate::timing::{Effort, PLACES};
use std::fmt;
use traceflow::{Answer, Counts};

/// The bar for one verdict of the proved judge, in microseconds.
const SLOWEST: f64 = 50_000.0;

/// One plan, measured.
pub struct Line {
    pub family: &'static str,
    pub grows: Option<&'static str>,
    pub size: String,
    pub bytes: usize,
    pub answer: Answer,
    /// Microseconds of one verdict.
    pub proved: f64,
    pub rust: f64,
}

impl Line {
    fn ratio(&self) -> f64 {
        self.proved / self.rust
    }

    fn size_told(&self) -> String {
        match self.grows {
            Some(grows) => format!("{grows} {}", self.size),
            None => self.size.clone(),
        }
    }

    fn counts(&self) -> Option<Counts> {
        match self.answer {
            Answer::Refused(_) => None,
            Answer::Verified(counts) | Answer::Inconclusive(counts) => Some(counts),
        }
    }
}

pub fn print_head(effort: Effort) {
    println!(
        "Each time is the median of {} rounds; in each, both are repeated for about {} ms. One row of {PLACES} places is used throughout, without clearing.",
        effort.rounds,
        effort.round.as_millis()
    );
    println!();
    println!("| family | size | bytes | states | meetings | pairs | proved µs | Rust µs | ratio |");
    println!("|---|---|--:|--:|--:|--:|--:|--:|--:|");
}

impl fmt::Display for Line {
    fn fmt(&self, f: &mut fmt::Formatter) -> fmt::Result {
        let number = |field: fn(Counts) -> u32| match self.counts() {
            Some(counts) => field(counts).to_string(),
            None => "–".to_string(),
        };
        write!(
            f,
            "| {} | {} | {} | {} | {} | {} | {:.2} | {:.2} | {:.2} |",
            self.family,
            self.size_told(),
            self.bytes,
            number(|counts| counts.states),
            number(|counts| counts.meetings),
            number(|counts| counts.pairs),
            self.proved,
            self.rust,
            self.ratio()
        )
    }
}

/// How both times grow from a family's first size to its last, where its members differ by size.
pub fn print_growth(lines: &[Line]) {
    println!();
    for family in lines.chunk_by(|one, next| one.family == next.family) {
        let [first, .., last] = family else { continue };
        let Some(grows) = first.grows else { continue };
        println!(
            "- {}, {grows} from {} to {}: proved × {:.1}, Rust × {:.1}",
            first.family,
            first.size,
            last.size,
            last.proved / first.proved,
            last.rust / first.rust
        );
    }
}

pub fn print_bars(lines: &[Line]) {
    let above = lines.iter().filter(|line| line.ratio() > 1.0).count();
    let ratios = match above {
        0 => "every ratio is at most 1.0".to_string(),
        _ => format!("{above} of {} ratios are above 1.0", lines.len()),
    };
    let slowest = lines.iter().map(|line| line.proved).fold(0.0, f64::max);
    let bar = if slowest < SLOWEST {
        "under"
    } else {
        "NOT under"
    };
    println!();
    println!(
        "{ratios}; the largest proved time is {:.2} ms, {bar} {} ms",
        slowest / 1000.0,
        SLOWEST / 1000.0
    );
}
