//! The time of one verdict, by interleaved rounds of both implementations.

use crate::families::Member;
use std::hint::black_box;
use std::time::{Duration, Instant};

/// Places of the row that is lent to both: enough for every plan.
pub const PLACES: usize = 256;

/// How long to measure.
#[derive(Clone, Copy)]
pub struct Effort {
    pub rounds: usize,
    /// What the repetitions of one round should take together.
    pub round: Duration,
}

/// A judge whose answer is only timed.
pub type Judge = fn(&Member, &mut [u64]);

pub fn proved(member: &Member, row: &mut [u64]) {
    let (plan, row) = (black_box(&member.plan[..]), black_box(row));
    black_box(match &member.text {
        None => traceflow::judge(plan, row),
        Some(text) => traceflow::judge_text(plan, black_box(text), row),
    });
}

pub fn rust(member: &Member, row: &mut [u64]) {
    let (plan, row) = (black_box(&member.plan[..]), black_box(row));
    black_box(match &member.text {
        None => reference::judge(plan, row),
        Some(text) => reference::judge_text(plan, black_box(text), row),
    });
}

/// Microseconds for one call of each judge: the median of all rounds.
pub fn compare(member: &Member, judges: [Judge; 2], effort: Effort) -> [f64; 2] {
    let mut row = [0; PLACES];
    let repetitions = judges.map(|judge| repetitions(judge, member, &mut row, effort.round));
    let mut times = [Vec::new(), Vec::new()];
    for _ in 0..effort.rounds {
        for which in [0, 1] {
            let time = timed(judges[which], member, &mut row, repetitions[which]);
            times[which].push(time);
        }
    }
    times.map(median)
}

/// How many calls fill a round.
fn repetitions(judge: Judge, member: &Member, row: &mut [u64], round: Duration) -> u32 {
    let mut repetitions = 1;
    loop {
        let spent = timed(judge, member, row, repetitions) * f64::from(repetitions);
        let share = spent / micros(round);
        if share >= 0.1 {
            return ((f64::from(repetitions) / share) as u32).max(1);
        }
        repetitions *= 4;
    }
}

/// Microseconds for one of so many calls. The row is used again without clearing.
fn timed(judge: Judge, member: &Member, row: &mut [u64], repetitions: u32) -> f64 {
    let start = Instant::now();
    for _ in 0..repetitions {
        judge(member, row);
    }
    micros(start.elapsed()) / f64::from(repetitions)
}

fn micros(time: Duration) -> f64 {
    time.as_secs_f64() * 1e6
}

fn median(mut times: Vec<f64>) -> f64 {
    times.sort_by(f64::total_cmp);
    times[times.len() / 2]
}
