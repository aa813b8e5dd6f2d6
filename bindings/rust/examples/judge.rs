//! Judges plan P and prints its verdict, its sets and where its pattern is; then judges it by a typed pattern; then a plan without
//! jobs, which needs no place of the row; a plan of a standing job and one that calls it and ends; and last it reads P back.
use traceflow::{Answer, Counts};

const PLAN: [u8; 22] = [
    0x08, 0x08, 0x02, 0x00, 0x00, 0x00, 0x06, 0x00, 0x00, 0x00, 0x00, 0x08, 0x00, 0x04, 0x00, 0x02,
    0x10, 0x30, 0x00, 0x00, 0x00, 0x00,
];

const RECESS: [u8; 12] = [
    0x00, 0x00, 0x00, 0x00, 0x00, 0x00, 0x04, 0x00, 0x00, 0x00, 0x00, 0x00,
];

const STANDING: [u8; 36] = [
    0x10, 0x10, 0x02, 0x02, 0x02, 0x04, 0x17, 0x00, 0x00, 0x00, 0x00, 0x08, 0x00, 0x02, 0x02, 0x02,
    0x03, 0x00, 0x80, 0x08, 0x20, 0x40, 0x60, 0x00, 0x00, 0x80, 0x30, 0x00, 0x00, 0x00, 0x0a, 0x00,
    0x00, 0x00, 0x00, 0xd0,
];

/// The refusal, or the verdict, its states and the sets of the two nodes.
fn told(answer: Answer, row: &[u64]) -> String {
    told_by(answer, |counts| {
        let states = counts.states;
        format!("{states} states, sets {:x} {:x}", row[0], row[1])
    })
}

/// The refusal, or the verdict and the final set.
fn final_told(answer: Answer) -> String {
    told_by(answer, |counts| format!("final {:x}", counts.final_set))
}

/// The refusal, or the verdict and what is to be said of its counts.
fn told_by(answer: Answer, said: impl Fn(Counts) -> String) -> String {
    match answer {
        Answer::Refused(number) => format!("refused {number}"),
        Answer::Verified(counts) => format!("verified, {}", said(counts)),
        Answer::Inconclusive(counts) => format!("inconclusive, {}", said(counts)),
    }
}

/// What is read back of a plan: its first step, the move of state 0 by the step's event, and the states that accept.
fn read_back(plan: &[u8]) -> Result<String, u32> {
    let tables = traceflow::tables(plan)?;
    let automaton = traceflow::automaton(plan)?;
    let step = tables.steps[0];
    Ok(format!(
        "{} step, from {} to {} by event {}; it moves state 0 to {}, {:x} accepts",
        tables.steps.len(),
        step.from,
        step.to,
        step.label,
        automaton.moves[0][step.label],
        automaton.accepting
    ))
}

fn main() {
    let mut row = [0; 256];
    let answer = traceflow::judge(&PLAN, &mut row);
    let part = traceflow::pattern_part(&PLAN);
    println!(
        "{}, pattern at byte {}, {} bytes",
        told(answer, &row),
        part.start,
        part.len()
    );
    let answer = traceflow::judge_text(&PLAN, b"a;a", &mut row);
    println!("by a;a: {}", told(answer, &row));
    let answer = traceflow::judge(&RECESS, &mut []);
    println!("no jobs: {}", final_told(answer));
    let answer = traceflow::judge(&STANDING, &mut row);
    println!("a standing job: {}", final_told(answer));
    match read_back(&PLAN) {
        Ok(told) => println!("read back: {told}"),
        Err(number) => println!("read back: refused {number}"),
    }
}
