//! Times the proved judge against the Rust implementation on families of plans that grow.

mod families;
mod patterns;
mod report;
mod timing;

use differential::compare::independent_answer;
use families::{Family, Member};
use report::Line;
use std::process::ExitCode;
use std::time::Duration;
use timing::{Effort, PLACES};
use traceflow::Answer;

fn main() -> ExitCode {
    let quick = std::env::args().any(|word| word == "--quick");
    let effort = Effort {
        rounds: if quick { 5 } else { 15 },
        round: Duration::from_millis(if quick { 1 } else { 5 }),
    };
    match measured(effort) {
        Ok(lines) => {
            report::print_growth(&lines);
            report::print_bars(&lines);
            ExitCode::SUCCESS
        }
        Err(what) => {
            eprintln!("bench: {what}");
            ExitCode::FAILURE
        }
    }
}

/// Every member of every family, printed as it is measured.
fn measured(effort: Effort) -> Result<Vec<Line>, String> {
    report::print_head(effort);
    let mut lines = vec![];
    for family in families::all() {
        for member in &family.members {
            let line = measure(&family, member, effort)?;
            println!("{line}");
            lines.push(line);
        }
    }
    Ok(lines)
}

fn measure(family: &Family, member: &Member, effort: Effort) -> Result<Line, String> {
    let answer =
        agreed(member).map_err(|what| format!("{} of {}: {what}", family.name, member.size))?;
    let judges = [timing::proved, timing::rust];
    let [proved, rust] = timing::compare(member, judges, effort);
    Ok(Line {
        family: family.name,
        grows: family.grows,
        size: member.size.clone(),
        bytes: member.plan.len(),
        answer,
        proved,
        rust,
    })
}

/// The answer that both implementations give, with the same row.
fn agreed(member: &Member) -> Result<Answer, String> {
    let (plan, text) = (&member.plan, member.text.as_deref());
    let mut rows = [[u64::MAX; PLACES]; 2];
    let proved = traceflow::judge_by(plan, text, &mut rows[0]);
    let rust = independent_answer(plan, text, &mut rows[1]);
    if proved != rust {
        return Err(format!("answers differ: {proved:?} and {rust:?}"));
    }
    if rows[0] != rows[1] {
        return Err("the rows differ".to_string());
    }
    Ok(proved)
}
