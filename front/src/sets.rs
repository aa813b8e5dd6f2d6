//! The sets of all nodes, in words: what `tuft sets` shows.
use crate::judged::{states_in, Judged};
use crate::names::Names;
use crate::pattern;
use crate::states::{states, State};
use crate::tell::{alternatives_of, seen, Answered};
use crate::unpack;
use traceflow::{Job, Kind};

/// The sets of the nodes of all jobs under a rule, behind a list of the states.
pub fn sets(answered: &Answered, names: &Names) -> String {
    let judged = &answered.judged;
    let width = width(judged, names);
    let jobs = judged.plan.jobs.iter().enumerate();
    let jobs: String = jobs
        .map(|(number, job)| {
            format!(
                "{}{}\n",
                unpack::head(number, job, names),
                nodes(judged, job, names, width)
            )
        })
        .collect();
    format!(
        "{}\n{}\n{jobs}{}\n",
        head(answered, names),
        legend(judged, names),
        last(judged)
    )
}

/// What is judged, and by which rule.
fn head(answered: &Answered, names: &Names) -> String {
    format!(
        "plan {}, rule {}: {}\n",
        names.plan,
        answered.rule,
        pattern::demand(&answered.judged.plan, names)
    )
}

/// A line for each state: its number, an example of what leads to it, and what the rule allows next.
fn legend(judged: &Judged, names: &Names) -> String {
    let states = states(judged);
    let lines = states.iter().map(|state| {
        let seen = seen(&state.seen, names);
        let outlook = outlook(judged.plan.kind, state, names);
        format!("  {:2}  {seen}; {outlook}\n", state.number)
    });
    format!("states\n{}", lines.collect::<String>())
}

/// What the rule says of a run in a state: what may come next, whether it may end, or that the pattern cannot be met any more.
fn outlook(kind: Kind, state: &State, names: &Names) -> String {
    let (end, lost) = match kind {
        Kind::Every => ("may end", "broken"),
        Kind::None => ("may not end", "cannot become what may never be"),
    };
    let mut told = Vec::new();
    if !state.next.is_empty() {
        told.push(format!("next {}", alternatives_of(&state.next, names)));
    }
    if state.may_end {
        told.push(end.to_string());
    }
    if !state.alive {
        told.push(lost.to_string());
    }
    told.join("; ")
}

/// A line for each node of a job: its name, and the numbers of its states.
fn nodes(judged: &Judged, job: &Job, names: &Names, width: usize) -> String {
    let nodes = job.first..job.first + job.size;
    nodes
        .map(|node| {
            let set = judged.sets.get(node).copied().unwrap_or(0);
            let numbers = numbers(set).unwrap_or("-  no run comes here".to_string());
            format!("  {:width$}  {numbers}\n", names.node(node))
        })
        .collect()
}

/// The final set.
fn last(judged: &Judged) -> String {
    let numbers = numbers(judged.counts.final_set);
    format!(
        "at the end  {}",
        numbers.unwrap_or("-  no run can end".to_string())
    )
}

/// The numbers of the states of a set, unless it is empty.
fn numbers(set: u64) -> Option<String> {
    let numbers: Vec<String> = states_in(set).map(|state| state.to_string()).collect();
    (!numbers.is_empty()).then(|| numbers.join(" "))
}

/// How wide the column of the nodes' names is.
fn width(judged: &Judged, names: &Names) -> usize {
    let lengths = (0..judged.plan.nodes).map(|node| names.node(node).chars().count());
    lengths.max().unwrap_or(0)
}
