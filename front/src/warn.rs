//! Warnings: what is no error, and is hardly meant.
use crate::diagnostic::{hint, quoted, Diagnostic};
use crate::resolve::{Channel, Job, Node, Resolved, Rule, Sort};

pub fn warnings(plan: &Resolved) -> Vec<Diagnostic> {
    let mut told = Vec::new();
    for (number, channel) in plan.channels.iter().enumerate() {
        told.extend(unmet(plan, number, channel, Sort::Call));
        told.extend(unmet(plan, number, channel, Sort::Accept));
    }
    for job in &plan.jobs {
        told.extend(unreached(job));
    }
    // where there are no jobs nothing is given, and that is meant
    if !plan.jobs.is_empty() {
        let given = given(plan);
        told.extend(
            plan.rules
                .iter()
                .flat_map(|rule| ungiven(plan, rule, given)),
        );
    }
    told.extend(plan.rules.iter().filter_map(|rule| one_watched(plan, rule)));
    told
}

/// The warning of calls on a channel that no other job accepts, or of accepts that no other job calls.
fn unmet(plan: &Resolved, number: usize, channel: &Channel, sort: Sort) -> Option<Diagnostic> {
    let (done, other, asks, moves) = match sort {
        Sort::Accept => ("accepted", Sort::Call, "calls", "accepts"),
        _ => ("called", Sort::Accept, "accepts", "calls"),
    };
    let alone = |&at: &usize| plan.jobs[at].uses(sort, number) && !met(plan, at, other, number);
    let jobs: Vec<usize> = (0..plan.jobs.len()).filter(alone).collect();
    if jobs.is_empty() {
        return None;
    }
    let message = format!(
        "channel {} is {done} by {}, and no other job {asks} it: these {moves} never happen",
        quoted(&channel.name),
        job_list(plan, &jobs)
    );
    Some(Diagnostic::warning(channel.place, message))
}

/// Whether a job other than one of those written at `at` has such moves on a channel. Copies are other jobs.
fn met(plan: &Resolved, at: usize, sort: Sort, channel: usize) -> bool {
    let other = |(i, job): (usize, &Job)| i != at || job.copies.len() > 1;
    let mut jobs = plan.jobs.iter().enumerate();
    jobs.any(|(i, job)| job.uses(sort, channel) && other((i, job)))
}

/// `job 'a'`, `jobs 'a' and 'b'`, `jobs 'a', 'b' and 'c'`.
fn job_list(plan: &Resolved, jobs: &[usize]) -> String {
    let names: Vec<String> = jobs.iter().map(|&at| quoted(&plan.jobs[at].name)).collect();
    match names.split_last() {
        Some((last, before)) if !before.is_empty() => {
            format!("jobs {} and {last}", before.join(", "))
        }
        _ => format!("job {}", names.concat()),
    }
}

/// The warnings of nodes to which nothing leads from the entry, and of those from which nothing leads on.
fn unreached(job: &Job) -> Vec<Diagnostic> {
    let reached = reached(job);
    let mut told = Vec::new();
    for (number, node) in job.nodes.iter().enumerate() {
        let leads_on = job.moves.iter().any(|m| m.from == number);
        if !reached[number] {
            told.push(nothing_leads_to(job, number, node));
        } else if !leads_on && number != job.exit {
            told.push(nothing_leads_on(job, node));
        }
    }
    told
}

/// Which nodes moves lead to from the entry.
fn reached(job: &Job) -> Vec<bool> {
    let mut reached = vec![false; job.nodes.len()];
    let mut waiting = vec![job.entry];
    while let Some(node) = waiting.pop() {
        if !reached[node] {
            reached[node] = true;
            waiting.extend(job.moves.iter().filter(|m| m.from == node).map(|m| m.to));
        }
    }
    reached
}

fn nothing_leads_to(job: &Job, number: usize, node: &Node) -> Diagnostic {
    let (name, job_name) = (quoted(&node.name), quoted(&job.name));
    if number == job.exit {
        let message = format!("nothing leads to the exit {name} of job {job_name}: no run can end");
        return Diagnostic::warning(job.exit_place, message);
    }
    let entry = quoted(&job.nodes[job.entry].name);
    let meant = meant(job, node);
    let message = format!("nothing leads from {entry} to node {name} of job {job_name}{meant}");
    Diagnostic::warning(node.place, message)
}

/// Which other node may have been meant. Names that differ in their numbers alone are meant to.
fn meant(job: &Job, node: &Node) -> String {
    let without_digits = |name: &str| name.replace(|c: char| c.is_ascii_digit(), "");
    let others = job.nodes.iter().map(|other| other.name.as_str());
    let differing = others.filter(|name| without_digits(name) != without_digits(&node.name));
    hint(&node.name, differing)
}

fn nothing_leads_on(job: &Job, node: &Node) -> Diagnostic {
    let (name, job_name) = (quoted(&node.name), quoted(&job.name));
    let told = if job.standing {
        format!("service {job_name}, where it stops for good")
    } else {
        format!("job {job_name}, and it is not its exit")
    };
    let meant = meant(job, node);
    Diagnostic::warning(
        node.place,
        format!("nothing leads on from node {name} of {told}{meant}"),
    )
}

/// The warning of a rule that speaks of all events but some, and sees one alone.
fn one_watched(plan: &Resolved, rule: &Rule) -> Option<Diagnostic> {
    let alphabet = rule.rule.alphabet;
    let event = plan
        .events
        .get((alphabet.trailing_zeros() as usize).checked_sub(1)?)?;
    let place = rule.excepts.filter(|_| alphabet.count_ones() == 1)?;
    let message = format!(
        "rule {} watches {} alone, and '[^ ]' takes in watched events only; 'watch' adds more",
        quoted(&rule.rule.name),
        quoted(event)
    );
    Some(Diagnostic::warning(place, message))
}

/// The warnings of events that a rule watches and that are not given, each at its first mention.
fn ungiven(plan: &Resolved, rule: &Rule, given: u32) -> Vec<Diagnostic> {
    let mut told = Vec::new();
    let mut seen = given;
    for &(event, place) in &rule.mentions {
        if seen >> event & 1 == 0 {
            let message = format!(
                "rule {} watches {}, and no job gives it",
                quoted(&rule.rule.name),
                quoted(&plan.events[event - 1])
            );
            told.push(Diagnostic::warning(place, message));
        }
        seen |= 1 << event;
    }
    told
}

/// The events that a step gives, or a channel on which some job calls and another accepts.
fn given(plan: &Resolved) -> u32 {
    let moves = plan.jobs.iter().flat_map(|job| &job.moves);
    let steps = moves.filter(|m| m.sort == Sort::Step).map(|m| m.label);
    let channels = plan.channels.iter().enumerate();
    let met = channels.filter(|&(number, _)| meets(plan, number));
    let events = steps.chain(met.map(|(_, channel)| channel.event));
    events.fold(0, |given, event| given | 1 << event)
}

/// Whether one job calls on a channel and another accepts.
fn meets(plan: &Resolved, channel: usize) -> bool {
    let mut callers = (0..plan.jobs.len()).filter(|&at| plan.jobs[at].uses(Sort::Call, channel));
    callers.any(|at| met(plan, at, Sort::Accept, channel))
}

impl Job {
    /// Whether the job has a move of this sort with this event or channel.
    fn uses(&self, sort: Sort, label: usize) -> bool {
        self.moves
            .iter()
            .any(|m| m.sort == sort && m.label == label)
    }
}
