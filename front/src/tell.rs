//! Answers in words.
use crate::judged::{states_in, Judged};
use crate::names::{events_in, Names};
use crate::pattern;
use crate::states::{given, holds, moved, settled, states, State};
use traceflow::{Job, Kind, Plan};

/// So many final states are told of a rule that is open.
const MOST_ENDS: usize = 8;

/// A rule by its name, and the answer to the plan under it.
#[derive(Clone, Debug, PartialEq, Eq)]
pub struct Answered {
    pub rule: String,
    /// The bytes that were judged.
    pub bytes: Vec<u8>,
    pub judged: Judged,
}

/// What `check` says of one rule: a line or two, and for an open rule a line for each final state that breaks it.
pub fn answer(answered: &Answered, names: &Names) -> String {
    let Answered { rule, judged, .. } = answered;
    let pattern = pattern::short(&judged.plan, names);
    let word = if judged.verified { "HOLDS " } else { "OPEN  " };
    let head = format!("{word} {rule}");
    if judged.plan.jobs.is_empty() {
        let spells = spelt_by_the_empty_run(judged);
        return format!(
            "{head}: there are no jobs, so the one run is empty, and it {spells} {pattern}\n"
        );
    }
    if !judged.runs_may_end() {
        return format!("{head}, but no run can end\n");
    }
    let demand = match judged.plan.kind {
        Kind::Every => "every complete run spells",
        Kind::None => "no complete run spells",
    };
    if judged.verified {
        return format!("{head}: {demand} {pattern}\n");
    }
    format!(
        "{head}: it is not shown that {demand} {pattern}\n\
         \x20      By the sets a run may end like this, though perhaps none does:\n{}",
        ends(judged, names)
    )
}

/// Whether the empty run, the only one of a plan without jobs, spells the pattern.
fn spelt_by_the_empty_run(judged: &Judged) -> &'static str {
    if judged.verified == (judged.plan.kind == Kind::Every) {
        "spells"
    } else {
        "does not spell"
    }
}

/// A line for each way in which a final state breaks the rule, up to a number of them.
fn ends(judged: &Judged, names: &Names) -> String {
    let wrong = |state: &&State| state.may_end == (judged.plan.kind == Kind::None);
    let states = states(judged);
    let mut told: Vec<String> = Vec::new();
    for state in final_states(judged, &states).filter(wrong) {
        for line in end(judged, &states, state, names) {
            if !told.contains(&line) {
                told.push(line);
            }
        }
    }
    let more = told.len().saturating_sub(MOST_ENDS);
    told.truncate(MOST_ENDS);
    if more > 0 {
        told.push(format!("and {more} more"));
    }
    told.iter()
        .map(|line| format!("         {line}\n"))
        .collect()
}

/// The states of the final set.
pub fn final_states<'a>(judged: &Judged, states: &'a [State]) -> impl Iterator<Item = &'a State> {
    states_in(judged.counts.final_set).filter_map(|number| states.get(number))
}

/// How a run ended that breaks the rule: what it waits for, each event that may have come where the rule does not allow it, or what may
/// never be.
fn end(judged: &Judged, states: &[State], state: &State, names: &Names) -> Vec<String> {
    match (judged.plan.kind, state.alive) {
        (Kind::None, _) => {
            let seen = seen(until_settled(judged, state), names);
            vec![format!("{seen}: that is what may never be")]
        }
        (Kind::Every, true) => vec![format!(
            "{}: the rule waits for {}",
            seen(&state.seen, names),
            alternatives_of(&state.next, names)
        )],
        (Kind::Every, false) => match faults(judged, states).as_slice() {
            [] => vec![format!(
                "{}: the rule allows no run at all",
                seen(&state.seen, names)
            )],
            faults => faults.iter().map(|fault| fault.words(names)).collect(),
        },
    }
}

/// What was seen, up to the event behind which the pattern is met whatever comes.
fn until_settled<'a>(judged: &Judged, state: &'a State) -> &'a [usize] {
    let settled = settled(&judged.automaton, judged.plan.alphabet);
    let mut reached = 0;
    for (count, &event) in state.seen.iter().enumerate() {
        if holds(settled, reached) {
            return &state.seen[..count];
        }
        reached = moved(&judged.automaton, reached, event);
    }
    &state.seen
}

/// Events behind which the pattern can no longer be met, and the state before them.
struct Fault<'a> {
    before: &'a State,
    events: Vec<usize>,
}

/// For each state the events that the sets allow there and behind which the pattern can no longer be met; those after the fewest events
/// first.
fn faults<'a>(judged: &Judged, states: &'a [State]) -> Vec<Fault<'a>> {
    let given = given(judged);
    let dead = |state: usize| states.get(state).is_some_and(|state| !state.alive);
    let fault = |before: &'a State| {
        let wrong = |&event: &usize| {
            let comes = given
                .get(event)
                .is_some_and(|&set| holds(set, before.number));
            comes && dead(moved(&judged.automaton, before.number, event))
        };
        let events = events_in(judged.plan.alphabet).filter(wrong).collect();
        Fault { before, events }
    };
    let alive = states.iter().filter(|state| state.alive);
    let mut faults: Vec<Fault> = alive.map(fault).collect();
    faults.retain(|fault| !fault.events.is_empty());
    faults.sort_by_key(|fault| fault.before.seen.len());
    faults
}

impl Fault<'_> {
    fn words(&self, names: &Names) -> String {
        let Fault { before, events } = self;
        let allowed = match (before.next.is_empty(), before.may_end) {
            (true, _) => "only the end".to_string(),
            (false, false) => alternatives_of(&before.next, names),
            (false, true) => alternatives(&with_the_end(&before.next, names)),
        };
        let events = alternatives_of(events, names);
        if before.seen.is_empty() {
            return format!("{events} came first, where the rule allows {allowed}");
        }
        let seen = seen(&before.seen, names);
        format!("{seen}: {events} came, where the rule allows {allowed}")
    }
}

/// What was seen: `nothing seen yet`, or `after prepared, handed 2 times`.
pub fn seen(events: &[usize], names: &Names) -> String {
    if events.is_empty() {
        return "nothing seen yet".to_string();
    }
    let runs = events.chunk_by(|first, second| first == second);
    let told: Vec<String> = runs.map(|run| run_words(run, names)).collect();
    format!("after {}", told.join(", "))
}

/// An event that was seen once, or several times in a row.
fn run_words(run: &[usize], names: &Names) -> String {
    match run {
        [event] => names.event(*event).to_string(),
        [event, ..] => format!("{} {} times", names.event(*event), run.len()),
        [] => String::new(),
    }
}

fn event_names(events: &[usize], names: &Names) -> Vec<String> {
    let name = |&event: &usize| names.event(event).to_string();
    events.iter().map(name).collect()
}

fn with_the_end(events: &[usize], names: &Names) -> Vec<String> {
    let mut told = event_names(events, names);
    told.push("the end".to_string());
    told
}

/// `a`, `a or b`, `a, b or c`.
pub fn alternatives_of(events: &[usize], names: &Names) -> String {
    alternatives(&event_names(events, names))
}

fn alternatives(words: &[String]) -> String {
    match words {
        [] => "nothing".to_string(),
        [word] => word.clone(),
        [words @ .., last] => format!("{} or {last}", words.join(", ")),
    }
}

/// That there is no complete run, where that is so.
pub fn no_end(answers: &[Answered]) -> &'static str {
    if all_may_end(answers) {
        ""
    } else {
        "no run brings every job to its end, so these answers say nothing of any run\n"
    }
}

/// A line for each job that has nodes to which no run comes.
pub fn unreached(answers: &[Answered], names: &Names) -> String {
    let nodes = unreached_nodes(answers);
    let jobs = plan(answers).map_or(&[][..], |plan| &plan.jobs);
    let line = |(number, job)| unreached_line(number, job, &nodes, names);
    jobs.iter().enumerate().map(line).collect()
}

/// `no run comes to working, end of second`, or nothing.
fn unreached_line(number: usize, job: &Job, nodes: &[bool], names: &Names) -> String {
    let unreached: Vec<_> = unreached_in(job, nodes)
        .map(|node| names.node(node))
        .collect();
    if unreached.is_empty() {
        return String::new();
    }
    format!(
        "no run comes to {} of {}\n",
        unreached.join(", "),
        names.job(number)
    )
}

/// The nodes of a job to which no run comes, by their numbers in the plan.
pub fn unreached_in<'a>(job: &Job, nodes: &'a [bool]) -> impl Iterator<Item = usize> + 'a {
    (job.first..job.first + job.size).filter(|&node| nodes.get(node) == Some(&true))
}

/// The plan that was judged: but for what the rule says it is the same in all answers.
pub fn plan(answers: &[Answered]) -> Option<&Plan> {
    answers.first().map(|answered| &answered.judged.plan)
}

/// For each node whether no run comes there: its set is empty under one of the rules.
pub fn unreached_nodes(answers: &[Answered]) -> Vec<bool> {
    let nodes = plan(answers).map_or(0, |plan| plan.nodes);
    let empty = |node: usize| {
        answers
            .iter()
            .any(|answered| answered.judged.sets.get(node) == Some(&0))
    };
    (0..nodes).map(empty).collect()
}

/// The last line of `check`: `3 rules: 2 hold, 1 open`.
pub fn summary(answers: &[Answered]) -> String {
    let holding = answers
        .iter()
        .filter(|answered| answered.judged.verified)
        .count();
    let open = answers.len() - holding;
    let mut told = Vec::new();
    if holding > 0 {
        told.push(format!(
            "{holding} {}",
            if holding == 1 { "holds" } else { "hold" }
        ));
    }
    if open > 0 {
        told.push(format!("{open} open"));
    }
    if !all_may_end(answers) {
        told.push("but no run can end".to_string());
    }
    let rules = if answers.len() == 1 { "rule" } else { "rules" };
    format!("{} {rules}: {}\n", answers.len(), told.join(", "))
}

/// Whether under every rule some state comes to the ends of all jobs.
pub fn all_may_end(answers: &[Answered]) -> bool {
    answers
        .iter()
        .all(|answered| answered.judged.runs_may_end())
}
