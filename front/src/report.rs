//! What `tuft check` answers, as lines or as a JSON document.
use crate::diagnostic::{Diagnostic, Severity};
use crate::json::{document, Value};
use crate::names::Names;
use crate::opened::Opened;
use crate::pattern;
use crate::states::{states, State};
use crate::tell::{self, Answered};
use traceflow::Plan;

/// The exit status for answers: 0 all rules hold and some run may end, 1 a rule is open, 3 all hold but no run can end.
pub fn status(answers: &[Answered]) -> u8 {
    if answers.iter().any(|answered| !answered.judged.verified) {
        1
    } else if tell::all_may_end(answers) {
        0
    } else {
        3
    }
}

/// The answers in lines.
pub fn lines(answers: &[Answered], names: &Names) -> String {
    let rules: String = answers
        .iter()
        .map(|answered| tell::answer(answered, names))
        .collect();
    let unreached = tell::unreached(answers, names);
    let no_end = tell::no_end(answers);
    format!("{rules}{no_end}{unreached}{}", tell::summary(answers))
}

/// The answers, the errors and the warnings as one document.
pub fn json(opened: &Opened, answers: &[Answered], status: u8) -> String {
    let names = opened.names();
    let plan = opened
        .model
        .as_ref()
        .map_or(Value::Null, |model| Value::text(&model.name));
    document(&Value::Object(vec![
        ("file", Value::text(&opened.file)),
        ("plan", plan),
        ("status", Value::Number(u64::from(status))),
        ("errors", Value::List(errors(opened))),
        ("warnings", Value::List(notes(opened, Severity::Warning))),
        (
            "rules",
            Value::List(
                answers
                    .iter()
                    .map(|answered| rule(answered, &names))
                    .collect(),
            ),
        ),
        ("unreached", Value::List(unreached(answers, &names))),
    ]))
}

/// The errors with a place, and those of the file as a whole.
fn errors(opened: &Opened) -> Vec<Value> {
    let general = opened
        .general
        .iter()
        .map(|message| note(Value::Null, Value::Null, message));
    notes(opened, Severity::Error)
        .into_iter()
        .chain(general)
        .collect()
}

fn notes(opened: &Opened, severity: Severity) -> Vec<Value> {
    let notes = opened
        .diagnostics
        .iter()
        .filter(|note| note.severity == severity);
    notes.map(placed).collect()
}

fn placed(diagnostic: &Diagnostic) -> Value {
    let Diagnostic { place, message, .. } = diagnostic;
    note(
        Value::number(place.line),
        Value::number(place.column),
        message,
    )
}

fn note(line: Value, column: Value, message: &str) -> Value {
    Value::Object(vec![
        ("line", line),
        ("column", column),
        ("message", Value::text(message)),
    ])
}

fn rule(answered: &Answered, names: &Names) -> Value {
    let Answered { rule, judged, .. } = answered;
    let verdict = if judged.verified { "holds" } else { "open" };
    let counts = &judged.counts;
    let states = states(judged);
    let last = tell::final_states(judged, &states).map(|state| final_state(state, names));
    Value::Object(vec![
        ("name", Value::text(rule)),
        ("kind", Value::text(pattern::kind(judged.plan.kind))),
        ("pattern", Value::Text(pattern::short(&judged.plan, names))),
        ("verdict", Value::text(verdict)),
        ("runs_may_end", Value::Truth(judged.runs_may_end())),
        ("states", Value::Number(counts.states.into())),
        ("meetings", Value::Number(counts.meetings.into())),
        ("ordering", Value::Number(counts.ordering.into())),
        ("pairs", Value::Number(counts.pairs.into())),
        ("fill", Value::Number(counts.fill.into())),
        ("final", Value::List(last.collect())),
    ])
}

fn final_state(state: &State, names: &Names) -> Value {
    let event = |&event: &usize| names.event(event);
    Value::Object(vec![
        ("number", Value::number(state.number)),
        ("seen", Value::texts(state.seen.iter().map(event))),
        ("next", Value::texts(state.next.iter().map(event))),
        ("accepted", Value::Truth(state.may_end)),
    ])
}

/// The nodes to which no run comes, each with its job.
fn unreached(answers: &[Answered], names: &Names) -> Vec<Value> {
    let nodes = tell::unreached_nodes(answers);
    let jobs = tell::plan(answers).map_or(&[][..], |plan: &Plan| &plan.jobs);
    let of_job = |(number, job)| {
        let unreached = tell::unreached_in(job, &nodes);
        unreached.map(move |node| unreached_node(number, node, names))
    };
    jobs.iter().enumerate().flat_map(of_job).collect()
}

fn unreached_node(job: usize, node: usize, names: &Names) -> Value {
    Value::Object(vec![
        ("job", Value::text(&names.job(job))),
        ("node", Value::text(&names.node(node))),
    ])
}
