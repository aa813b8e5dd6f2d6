//! The moves of a plan: its local steps and its meetings.

use reference::{Link, Plan};

/// A local step with its one job, or a meeting with its two.
pub struct Move {
    pub parts: Vec<Part>,
    pub event: u32,
}

pub struct Part {
    pub job: usize,
    pub from: usize,
    pub to: usize,
}

/// All local steps, and all meetings: a call and an accept on the same channel in different jobs.
pub fn moves_of(plan: &Plan) -> Vec<Move> {
    let part = |from, to| Part {
        job: plan.job_of(from),
        from,
        to,
    };
    let local = plan.steps.iter().map(|step| Move {
        parts: vec![part(step.from, step.to)],
        event: step.event,
    });
    let pairs = plan.calls.iter().flat_map(|call| {
        let accepts = plan.accepts.iter();
        accepts.map(move |accept: &Link| (call, accept))
    });
    let met = pairs
        .filter(|(call, accept)| call.channel == accept.channel)
        .map(|(call, accept)| Move {
            parts: vec![part(call.from, call.to), part(accept.from, accept.to)],
            event: plan.channels[call.channel],
        })
        .filter(|meeting| meeting.parts[0].job != meeting.parts[1].job);
    local.chain(met).collect()
}
