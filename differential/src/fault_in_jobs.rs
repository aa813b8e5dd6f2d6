//! Faults made on purpose in the jobs, steps, calls and accepts: refusals 5, 6, 21 and 7 to 9.
//!
//! Each function says whether the plan allowed its fault.

use crate::draft::{spans, Arc, Draft, Job};
use crate::layout::{MOST_CHANNELS, MOST_NODES};
use crate::random::Random;
use crate::refusals::ALL_STAND;
use std::ops::Range;

/// Events are below this.
const EVENTS: u32 = 32;

/// Makes the fault of this refusal, if it is one of these.
pub fn make(refusal: u32, draft: &mut Draft, random: &mut Random) -> bool {
    match refusal {
        5 => wrong_sizes(draft, random),
        6 => strange_entry_or_exit(draft, random),
        ALL_STAND => all_stand(draft, random),
        7 => strange_end(draft, random),
        8 => leave_exit(draft, random),
        9 => strange_channel(draft, random),
        _ => false,
    }
}

/// A node number that a job does not have, often one just beside its nodes.
fn outside(span: &Range<u32>, random: &mut Random) -> Option<u32> {
    let all: Vec<u32> = (0..MOST_NODES)
        .filter(|node| !span.contains(node))
        .collect();
    let beside = |node: &&u32| **node + 1 == span.start || **node == span.end;
    let near: Vec<u32> = all.iter().filter(beside).copied().collect();
    let chosen = if near.is_empty() || random.one_in(2) {
        all
    } else {
        near
    };
    (!chosen.is_empty()).then(|| random.pick(&chosen))
}

/// A size 0, or sizes of another sum: also one that is right in 9 bits only, and that of no jobs, or of no nodes.
fn wrong_sizes(draft: &mut Draft, random: &mut Random) -> bool {
    if draft.jobs.is_empty() {
        let any = random.within(1..=MOST_NODES);
        draft.nodes = random.pick(&[1, any, MOST_NODES]);
        return true;
    }
    let job = random.index(draft.jobs.len());
    let next = (job + 1) % draft.jobs.len();
    let size = draft.jobs[job].size;
    match random.below(7) {
        0 => draft.jobs[job].size = 0,
        1 if next != job => {
            draft.jobs[next].size += size;
            draft.jobs[job].size = 0;
        }
        2 if next != job && size < 256 && draft.jobs[next].size < 256 => {
            draft.jobs[job].size += 256;
            draft.jobs[next].size += 256;
        }
        3 if draft.nodes > 1 => draft.nodes -= 1,
        4 if draft.nodes < MOST_NODES => draft.nodes += 1,
        5 => draft.nodes = 0,
        6 => draft.jobs.clear(),
        _ => draft.jobs[job].size = size ^ random.within(1..=511),
    }
    true
}

/// An entry, an exit or both that the job does not have, or an exit of a standing job that is not its entry.
fn strange_entry_or_exit(draft: &mut Draft, random: &mut Random) -> bool {
    if draft.jobs.is_empty() {
        return false;
    }
    let index = random.index(draft.jobs.len());
    let span = &spans(&draft.jobs)[index];
    let job = &mut draft.jobs[index];
    if random.one_in(2) && let_exit_differ(job, span, random) {
        return true;
    }
    let Some(strange) = outside(span, random) else {
        return false;
    };
    let ends = random.pick(&[[true, false], [false, true], [true, true]]);
    for (end, changes) in [&mut job.entry, &mut job.exit].into_iter().zip(ends) {
        if changes {
            *end = strange;
        }
    }
    true
}

/// Makes the job stand with an exit that is another of its nodes than the entry, if there is another.
fn let_exit_differ(job: &mut Job, span: &Range<u32>, random: &mut Random) -> bool {
    let others: Vec<u32> = span.clone().filter(|&node| node != job.entry).collect();
    if others.is_empty() {
        return false;
    }
    job.standing = true;
    if job.exit == job.entry {
        job.exit = random.pick(&others);
    }
    true
}

/// Every job stands: its exit is made its entry, or the reverse.
fn all_stand(draft: &mut Draft, random: &mut Random) -> bool {
    for job in &mut draft.jobs {
        if random.one_in(2) {
            job.entry = job.exit;
        }
        job.stand();
    }
    !draft.jobs.is_empty()
}

/// Any local step, call or accept; a new step if there is none.
fn any_arc<'a>(draft: &'a mut Draft, random: &mut Random) -> &'a mut Arc {
    if draft.steps.is_empty() && draft.calls.is_empty() && draft.accepts.is_empty() {
        draft.steps.push(Arc {
            from: 0,
            to: 0,
            label: 0,
        });
    }
    let mut lists = [&mut draft.steps, &mut draft.calls, &mut draft.accepts];
    random.shuffle(&mut lists);
    let list = lists.into_iter().find(|list| !list.is_empty());
    random.pick_mut(list.expect("one of the three lists has an arc"))
}

/// A new step, call or accept, which in a plan without jobs is strange whatever its ends and its channel.
fn strange_arc(draft: &mut Draft, random: &mut Random) -> bool {
    let (list, labels) = match random.below(3) {
        0 => (&mut draft.steps, EVENTS),
        1 => (&mut draft.calls, MOST_CHANNELS),
        _ => (&mut draft.accepts, MOST_CHANNELS),
    };
    let mut end = || match random.one_in(2) {
        true => 0,
        false => random.below(MOST_NODES),
    };
    let (from, to) = (end(), end());
    let label = random.below(labels);
    list.push(Arc { from, to, label });
    true
}

fn strange_end(draft: &mut Draft, random: &mut Random) -> bool {
    if draft.jobs.is_empty() {
        return strange_arc(draft, random);
    }
    let (spans, nodes) = (spans(&draft.jobs), draft.nodes);
    let arc = any_arc(draft, random);
    if nodes < MOST_NODES && random.one_in(4) {
        arc.from = random.within(nodes..=MOST_NODES - 1);
        arc.to = arc.from;
        return true;
    }
    let span = spans.into_iter().find(|span| span.contains(&arc.from));
    let Some(strange) = span.and_then(|span| outside(&span, random)) else {
        return false;
    };
    let end = if random.one_in(2) {
        &mut arc.from
    } else {
        &mut arc.to
    };
    *end = strange;
    true
}

/// A step, call or accept from the exit of a job that does not stand: its own, or it comes to one that has an exit.
fn leave_exit(draft: &mut Draft, random: &mut Random) -> bool {
    let (spans, jobs) = (spans(&draft.jobs), draft.jobs.clone());
    let ending: Vec<&Job> = jobs.iter().filter(|job| !job.standing).collect();
    if ending.is_empty() {
        return false;
    }
    let arc = any_arc(draft, random);
    let place = spans.iter().position(|span| span.contains(&arc.from));
    let own = place.map(|job| &jobs[job]).filter(|job| !job.standing);
    let exit = own.unwrap_or_else(|| random.pick(&ending)).exit;
    arc.from = exit;
    if own.is_none() || random.one_in(3) {
        arc.to = exit;
    }
    true
}

/// A call or accept of a channel that is not there, or is taken away.
fn strange_channel(draft: &mut Draft, random: &mut Random) -> bool {
    let channels = draft.channels.len() as u32;
    let mut lists = [&mut draft.calls, &mut draft.accepts];
    random.shuffle(&mut lists);
    let Some(list) = lists.into_iter().find(|list| !list.is_empty()) else {
        return false;
    };
    let arc = random.pick_mut(list);
    if channels < MOST_CHANNELS && random.one_in(2) {
        arc.label = random.within(channels..=MOST_CHANNELS - 1);
    } else {
        draft.channels.truncate(arc.label as usize);
    }
    true
}
