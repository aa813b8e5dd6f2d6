//! The states of a rule's automaton, told by events: what leads to each, and what the rule allows next.
use crate::judged::{job_of, states_in, Judged};
use crate::names::events_in;
use std::collections::VecDeque;
use traceflow::{Arc, Automaton, Plan};

/// A state of the automaton.
#[derive(Clone, Debug, PartialEq, Eq)]
pub struct State {
    pub number: usize,
    /// A shortest list of watched events that leads here, as an example; of those of one length the first in the order of the events' numbers.
    /// Each event is one that the sets allow where it comes, unless they allow none that leads here.
    pub seen: Vec<usize>,
    /// The watched events behind which the pattern can still be met.
    pub next: Vec<usize>,
    /// Whether the pattern is met if nothing else is seen.
    pub may_end: bool,
    /// Whether the pattern is met now or can still be.
    pub alive: bool,
}

/// All states of a rule's automaton, by number.
pub fn states(judged: &Judged) -> Vec<State> {
    let Judged {
        automaton, plan, ..
    } = judged;
    states_of(automaton, plan.alphabet, &given(judged))
}

/// All states of an automaton, by number. In the alphabet event e has weight 2^e; `given[e]` has the states in which event e may be given.
pub fn states_of(automaton: &Automaton, alphabet: u32, given: &[u64; 32]) -> Vec<State> {
    let watched: Vec<usize> = events_in(alphabet).collect();
    let alive = alive(automaton, &watched);
    let seen = shortest(automaton, &watched, given);
    let anyhow = shortest(automaton, &watched, &[u64::MAX; 32]);
    let seen = seen
        .into_iter()
        .zip(anyhow)
        .map(|(seen, anyhow)| seen.or(anyhow));
    let state = |(number, seen): (usize, Option<Vec<usize>>)| State {
        number,
        seen: seen.unwrap_or_default(),
        next: allowed(automaton, &watched, alive, number),
        may_end: holds(automaton.accepting, number),
        alive: holds(alive, number),
    };
    seen.enumerate().map(state).collect()
}

/// For each event the states in which it may be given, by the sets: those of a node that a step leaves, and those that both nodes of a
/// meeting hold.
pub fn given(judged: &Judged) -> [u64; 32] {
    let mut given = [0; 32];
    let set = |arc: &Arc| judged.sets.get(arc.from).copied().unwrap_or(0);
    let steps = judged.plan.steps.iter().map(|step| (step.label, set(step)));
    let meetings =
        meetings(&judged.plan).map(|(event, call, accept)| (event, set(call) & set(accept)));
    for (event, states) in steps.chain(meetings) {
        if let Some(place) = given.get_mut(event) {
            *place |= states;
        }
    }
    given
}

/// The meetings of a plan, each with its event: a call and an accept on the same channel in different jobs.
fn meetings(plan: &Plan) -> impl Iterator<Item = (usize, &Arc, &Arc)> {
    let pairs = plan
        .calls
        .iter()
        .flat_map(|call| plan.accepts.iter().map(move |accept| (call, accept)));
    let met = pairs.filter(|(call, accept)| {
        call.label == accept.label && job_of(plan, call.from) != job_of(plan, accept.from)
    });
    met.filter_map(|(call, accept)| Some((*plan.channels.get(call.label)?, call, accept)))
}

/// The state to which an event moves a state.
pub fn moved(automaton: &Automaton, state: usize, event: usize) -> usize {
    let row = automaton.moves.get(state);
    row.and_then(|row| row.get(event))
        .map_or(state, |&to| usize::from(to))
}

/// Whether a state is in a set, in which state s has weight 2^s.
pub fn holds(set: u64, state: usize) -> bool {
    states_in(set).any(|member| member == state)
}

/// The events that lead from a state to one of a set of states.
fn allowed(automaton: &Automaton, watched: &[usize], goal: u64, state: usize) -> Vec<usize> {
    let leads = |event: &&usize| holds(goal, moved(automaton, state, **event));
    watched.iter().filter(leads).copied().collect()
}

/// The states from which an accepting one can be reached, the accepting ones included.
fn alive(automaton: &Automaton, watched: &[usize]) -> u64 {
    let mut alive = automaton.accepting;
    loop {
        let wider = widened(automaton, watched, alive);
        if wider == alive {
            return alive;
        }
        alive = wider;
    }
}

/// The accepting states that watched events never lead out of.
pub fn settled(automaton: &Automaton, alphabet: u32) -> u64 {
    let watched: Vec<usize> = events_in(alphabet).collect();
    let mut settled = automaton.accepting;
    loop {
        let stays =
            |&state: &usize| allowed(automaton, &watched, settled, state).len() == watched.len();
        let narrower = states_in(settled)
            .filter(stays)
            .fold(0, |set, state| set | 1 << state);
        if narrower == settled {
            return settled;
        }
        settled = narrower;
    }
}

/// A set of states, and the states from which one event leads into it.
fn widened(automaton: &Automaton, watched: &[usize], set: u64) -> u64 {
    let leads = |state: &usize| !allowed(automaton, watched, set, *state).is_empty();
    let states = (0..automaton.moves.len().min(64)).filter(leads);
    states.fold(set, |wider, state| wider | 1 << state)
}

/// For each state a shortest list of events that leads to it from state 0: breadth first, events in ascending order, and each in a state in
/// which it may be given.
fn shortest(
    automaton: &Automaton,
    watched: &[usize],
    given: &[u64; 32],
) -> Vec<Option<Vec<usize>>> {
    let mut seen: Vec<Option<Vec<usize>>> = vec![None; automaton.moves.len()];
    let mut waiting = VecDeque::from([(0, Vec::new())]);
    while let Some((state, events)) = waiting.pop_front() {
        let Some(place @ None) = seen.get_mut(state) else {
            continue;
        };
        let given = watched.iter().filter(|event| {
            given
                .get(**event)
                .is_some_and(|&states| holds(states, state))
        });
        waiting.extend(given.map(|&event| {
            let further = events.iter().copied().chain([event]).collect();
            (moved(automaton, state, event), further)
        }));
        *place = Some(events);
    }
    seen
}
