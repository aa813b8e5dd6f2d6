//! A second reading of the rules for job plans and their verdicts: the trace
//! flow verifier in plain Rust, by a worklist of moves.
//!
//! It is compared, plan by plan, with the proved implementation.

#![forbid(unsafe_code)]

mod bits;
mod flow;
mod pattern;
mod plan;
mod text;

use std::ops::Range;

pub use flow::add_members;
pub use pattern::Automaton;
pub use plan::{Item, Job, Kind, Link, Plan, Step};
pub use text::read_text;

use flow::{Family, Graph};

/// The counts that come with a verdict, and the final set, in which state s
/// has weight 2^s.
#[derive(Clone, Copy, Debug, PartialEq, Eq)]
pub struct Counts {
    pub states: u32,
    pub meetings: u32,
    pub ordering: u32,
    pub pairs: u32,
    pub fill: u32,
    pub final_set: u64,
}

/// The answer to a plan. A refusal carries its number.
#[derive(Clone, Copy, Debug, PartialEq, Eq)]
pub enum Answer {
    Refused(u32),
    Verified(Counts),
    Inconclusive(Counts),
}

/// Judges a plan. On a verdict the first places of the row, one a node, hold
/// the sets of states; on a refusal the row stays unchanged. For a plan without
/// jobs "the row may have no places" (order 4), and none is written.
pub fn judge(plan: &[u8], row: &mut [u64]) -> Answer {
    answer(accept(plan), row)
}

/// Judges a plan as `judge` does, under a typed pattern in place of its own.
pub fn judge_text(plan: &[u8], text: &[u8], row: &mut [u64]) -> Answer {
    answer(accept_text(plan, text), row)
}

/// The place of the pattern's bytes in the plan, `0..0` where one of the
/// refusals 1 to 16 applies, or 21 (order 5).
pub fn pattern_part(plan: &[u8]) -> Range<usize> {
    match accept(plan) {
        Ok((accepted, _)) => accepted.pattern..plan.len(),
        Err(_) => 0..0,
    }
}

/// The plan and its automaton, or the first of the refusals 1 to 16 and 21.
fn accept(bytes: &[u8]) -> Result<(Plan, Automaton), u32> {
    let plan = Plan::read(bytes)?;
    let automaton = Automaton::of(&plan)?;
    Ok((plan, automaton))
}

/// The plan and the automaton of a text, or the first refusal: 1 to 15 and 21
/// for the plan with its own items, then 18 to 20 and 16 for the text.
fn accept_text(bytes: &[u8], text: &[u8]) -> Result<(Plan, Automaton), u32> {
    let plan = Plan::read(bytes)?;
    let items = read_text(text, plan.alphabet)?;
    let automaton = Automaton::of_items(&items, plan.alphabet)?;
    Ok((plan, automaton))
}

/// The answer to a plan under an automaton, or to a plan already refused.
fn answer(accepted: Result<(Plan, Automaton), u32>, row: &mut [u64]) -> Answer {
    let (plan, automaton) = match accepted {
        Ok(accepted) => accepted,
        Err(number) => return Answer::Refused(number),
    };
    // Refusal 17: the row has fewer places than there are nodes.
    let Some(places) = row.get_mut(..plan.nodes) else {
        return Answer::Refused(17);
    };
    let graph = Graph::of(&plan);
    let family = graph.family(&automaton);
    let counts = count(&plan, &automaton, &graph, &family);
    places.copy_from_slice(&family.sets);
    if verified(plan.kind, &automaton, counts.final_set) {
        Answer::Verified(counts)
    } else {
        Answer::Inconclusive(counts)
    }
}

fn count(plan: &Plan, automaton: &Automaton, graph: &Graph, family: &Family) -> Counts {
    let states = automaton.states() as u32;
    // The pairs are the tally as it ended (order 2).
    let pairs = family.pairs;
    // The final set is the intersection of the sets at all exits, of jobs that
    // do not stand only (order 5). Without jobs there is no exit, and "the one
    // run is the empty one: the final set is {0}" (order 4).
    let ends = plan.jobs.iter().filter_map(Job::end);
    let exits = ends.map(|exit| family.sets[exit]);
    let common = exits.reduce(|common, set| common & set);
    Counts {
        states,
        meetings: graph.meetings() as u32,
        ordering: graph.ordering() as u32,
        pairs,
        // Without nodes "pairs and fill are 0" (order 4).
        fill: match plan.nodes {
            0 => 0,
            nodes => percent(pairs, nodes as u32 * states),
        },
        final_set: common.unwrap_or(1),
    }
}

/// 100 × part / whole, rounded to a whole number, a half upwards. The whole is
/// not 0.
fn percent(part: u32, whole: u32) -> u32 {
    (200 * part + whole) / (2 * whole)
}

/// Kind every: every state of the final set accepts. Kind none: none does.
/// An empty final set is verified.
fn verified(kind: Kind, automaton: &Automaton, final_set: u64) -> bool {
    match kind {
        Kind::Every => final_set & !automaton.accepting() == 0,
        Kind::None => final_set & automaton.accepting() == 0,
    }
}
