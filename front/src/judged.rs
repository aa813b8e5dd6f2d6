//! A plan's bytes with all that the proved library says of them.
use traceflow::{Answer, Automaton, Counts, Job, Plan};

/// No plan has more nodes.
const MOST_NODES: usize = 256;

/// What was read from the bytes of a plan, and the answer to them.
#[derive(Clone, Debug, PartialEq, Eq)]
pub struct Judged {
    pub plan: Plan,
    pub automaton: Automaton,
    pub verified: bool,
    pub counts: Counts,
    /// For each node the states that may hold while a job is there; state s has weight 2^s.
    pub sets: Vec<u64>,
}

/// Judges the bytes and reads them back, or gives the number of the first refusal.
pub fn judge(bytes: &[u8]) -> Result<Judged, u32> {
    let mut row = [0; MOST_NODES];
    let (verified, counts) = match traceflow::judge(bytes, &mut row) {
        Answer::Refused(number) => return Err(number),
        Answer::Verified(counts) => (true, counts),
        Answer::Inconclusive(counts) => (false, counts),
    };
    let plan = traceflow::tables(bytes)?;
    let automaton = traceflow::automaton(bytes)?;
    let sets = row.into_iter().take(plan.nodes).collect();
    Ok(Judged {
        plan,
        automaton,
        verified,
        counts,
        sets,
    })
}

impl Judged {
    /// Whether some state comes to the ends of all jobs. Where none does, no run can end.
    pub fn runs_may_end(&self) -> bool {
        self.counts.final_set != 0
    }
}

/// The members of a set of states, in which state s has weight 2^s, in ascending order.
pub fn states_in(set: u64) -> impl Iterator<Item = usize> {
    (0..64).filter(move |state| set >> state & 1 == 1)
}

/// The job to which a node belongs.
pub fn job_of(plan: &Plan, node: usize) -> Option<usize> {
    plan.jobs.iter().position(|job| has(job, node))
}

/// Whether a node is one of a job's.
pub fn has(job: &Job, node: usize) -> bool {
    (job.first..job.first + job.size).contains(&node)
}
