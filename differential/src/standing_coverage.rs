//! What the plans with standing jobs of a run were like and what they were answered.

use crate::case::Case;
use crate::compare::Answers;
use crate::coverage::Tally;
use crate::draft::{spans, Arc, Job};
use crate::layout::Records;
use crate::refusals::{self, ALL_STAND};
use std::collections::BTreeSet;
use traceflow::Answer;

/// The refusals whose faults have to be made beside that of 21.
const BESIDE: [u32; 3] = [7, 8, 9];

#[derive(Default)]
pub struct Standing {
    own: Tally,
    typed: Tally,
    /// Judged, with one standing job: the first, one in the middle, the last.
    one: [u64; 3],
    /// Judged, with several, and of three jobs or more with all but one.
    several: u64,
    all_but_one: u64,
    /// Judged, and a standing job moves away from its entry.
    moves: u64,
    /// Judged, and several jobs can meet one standing job on a channel.
    serves_several: u64,
    /// Refusal 6 where every entry and exit is a node of its job.
    exit_differs: u64,
    /// Refusal 21 with an empty pattern part, and where these faults were made too.
    no_part: u64,
    beside: [u64; 3],
}

impl Standing {
    /// Adds a plan with jobs.
    pub fn add(&mut self, case: &Case, answers: &Answers) {
        let records = &case.records;
        let places: Vec<usize> = standing(&records.jobs).collect();
        if places.is_empty() {
            return;
        }
        self.own.add(&case.plan, &answers.own);
        self.typed.add(&case.plan, &answers.typed);
        match answers.own {
            Answer::Refused(6) => self.exit_differs += u64::from(all_within(&records.jobs)),
            Answer::Refused(ALL_STAND) => {
                self.no_part += u64::from(answers.pattern_part.is_empty());
                for (count, fault) in self.beside.iter_mut().zip(BESIDE) {
                    *count += u64::from(case.faults.contains(&fault));
                }
            }
            Answer::Refused(_) => {}
            _ => self.add_judged(records, &places),
        }
    }

    fn add_judged(&mut self, records: &Records, places: &[usize]) {
        let jobs = records.jobs.len();
        match *places {
            [0] => self.one[0] += 1,
            [last] if last + 1 == jobs => self.one[2] += 1,
            [_] => self.one[1] += 1,
            _ => self.several += 1,
        }
        self.all_but_one += u64::from(jobs > 2 && places.len() + 1 == jobs);
        self.moves += u64::from(move_away(records));
        self.serves_several += u64::from(serve_several(records));
    }

    pub fn asked(&self) -> Vec<(String, u64)> {
        // No plan that is too short for the head has the record of a job.
        let refusals = refusals::own().into_iter().filter(|&refusal| refusal != 1);
        let mut asked = self.own.asked(refusals, "standing: ");
        asked.extend(self.typed.asked([ALL_STAND], "standing, text: "));
        let [first, middle, last] = self.one;
        let others = [
            ("judged, the first", first),
            ("judged, one in the middle", middle),
            ("judged, the last", last),
            ("judged, several", self.several),
            ("judged, all but one", self.all_but_one),
            ("judged, leaves its entry", self.moves),
            ("judged, meets several jobs", self.serves_several),
            ("refused 6, exit differs", self.exit_differs),
            ("refused 21, no pattern part", self.no_part),
        ];
        let named = |(name, count)| (format!("standing: {name}"), count);
        asked.extend(others.map(named));
        let beside = |(fault, count)| (format!("standing: refused 21, with fault {fault}"), count);
        asked.extend(BESIDE.into_iter().zip(self.beside).map(beside));
        asked
    }
}

/// The places of the standing jobs.
fn standing(jobs: &[Job]) -> impl Iterator<Item = usize> + '_ {
    (0..jobs.len()).filter(|&place| jobs[place].standing)
}

fn all_within(jobs: &[Job]) -> bool {
    let mut each = jobs.iter().zip(spans(jobs));
    each.all(|(job, span)| job.is_within(&span))
}

/// Whether a local step, call or accept leaves the entry of a standing job, which is its exit too.
fn move_away(records: &Records) -> bool {
    let entries: Vec<u32> = standing(&records.jobs)
        .map(|place| records.jobs[place].entry)
        .collect();
    records.arcs().any(|arc| entries.contains(&arc.from))
}

/// Whether several jobs call on a channel that a standing job accepts on.
fn serve_several(records: &Records) -> bool {
    let spans = spans(&records.jobs);
    let job_of = |arc: &Arc| spans.iter().position(|span| span.contains(&arc.from));
    records.accepts.iter().any(|accept| {
        let server = job_of(accept);
        let stands = server.is_some_and(|job| records.jobs[job].standing);
        let calls = records.calls.iter();
        let heard = calls.filter(|call| stands && call.label == accept.label);
        let mut callers: BTreeSet<Option<usize>> = heard.map(job_of).collect();
        callers.remove(&server);
        callers.len() > 1
    })
}

#[cfg(test)]
mod tests {
    use super::*;
    use crate::case::faulty;
    use crate::compare::independent_answer;
    use crate::random::Random;
    use crate::read_back;
    use crate::standing::known;

    #[test]
    fn the_known_plans_are_counted() {
        let mut standing = Standing::default();
        assert!(standing.asked().iter().all(|(_, count)| *count == 0));
        for draft in known() {
            let case = faulty(draft, &[], &mut Random::new(7));
            let answer = independent_answer(&case.plan, None, &mut [0; 4]);
            let answers = Answers {
                own: answer,
                typed: answer,
                pattern_part: reference::pattern_part(&case.plan),
                read_back: read_back::independent(&case),
            };
            standing.add(&case, &answers);
        }
        let mut counted = standing.asked();
        counted.retain(|(_, count)| *count > 0);
        let due = [
            ("standing: refused 6", 1),
            ("standing: refused 21", 1),
            ("standing: verified, kind every", 1),
            ("standing: inconclusive, kind every", 1),
            ("standing: verified, kind none", 1),
            ("standing: inconclusive, kind none", 1),
            ("standing, text: refused 21", 1),
            ("standing, text: verified, kind every", 1),
            ("standing, text: inconclusive, kind every", 1),
            ("standing, text: verified, kind none", 1),
            ("standing, text: inconclusive, kind none", 1),
            ("standing: judged, the first", 4),
            ("standing: judged, leaves its entry", 4),
            ("standing: refused 6, exit differs", 1),
            ("standing: refused 21, no pattern part", 1),
        ];
        assert_eq!(counted, due.map(|(name, count)| (name.to_string(), count)));
    }
}
