//! Laws about standing jobs that need no other implementation: what the records of a plan tell of refusals 6, 21 and 8, and which
//! exits the final set takes in.

use crate::draft::{spans, Job};
use crate::layout::Records;
use crate::refusals::{comes_after, ALL_STAND};
use traceflow::{Answer, Counts};

/// The refusals that the records decide, unless an earlier one applies.
const OF_RECORDS: [u32; 3] = [6, ALL_STAND, 8];

/// What is wrong with the answer to a plan of these records, or with the row that came with it.
pub fn broken(records: &Records, row: &[u64], answer: &Answer) -> Option<String> {
    let told = told_by(records);
    let late = |told| format!("refusal {told} applies, or an earlier one");
    match answer {
        Answer::Refused(given) if OF_RECORDS.contains(given) && told != Some(*given) => {
            Some(format!("refusal {given} does not apply"))
        }
        Answer::Refused(given) => told.filter(|told| comes_after(*given, *told)).map(late),
        Answer::Verified(counts) | Answer::Inconclusive(counts) => told
            .map(late)
            .or_else(|| broken_final_set(&records.jobs, row, counts)),
    }
}

/// The first of these refusals that applies.
fn told_by(records: &Records) -> Option<u32> {
    let jobs = &records.jobs;
    let differs = |job: &Job| job.standing && job.exit != job.entry;
    let mut each = jobs.iter().zip(spans(jobs));
    if each.any(|(job, span)| !job.is_within(&span) || differs(job)) {
        Some(6)
    } else if !jobs.is_empty() && jobs.iter().all(|job| job.standing) {
        Some(ALL_STAND)
    } else {
        let ending = jobs.iter().filter(|job| !job.standing);
        let exits: Vec<u32> = ending.map(|job| job.exit).collect();
        let leaves = records.arcs().any(|arc| exits.contains(&arc.from));
        leaves.then_some(8)
    }
}

/// The final set is what the exits of the jobs that do not stand hold in common, and state 0 where there are no jobs.
fn broken_final_set(jobs: &[Job], row: &[u64], counts: &Counts) -> Option<String> {
    let exits = jobs.iter().filter(|job| !job.standing).map(|job| job.exit);
    let sets = exits.map(|exit| row.get(exit as usize).copied().unwrap_or_default());
    let due = sets.reduce(|common, set| common & set).unwrap_or(1);
    let right = counts.final_set == due;
    (!right).then(|| format!("the exits of the jobs that do not stand have {due:#x} in common"))
}

#[cfg(test)]
pub mod tests {
    use super::*;
    use crate::compare::independent_answer;
    use crate::draft::Draft;
    use crate::layout::records;
    use crate::random::Random;
    use crate::refusals::ORDER;
    use crate::sound::{any_scale, sound};
    use crate::standing::{known, server};

    /// The verdict with another final set; a refusal as it is.
    pub fn with_final_set(answer: Answer, final_set: u64) -> Answer {
        match answer {
            Answer::Verified(counts) => Answer::Verified(Counts {
                final_set,
                ..counts
            }),
            Answer::Inconclusive(counts) => Answer::Inconclusive(Counts {
                final_set,
                ..counts
            }),
            refused => refused,
        }
    }

    /// What all exits hold in common, those of standing jobs too.
    fn of_all_exits(draft: &Draft, row: &[u64]) -> u64 {
        let exits = draft.jobs.iter().map(|job| row[job.exit as usize]);
        exits.fold(u64::MAX, |common, set| common & set)
    }

    #[test]
    fn a_final_set_of_all_exits_is_found_out() {
        let mut tried = 0;
        for number in 0..2_000 {
            let random = &mut Random::for_plan(7, number);
            let draft = match random.one_in(2) {
                true => server(random),
                false => sound(any_scale(random), random),
            };
            let plan = draft.encode();
            let mut row = [0; 256];
            let right = independent_answer(&plan, None, &mut row);
            let records = records(&plan);
            assert_eq!(broken(&records, &row, &right), None, "plan {number}");
            let wrong = with_final_set(right, of_all_exits(&draft, &row));
            if wrong != right {
                assert!(broken(&records, &row, &wrong).is_some(), "plan {number}");
                tried += 1;
            }
        }
        assert!(tried > 300, "{tried}");
    }

    /// The refusals that are found out if they are given to this plan, and whether a verdict is whose final set the row has.
    fn found_out(draft: &Draft) -> (Vec<u32>, bool) {
        let records = records(&draft.encode());
        let found = |answer: &Answer| broken(&records, &[u64::MAX; 256], answer).is_some();
        let mut refusals = ORDER.to_vec();
        refusals.retain(|refusal| found(&Answer::Refused(*refusal)));
        refusals.sort_unstable();
        let counts = Counts {
            states: 64,
            meetings: 0,
            ordering: 0,
            pairs: 0,
            fill: 0,
            final_set: u64::MAX,
        };
        (refusals, found(&Answer::Verified(counts)))
    }

    #[test]
    fn a_refusal_that_does_not_apply_or_comes_too_late_is_found_out() {
        let [served, .., all_stand, exit_differs] = known();
        let mut leaves_exit = served.clone();
        leaves_exit.calls[0].from = served.jobs[1].exit;
        let mut strange_entry = all_stand.clone();
        strange_entry.jobs[1].entry = 0;
        let but = |allowed: &[u32]| {
            let found = (1..=21).filter(|refusal| !allowed.contains(refusal));
            (found.collect::<Vec<u32>>(), true)
        };
        assert_eq!(found_out(&served), (vec![6, 8, 21], false));
        assert_eq!(found_out(&all_stand), but(&[1, 2, 3, 4, 5, 21]));
        assert_eq!(found_out(&exit_differs), but(&[1, 2, 3, 4, 5, 6]));
        assert_eq!(found_out(&strange_entry), but(&[1, 2, 3, 4, 5, 6]));
        assert_eq!(found_out(&leaves_exit), but(&[1, 2, 3, 4, 5, 7, 8]));
    }
}
