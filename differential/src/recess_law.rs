//! Laws about plans without jobs, or without nodes, that need no other implementation.

use crate::draft::{as_read, Item};
use crate::layout::{kind, COUNTS, JOBS};
use crate::recess::REFUSALS;
use crate::refusals::OF_TEXT;
use crate::runs::expression::has_empty_string;
use traceflow::{Answer, Counts};

/// What is wrong with the answer to the plan under these items; they are none where they are not known.
pub fn broken(plan: &[u8], items: &[Item], answer: &Answer) -> Option<String> {
    if let Some(refusal) = told_by_head(plan) {
        let early = matches!(answer, Answer::Refused(given) if *given <= refusal);
        return (!early)
            .then(|| format!("refusal {refusal} applies by the head, or an earlier one"));
    }
    match (JOBS.read(plan), answer) {
        (0, Answer::Refused(refusal)) => {
            let never = !OF_TEXT.contains(refusal) && !REFUSALS.contains(refusal);
            never.then(|| format!("refusal {refusal} never applies to a plan without jobs"))
        }
        (0, Answer::Verified(counts)) => broken_verdict(plan, items, true, counts),
        (0, Answer::Inconclusive(counts)) => broken_verdict(plan, items, false, counts),
        _ => None,
    }
}

/// The refusal that the head alone tells, unless an earlier one applies: 5 for jobs 0 with nodes or nodes 0 with jobs, 7 for steps,
/// calls or accepts without jobs.
fn told_by_head(plan: &[u8]) -> Option<u32> {
    let [jobs, nodes, steps, calls, accepts, ..] = COUNTS.map(|count| count.read(plan));
    if (jobs == 0) != (nodes == 0) {
        Some(5)
    } else if jobs == 0 && steps + calls + accepts > 0 {
        Some(7)
    } else {
        None
    }
}

/// The one run of a plan without jobs is the empty one: no jobs meet, nothing is ordered, no node holds a state, and the final set is
/// {0}. The verdict tells whether the empty string suits items and kind.
fn broken_verdict(plan: &[u8], items: &[Item], verified: bool, counts: &Counts) -> Option<String> {
    let nothing = [counts.meetings, counts.ordering, counts.pairs, counts.fill];
    if nothing != [0; 4] || counts.final_set != 1 {
        return Some("a plan without jobs has more than the empty run".to_string());
    }
    let belongs = has_empty_string(&as_read(items))?;
    let suits = belongs == (kind(plan) == 0);
    let does = if suits { "suits" } else { "does not suit" };
    (verified != suits).then(|| format!("the empty string {does} the plan without jobs"))
}

#[cfg(test)]
mod tests {
    use super::*;
    use crate::compare::independent_answer;
    use crate::draft::{Arc, Draft, Job};
    use crate::random::Random;
    use crate::recess::recess;

    /// Each way in which a verdict may be a little wrong: the other one, or another count.
    fn altered(answer: &Answer) -> Vec<Answer> {
        let (verdict, other, right): (fn(_) -> _, fn(_) -> _, _) = match *answer {
            Answer::Refused(_) => return vec![],
            Answer::Verified(counts) => (Answer::Verified, Answer::Inconclusive, counts),
            Answer::Inconclusive(counts) => (Answer::Inconclusive, Answer::Verified, counts),
        };
        let changes: [fn(&mut Counts); 7] = [
            |counts| counts.meetings += 1,
            |counts| counts.ordering += 1,
            |counts| counts.pairs += 1,
            |counts| counts.fill = 100,
            |counts| counts.final_set = 0,
            |counts| counts.final_set = 2,
            |counts| counts.final_set = u64::MAX,
        ];
        let changed = |change: fn(&mut Counts)| {
            let mut counts = right;
            change(&mut counts);
            verdict(counts)
        };
        let mut wrong = changes.map(changed).to_vec();
        wrong.push(other(right));
        wrong
    }

    #[test]
    fn an_altered_verdict_is_found_out() {
        let mut tried = 0;
        for number in 0..500 {
            let draft = recess(&mut Random::for_plan(7, number));
            let plan = draft.encode();
            let right = independent_answer(&plan, None, &mut []);
            assert_eq!(broken(&plan, &draft.items, &right), None, "plan {number}");
            for wrong in altered(&right) {
                let found = broken(&plan, &draft.items, &wrong);
                assert!(found.is_some(), "plan {number}: {wrong:?}");
                tried += 1;
            }
        }
        assert!(tried > 1_000);
    }

    /// The refusals that are found out if they are given to this plan.
    fn found_out(draft: &Draft) -> Vec<u32> {
        let plan = draft.encode();
        let found = |refusal: &u32| {
            let answer = Answer::Refused(*refusal);
            broken(&plan, &draft.items, &answer).is_some()
        };
        (1..=21).filter(found).collect()
    }

    #[test]
    fn a_refusal_that_comes_too_late_is_found_out() {
        let job = Job {
            size: 1,
            entry: 0,
            exit: 0,
            standing: false,
        };
        let (from, to, label) = (0, 0, 0);
        let arc = Arc { from, to, label };
        let empty = recess(&mut Random::new(7));
        let found_with = |change: &dyn Fn(&mut Draft)| {
            let mut draft = empty.clone();
            change(&mut draft);
            found_out(&draft)
        };
        let after = |refusal: u32| Vec::from_iter(refusal + 1..=21);
        assert_eq!(found_out(&empty), [6, 8, 9, 17, 21]);
        assert_eq!(found_with(&|draft| draft.nodes = 1), after(5));
        assert_eq!(found_with(&|draft| draft.jobs.push(job.clone())), after(5));
        assert_eq!(found_with(&|draft| draft.steps.push(arc.clone())), after(7));
        assert_eq!(found_with(&|draft| draft.calls.push(arc.clone())), after(7));
        let with_accept = found_with(&|draft| draft.accepts.push(arc.clone()));
        assert_eq!(with_accept, after(7));
    }
}
