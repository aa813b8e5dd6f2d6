//! Plans with standing jobs among the small ones. Their complete ends are those at which all other jobs have ended.

use super::exploration::Explored;
use super::kind;
use super::least::{final_set, is_verified};
use reference::{Automaton, Plan};
use std::fmt;

/// What was seen of them. The pairs are for kind every, then kind none.
#[derive(Default)]
pub struct Standing {
    verified: [usize; 2],
    inconclusive: [usize; 2],
    /// Verified plans with a complete end at which a standing job is in the middle of its work.
    verified_at_work: [usize; 2],
    /// Complete ends at which a standing job is in the middle of its work.
    at_work: usize,
    /// Moves taken after a complete end.
    gone_on: usize,
    /// Plans with a smaller final set if the exits of standing jobs were taken in.
    smaller: usize,
    /// Plans that would be verified by that.
    misjudged: [usize; 2],
    /// Of these, the ones that have a wrong complete run.
    refuted: [usize; 2],
}

impl Standing {
    /// Adds a plan with its sets and what its exploration saw, if one of its jobs stands.
    pub fn add(&mut self, plan: &Plan, automaton: &Automaton, row: &[u64], explored: &Explored) {
        if !plan.jobs.iter().any(|job| job.standing) {
            return;
        }
        let kind = kind(plan);
        let [taken_in, left_out] = [of_all_exits(plan, row), final_set(plan, row)];
        let verified = is_verified(plan, automaton, left_out);
        let misjudged = !verified && is_verified(plan, automaton, taken_in);
        match verified {
            true => self.verified[kind] += 1,
            false => self.inconclusive[kind] += 1,
        }
        self.verified_at_work[kind] += usize::from(verified && explored.at_work > 0);
        self.at_work += explored.at_work;
        self.gone_on += explored.gone_on;
        self.smaller += usize::from(taken_in != left_out);
        self.misjudged[kind] += usize::from(misjudged);
        self.refuted[kind] += usize::from(misjudged && explored.wrong > 0);
    }

    pub fn seen(&self) -> [(&'static str, usize, usize); 8] {
        let least = |counts: [usize; 2]| counts[0].min(counts[1]);
        [
            (
                "verified plans of one kind with a standing job",
                least(self.verified),
                500,
            ),
            (
                "of them with a complete end where one is at work",
                least(self.verified_at_work),
                250,
            ),
            (
                "inconclusive plans of one kind with a standing job",
                least(self.inconclusive),
                1_300,
            ),
            (
                "complete ends where a standing job is at work",
                self.at_work,
                15_000,
            ),
            (
                "moves of standing jobs after a complete end",
                self.gone_on,
                60_000,
            ),
            (
                "plans with a smaller final set if standing exits were taken in",
                self.smaller,
                700,
            ),
            (
                "plans of one kind verified by that alone",
                least(self.misjudged),
                80,
            ),
            ("of them with a wrong complete run", least(self.refuted), 50),
        ]
    }
}

/// The final set if the exits of standing jobs were taken in.
fn of_all_exits(plan: &Plan, row: &[u64]) -> u64 {
    let exits = plan.jobs.iter().map(|job| row[job.exit]);
    exits.fold(u64::MAX, |common, set| common & set)
}

impl fmt::Display for Standing {
    fn fmt(&self, out: &mut fmt::Formatter) -> fmt::Result {
        write!(
            out,
            "verified {:?}, with a complete end where one is at work {:?}; inconclusive {:?}; {} complete ends where one is at work, \
             {} moves after a complete end; {} with a smaller final set if standing exits were taken in, {:?} verified by that alone, \
             of these with a wrong run {:?}",
            self.verified,
            self.verified_at_work,
            self.inconclusive,
            self.at_work,
            self.gone_on,
            self.smaller,
            self.misjudged,
            self.refuted
        )
    }
}

#[cfg(test)]
mod tests {
    use super::super::check_with;
    use super::super::exploration::explore;
    use super::super::tests::{read, verdict};
    use super::*;
    use crate::standing::known;
    use crate::standing_law::tests::with_final_set;
    use traceflow::Answer;

    #[test]
    fn runs_go_past_complete_ends() {
        for (draft, wrong) in known().into_iter().zip([1, 1, 0, 0]) {
            let bytes = draft.encode();
            let (plan, automaton) = read(&bytes, None);
            let mut row = vec![0; plan.nodes];
            reference::judge(&bytes, &mut row);
            let explored = explore(&plan, &plan.items, &automaton, &row, 10);
            let explored = explored.unwrap().unwrap();
            assert_eq!((explored.configurations, explored.complete), (3, 2));
            assert_eq!((explored.at_work, explored.gone_on), (1, 1));
            assert_eq!(explored.wrong, wrong);
        }
    }

    /// What is said of a judge that gives this answer for the proved one, the set of all exits and whether that is verified; by a
    /// text or by the plan's own pattern.
    fn found(by_text: bool, given: fn(Answer, u64, bool) -> Answer) -> String {
        let judge = |bytes: &[u8], text: Option<&[u8]>, row: &mut [u64]| {
            let answer = traceflow::judge_by(bytes, text, row);
            let (plan, automaton) = read(bytes, text);
            if plan.jobs.is_empty() || text.is_some() != by_text {
                return answer;
            }
            let taken_in = of_all_exits(&plan, row);
            given(answer, taken_in, is_verified(&plan, &automaton, taken_in))
        };
        check_with(7, judge).unwrap_err()
    }

    #[test]
    fn a_final_set_that_takes_in_standing_exits_is_found_out() {
        for by_text in [false, true] {
            let found = found(by_text, |answer, taken_in, _| {
                with_final_set(answer, taken_in)
            });
            assert!(found.contains("the final set is"), "{found}");
        }
    }

    #[test]
    fn a_verdict_that_takes_in_standing_exits_is_found_out() {
        for by_text in [false, true] {
            let found = found(by_text, |answer, _, verified| verdict(verified, answer));
            assert!(
                found.contains("verified, but a complete run is wrong"),
                "{found}"
            );
        }
    }
}
