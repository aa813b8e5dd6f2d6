//! Plans without jobs among the small ones. Their one run is the empty one, and the verdict on them is exact.

use super::exploration::Explored;
use std::fmt;

/// How many there were, for kind every, then kind none.
#[derive(Default)]
pub struct Recess {
    verified: [usize; 2],
    inconclusive: [usize; 2],
}

impl Recess {
    /// Adds a plan without jobs of this kind, or tells what is wrong: its one run, which is complete, decides the verdict.
    pub fn add(&mut self, kind: usize, verified: bool, explored: &Explored) -> Result<(), String> {
        if (explored.configurations, explored.complete) != (1, 1) {
            return Err("a plan without jobs has not the empty run alone".to_string());
        }
        if !verified && explored.wrong == 0 {
            return Err("inconclusive, but the one run, without jobs, is right".to_string());
        }
        match verified {
            true => self.verified[kind] += 1,
            false => self.inconclusive[kind] += 1,
        }
        Ok(())
    }

    pub fn seen(&self) -> [(&'static str, usize, usize); 2] {
        let least = |counts: [usize; 2]| counts[0].min(counts[1]);
        [
            (
                "verified plans without jobs of one kind",
                least(self.verified),
                250,
            ),
            (
                "inconclusive plans without jobs of one kind",
                least(self.inconclusive),
                250,
            ),
        ]
    }
}

impl fmt::Display for Recess {
    fn fmt(&self, out: &mut fmt::Formatter) -> fmt::Result {
        write!(
            out,
            "verified {:?}, inconclusive {:?}",
            self.verified, self.inconclusive
        )
    }
}

#[cfg(test)]
mod tests {
    use super::super::check_with;
    use super::super::tests::{read, verdict};
    use reference::{Automaton, Kind};
    use std::ops::Range;

    /// What is said of a judge that takes these for the final set of a plan without jobs, by a text or by the plan's own pattern.
    fn found(by_text: bool, final_set: fn(&Automaton) -> Range<usize>) -> String {
        let judge = |bytes: &[u8], text: Option<&[u8]>, row: &mut [u64]| {
            let answer = traceflow::judge_by(bytes, text, row);
            let (plan, automaton) = read(bytes, text);
            if !plan.jobs.is_empty() || text.is_some() != by_text {
                return answer;
            }
            let every = plan.kind == Kind::Every;
            let suits = |state| automaton.accepts(state) == every;
            verdict(final_set(&automaton).all(suits), answer)
        };
        check_with(7, judge).unwrap_err()
    }

    #[test]
    fn an_empty_final_set_is_found_out() {
        for by_text in [false, true] {
            let found = found(by_text, |_| 0..0);
            assert!(found.contains("verified, but a complete run is wrong"));
        }
    }

    #[test]
    fn a_final_set_of_all_states_is_found_out() {
        for by_text in [false, true] {
            let found = found(by_text, |automaton| 0..automaton.states());
            assert!(found.contains("inconclusive, but the one run, without jobs, is right"));
        }
    }
}
