//! Verdicts on small plans, under their own patterns and under texts, held against all their runs, against the pattern's language
//! itself, and against the smallest sets by the flow rules' own words.

mod exploration;
pub(crate) mod expression;
#[cfg(test)]
mod expression_tests;
pub(crate) mod least;
mod moves;
mod plans;
mod recess;
mod standing;

use crate::draft::as_read;
use crate::hex::hex;
use crate::random::Random;
use exploration::{explore, Explored};
use least::{
    final_set, is_verified, least, Asked, HELD, HELD_BUT_BY_MEETING, HELD_BUT_BY_ORDERING,
};
use plans::Small;
use recess::Recess;
use reference::{Automaton, Item, Kind, Plan};
use standing::Standing;
use std::fmt;
use traceflow::Answer;

/// Plans that are made, one in eleven without jobs.
const PLANS: usize = 22_000;
/// A plan with more configurations is passed over.
const CONFIGURATIONS: usize = 200_000;

/// What the explorations saw together. The pairs are for kind every, then kind none. Plans without jobs count apart.
#[derive(Default)]
struct Tally {
    plans: usize,
    passed_over: usize,
    configurations: usize,
    meetings: usize,
    verified: [usize; 2],
    inconclusive: [usize; 2],
    /// Verified plans that have a complete run.
    ending: [usize; 2],
    /// Of these, the ones in which jobs meet.
    meeting: [usize; 2],
    /// Inconclusive plans that have a wrong complete run: for information.
    wrong: [usize; 2],
    premise: Premise,
    recess: Recess,
    /// The plans with a standing job among the others.
    standing: Standing,
}

/// What it is worth that ordering edges ask for the state before the move.
#[derive(Default)]
struct Premise {
    /// Plans with larger sets if they asked for nothing.
    smaller: usize,
    /// Verified plans that would be inconclusive then.
    gained: usize,
    /// Inconclusive plans that would be so then too.
    no_gain: usize,
    /// Plans in which some move is handed on only because another ordering edge has brought the state before it.
    after_ordering: usize,
    /// Plans in which some move is handed on only because a meeting has.
    after_meeting: usize,
}

/// A plan and the pattern by which it is judged: its own, or that of a text.
struct Task<'a> {
    plan: &'a [u8],
    text: Option<&'a [u8]>,
    /// The items by which plan or text was made.
    pattern: Vec<Item>,
}

/// Judges small plans with the proved judge, and explores each. The summary, or what is wrong and with which plan.
pub fn check_all(seed: u64) -> Result<String, String> {
    check_with(seed, traceflow::judge_by)
}

fn check_with(
    seed: u64,
    judge: impl Fn(&[u8], Option<&[u8]>, &mut [u64]) -> Answer,
) -> Result<String, String> {
    let mut random = Random::new(seed);
    let mut tallies = [Tally::default(), Tally::default()];
    for _ in 0..PLANS {
        let small = plans::small_plan(&mut random).ok_or("runs: a pattern cannot be spelled")?;
        let Small { draft, typed, text } = small;
        let plan = &draft.encode();
        let patterns = [(None, &draft.items), (Some(&text[..]), &typed)];
        for ((text, items), tally) in patterns.into_iter().zip(&mut tallies) {
            let pattern = as_read(items);
            let task = Task {
                plan,
                text,
                pattern,
            };
            check(&task, &judge, tally).map_err(|what| task.report(&what))?;
        }
    }
    let [own, typed] = tallies;
    own.covers("runs")?;
    typed.covers("runs by a text")?;
    Ok(format!("runs: {own}\nruns by a text: {typed}"))
}

impl Task<'_> {
    fn report(&self, what: &str) -> String {
        let text = match self.text {
            None => String::new(),
            Some(text) => format!("; text {}", text.escape_ascii()),
        };
        format!("runs: {what}; plan {}{text}", hex(self.plan))
    }
}

fn check(
    task: &Task,
    judge: impl Fn(&[u8], Option<&[u8]>, &mut [u64]) -> Answer,
    tally: &mut Tally,
) -> Result<(), String> {
    let plan = Plan::read(task.plan).map_err(|n| format!("read as refused {n}"))?;
    let mut row = vec![0; plan.nodes];
    let (verified, counts) = match judge(task.plan, task.text, &mut row) {
        Answer::Refused(n) => return Err(format!("judged as refused {n}")),
        Answer::Verified(counts) => (true, counts),
        Answer::Inconclusive(counts) => (false, counts),
    };
    let automaton = Automaton::of_items(&task.pattern, plan.alphabet)
        .map_err(|n| format!("no automaton, refused {n}"))?;
    let explored = explore(&plan, &task.pattern, &automaton, &row, CONFIGURATIONS)?;
    check_row(&row, &least(&plan, &automaton, HELD))?;
    check_final(counts.final_set, final_set(&plan, &row))?;
    match explored {
        None => tally.passed_over += 1,
        Some(explored) if verified && explored.wrong > 0 => {
            return Err("verified, but a complete run is wrong for its kind".to_string());
        }
        Some(explored) if plan.jobs.is_empty() => {
            tally.recess.add(kind(&plan), verified, &explored)?;
        }
        Some(explored) => {
            tally.add(&plan, verified, &explored);
            tally.premise.add(&plan, &automaton, verified, &row);
            tally.standing.add(&plan, &automaton, &row, &explored);
        }
    }
    Ok(())
}

/// Where the counts of the plan's kind stand.
fn kind(plan: &Plan) -> usize {
    match plan.kind {
        Kind::Every => 0,
        Kind::None => 1,
    }
}

/// The row is the smallest sets, place by place.
fn check_row(row: &[u64], smallest: &[u64]) -> Result<(), String> {
    for (node, (set, due)) in row.iter().zip(smallest).enumerate() {
        if set & !due != 0 {
            return Err(format!(
                "node {node} has set {set:#x}, more than the rules give: {due:#x}"
            ));
        }
        if set != due {
            return Err(format!(
                "node {node} has set {set:#x}, less than the rules give: {due:#x}"
            ));
        }
    }
    Ok(())
}

/// The final set is that of the exits of the jobs that do not stand.
fn check_final(given: u64, due: u64) -> Result<(), String> {
    match given == due {
        true => Ok(()),
        false => Err(format!(
            "the final set is {given:#x}, and the rules give {due:#x}"
        )),
    }
}

impl Premise {
    /// Adds a plan, its verdict and its sets.
    fn add(&mut self, plan: &Plan, automaton: &Automaton, verified: bool, row: &[u64]) {
        let before = least(plan, automaton, Asked::Nothing);
        let was_verified = is_verified(plan, automaton, final_set(plan, &before));
        self.smaller += usize::from(before != row);
        self.gained += usize::from(verified && !was_verified);
        self.no_gain += usize::from(!verified && !was_verified);
        let needs = |asked| least(plan, automaton, asked) != row;
        self.after_ordering += usize::from(needs(HELD_BUT_BY_ORDERING));
        self.after_meeting += usize::from(needs(HELD_BUT_BY_MEETING));
    }

    fn seen(&self) -> [(&'static str, usize, usize); 5] {
        [
            ("plans with smaller sets by order 3", self.smaller, 4_000),
            ("plans verified by order 3 alone", self.gained, 300),
            ("plans inconclusive in spite of it", self.no_gain, 6_000),
            (
                "plans with moves handed on after an ordering edge",
                self.after_ordering,
                2_500,
            ),
            (
                "plans with moves handed on after a meeting",
                self.after_meeting,
                400,
            ),
        ]
    }
}

impl Tally {
    fn add(&mut self, plan: &Plan, verified: bool, explored: &Explored) {
        let kind = kind(plan);
        self.plans += 1;
        self.configurations += explored.configurations;
        self.meetings += explored.meetings;
        if verified {
            self.verified[kind] += 1;
            let ends = explored.complete > 0;
            self.ending[kind] += usize::from(ends);
            self.meeting[kind] += usize::from(ends && explored.meetings > 0);
        } else {
            self.inconclusive[kind] += 1;
            self.wrong[kind] += usize::from(explored.wrong > 0);
        }
    }

    /// Whether enough was seen for the check to mean something.
    fn covers(&self, what: &str) -> Result<(), String> {
        let least = |counts: [usize; 2]| counts[0].min(counts[1]);
        let seen = [
            ("plans", self.plans, 19_000),
            ("configurations", self.configurations, 150_000),
            ("meetings taken", self.meetings, 150_000),
            ("verified plans of one kind", least(self.verified), 1_500),
            ("of them with a complete run", least(self.ending), 1_000),
            ("of these with meetings", least(self.meeting), 400),
            (
                "inconclusive plans of one kind",
                least(self.inconclusive),
                2_500,
            ),
        ];
        let of_sorts = self.recess.seen().into_iter().chain(self.standing.seen());
        let others = self.premise.seen().into_iter().chain(of_sorts);
        for (which, count, needed) in seen.into_iter().chain(others) {
            if count < needed {
                return Err(format!(
                    "{what}: {which}: only {count}, {needed} are needed"
                ));
            }
        }
        Ok(())
    }
}

impl fmt::Display for Tally {
    fn fmt(&self, out: &mut fmt::Formatter) -> fmt::Result {
        write!(
            out,
            "{} plans, {} configurations, {} meetings taken; by kind [every, none]: verified {:?}, \
             with a complete run {:?}, of these with meetings {:?}; inconclusive {:?}, with a wrong run {:?}; \
             {} passed over; ordering edges: {}; plans without jobs: {}; plans with a standing job: {}",
            self.plans,
            self.configurations,
            self.meetings,
            self.verified,
            self.ending,
            self.meeting,
            self.inconclusive,
            self.wrong,
            self.passed_over,
            self.premise,
            self.recess,
            self.standing
        )
    }
}

impl fmt::Display for Premise {
    fn fmt(&self, out: &mut fmt::Formatter) -> fmt::Result {
        write!(
            out,
            "{} plans with smaller sets by order 3, {} verified by it alone, {} inconclusive in spite of it, \
             {} with moves handed on after an ordering edge, {} after a meeting",
            self.smaller, self.gained, self.no_gain, self.after_ordering, self.after_meeting
        )
    }
}

#[cfg(test)]
mod tests {
    use super::*;

    #[test]
    fn the_judge_stands() {
        let summary = check_all(7);
        assert!(summary.is_ok(), "{summary:?}");
    }

    /// What is said of a judge that is the proved one but for this change to what it gives by a text, or by the plan's own pattern.
    fn found(by_text: bool, change: impl Fn(Answer, &mut [u64]) -> Answer) -> String {
        let judge = |plan: &[u8], text: Option<&[u8]>, row: &mut [u64]| {
            let answer = traceflow::judge_by(plan, text, row);
            match text.is_some() == by_text {
                true => change(answer, row),
                false => answer,
            }
        };
        check_with(7, judge).unwrap_err()
    }

    /// An answer that is verified whatever the sets.
    fn lenient(answer: Answer, _: &mut [u64]) -> Answer {
        verdict(true, answer)
    }

    /// The sets without the state that every run begins in.
    fn late(answer: Answer, row: &mut [u64]) -> Answer {
        row.iter_mut().for_each(|set| *set &= !1);
        answer
    }

    /// The sets, one of them with a state that it should not hold.
    fn generous(answer: Answer, row: &mut [u64]) -> Answer {
        if let Some(set) = row.last_mut() {
            *set |= 1 << set.trailing_ones();
        }
        answer
    }

    /// A plan, and the automaton of the text or of its own pattern.
    pub(super) fn read(plan: &[u8], text: Option<&[u8]>) -> (Plan, Automaton) {
        let plan = Plan::read(plan).unwrap();
        let items = match text {
            None => plan.items.clone(),
            Some(text) => reference::read_text(text, plan.alphabet).unwrap(),
        };
        let automaton = Automaton::of_items(&items, plan.alphabet).unwrap();
        (plan, automaton)
    }

    /// This verdict with the counts of the answer, unless that is a refusal.
    pub(super) fn verdict(verified: bool, answer: Answer) -> Answer {
        match answer {
            Answer::Inconclusive(counts) if verified => Answer::Verified(counts),
            Answer::Verified(counts) if !verified => Answer::Inconclusive(counts),
            answer => answer,
        }
    }

    /// The smallest sets by the rules' words, with ordering edges that ask for this, and the verdict that they give; the counts are those
    /// of the proved judge.
    fn by_rules(plan: &[u8], text: Option<&[u8]>, row: &mut [u64], asked: Asked) -> Answer {
        let answer = traceflow::judge_by(plan, text, row);
        let (plan, automaton) = read(plan, text);
        let sets = least(&plan, &automaton, asked);
        row.copy_from_slice(&sets);
        verdict(
            is_verified(&plan, &automaton, final_set(&plan, &sets)),
            answer,
        )
    }

    /// An answer that is verified for no plan with jobs, which have nodes.
    fn timid(answer: Answer, row: &mut [u64]) -> Answer {
        match row.is_empty() {
            true => answer,
            false => verdict(false, answer),
        }
    }

    #[test]
    fn a_lenient_judge_is_found_out() {
        for by_text in [false, true] {
            let found = found(by_text, lenient);
            assert!(found.contains("verified, but a complete run is wrong"));
        }
    }

    #[test]
    fn a_set_short_of_a_state_that_runs_reach_is_found_out() {
        for by_text in [false, true] {
            assert!(found(by_text, late).contains("does not hold"));
        }
    }

    #[test]
    fn a_set_short_of_a_state_that_no_run_reaches_is_found_out() {
        let found = check_row(&[0b111, 0b011], &[0b111, 0b111]).unwrap_err();
        assert!(found.contains("node 1") && found.contains("less than the rules give"));
    }

    #[test]
    fn a_set_with_a_state_too_many_is_found_out() {
        for by_text in [false, true] {
            assert!(found(by_text, generous).contains("more than the rules give"));
        }
    }

    /// What is said of a judge by the rules' words whose ordering edges ask for this by a text, or by the plan's own pattern.
    fn found_asking(asked: Asked, by_text: bool) -> String {
        let judge = |plan: &[u8], text: Option<&[u8]>, row: &mut [u64]| {
            let asked = match text.is_some() == by_text {
                true => asked,
                false => HELD,
            };
            by_rules(plan, text, row, asked)
        };
        check_with(7, judge).unwrap_err()
    }

    #[test]
    fn ordering_edges_that_ask_for_nothing_are_found_out() {
        for by_text in [false, true] {
            let found = found_asking(Asked::Nothing, by_text);
            assert!(found.contains("more than the rules give"));
        }
    }

    #[test]
    fn ordering_edges_that_ask_for_too_much_are_found_out() {
        for asked in [HELD_BUT_BY_ORDERING, HELD_BUT_BY_MEETING] {
            for by_text in [false, true] {
                let found = found_asking(asked, by_text);
                assert!(found.contains("does not hold") || found.contains("less than"));
            }
        }
    }

    #[test]
    fn a_judge_that_shows_nothing_does_not_cover() {
        for by_text in [false, true] {
            assert!(found(by_text, timid).contains("are needed"));
        }
    }

    #[test]
    fn a_judge_that_passes_over_the_text_is_found_out() {
        let own = |plan: &[u8], _: Option<&[u8]>, row: &mut [u64]| traceflow::judge(plan, row);
        assert!(check_with(7, own).unwrap_err().contains("; text "));
    }
}
