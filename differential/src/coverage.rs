//! What a run has met: counted, printed, and asked for in a run of full length.

use crate::case::Case;
use crate::compare::Answers;
use crate::layout::{kind, CHANNELS, COUNTS, JOBS, NODES};
use crate::read_back::coverage::ReadBacks;
use crate::recess;
use crate::refusals::{self, is_of_plan, MANY_STATES, OF_TEXT, ORDER};
use crate::standing_coverage::Standing;
use crate::text::MOST_BYTES;
use std::fmt;
use traceflow::{Answer, Counts};

const KINDS: [&str; 2] = ["every", "none"];
const VERDICTS: [&str; 2] = ["verified", "inconclusive"];
const NEAR_MOST_STATES: u32 = 60;
const MANY_MEETINGS: u32 = 10_000;
/// Of 256 nodes and 64 states.
const ALL_PAIRS: u32 = 16_384;

#[derive(Default)]
pub struct Coverage {
    plans: u64,
    own: Tally,
    many_states: u64,
    most_states: u32,
    many_meetings: u64,
    most_meetings: u32,
    all_pairs: u64,
    /// Verdicts where every node holds every state, and there are several.
    filled: u64,
    /// Verdicts where some node holds no state, by the pairs alone.
    few_pairs: u64,
    /// Verdicts on plans with every count of the head at its largest.
    largest: u64,
    empty_final: u64,
    held_final: u64,
    /// Refusal 5 of nodes 0 with jobs.
    no_nodes: u64,
    typed: Tally,
    texts: Texts,
    recess: Recess,
    standing: Standing,
    read_backs: ReadBacks,
}

/// How often each answer was given.
#[derive(Default)]
pub struct Tally {
    /// By number; they are numbered from 1 without gaps.
    refused: [u64; ORDER.len() + 1],
    /// By kind, then by verdict.
    verdicts: [[u64; 2]; 2],
}

/// What plans without jobs were answered. They count here alone: what is asked of the others is met by others.
#[derive(Default)]
struct Recess {
    own: Tally,
    typed: Tally,
    /// Judged with a row of no places.
    no_places: u64,
    /// Judged, and there are channels.
    channels: u64,
}

/// What the texts were like.
#[derive(Default)]
struct Texts {
    /// Of refusal 18.
    too_long: u64,
    broken: u64,
    /// Of refusal 20, with a strange letter in `[^ ]`.
    left_out: u64,
    /// Of the most bytes, and judged.
    longest: u64,
    /// Refused though short enough, for a plan that is refused itself.
    faulty_twice: u64,
    /// Refusal 16 where 17 would apply too.
    short_row: u64,
    /// Judged where the plan's own pattern has too many states.
    own_refused: u64,
    /// Judged, and its own items spelled.
    own_spelled: u64,
}

impl Tally {
    pub fn add(&mut self, plan: &[u8], answer: &Answer) {
        match answer {
            Answer::Refused(refusal) => {
                if let Some(count) = self.refused.get_mut(*refusal as usize) {
                    *count += 1;
                }
            }
            Answer::Verified(_) => self.verdicts[kind(plan)][0] += 1,
            Answer::Inconclusive(_) => self.verdicts[kind(plan)][1] += 1,
        }
    }

    /// The refusals that are about a text, then the verdicts.
    pub fn asked_of_text(&self, by: &str) -> Vec<(String, u64)> {
        self.asked(OF_TEXT.into_iter().chain([MANY_STATES]), by)
    }

    /// These refusals, then the verdicts.
    pub fn asked(&self, refusals: impl IntoIterator<Item = u32>, by: &str) -> Vec<(String, u64)> {
        let refused = |refusal: u32| {
            let count = self.refused[refusal as usize];
            (format!("{by}refused {refusal}"), count)
        };
        let mut asked: Vec<(String, u64)> = refusals.into_iter().map(refused).collect();
        for (kind, counts) in KINDS.iter().zip(self.verdicts) {
            for (verdict, count) in VERDICTS.iter().zip(counts) {
                asked.push((format!("{by}{verdict}, kind {kind}"), count));
            }
        }
        asked
    }
}

impl Recess {
    fn add(&mut self, case: &Case, answers: &Answers) {
        self.own.add(&case.plan, &answers.own);
        self.typed.add(&case.plan, &answers.typed);
        if !matches!(answers.own, Answer::Refused(_)) {
            self.no_places += u64::from(case.row.is_empty());
            self.channels += u64::from(CHANNELS.read(&case.plan) > 0);
        }
    }

    /// Refusal 5 is that of jobs 0 with nodes.
    fn asked(&self) -> Vec<(String, u64)> {
        let mut asked = self.own.asked(recess::REFUSALS, "no jobs: ");
        let others = [
            ("no jobs: judged, row of no places", self.no_places),
            ("no jobs: judged, with channels", self.channels),
        ];
        asked.extend(others.map(|(name, count)| (name.to_string(), count)));
        asked.extend(self.typed.asked_of_text("no jobs, text: "));
        asked
    }
}

impl Texts {
    fn add(&mut self, case: &Case, answers: &Answers) {
        let text = &case.text;
        let long = text.bytes.len() > MOST_BYTES;
        let refused = |refusal| answers.typed == Answer::Refused(refusal);
        let judged = !matches!(answers.typed, Answer::Refused(_));
        let nodes = NODES.read(&case.plan) as usize;
        self.too_long += u64::from(refused(18) && long);
        self.broken += u64::from(refused(18) && !long);
        self.left_out += u64::from(refused(20) && text.strange_left_out);
        self.longest += u64::from(judged && text.bytes.len() == MOST_BYTES);
        let plan_refused = is_of_plan(&answers.own);
        self.faulty_twice += u64::from(plan_refused && !long && text.expected().is_some());
        self.short_row += u64::from(refused(MANY_STATES) && case.row.len() < nodes);
        self.own_refused += u64::from(judged && answers.own == Answer::Refused(MANY_STATES));
        self.own_spelled += u64::from(judged && text.own);
    }

    fn asked(&self) -> Vec<(String, u64)> {
        let asked = [
            ("refused 18, too long", self.too_long),
            ("refused 18, broken", self.broken),
            ("refused 20, in [^ ]", self.left_out),
            ("255 bytes, judged", self.longest),
            ("faulty, and so is the plan", self.faulty_twice),
            ("refused 16, row too short", self.short_row),
            ("judged, own pattern 16", self.own_refused),
            ("judged, the plan's own", self.own_spelled),
        ];
        asked
            .into_iter()
            .map(|(name, count)| (format!("text: {name}"), count))
            .collect()
    }
}

impl Coverage {
    pub fn add(&mut self, case: &Case, answers: &Answers) {
        self.plans += 1;
        self.read_backs.add(&answers.read_back);
        if JOBS.read(&case.plan) == 0 {
            self.recess.add(case, answers);
            return;
        }
        self.own.add(&case.plan, &answers.own);
        let no_nodes = NODES.read(&case.plan) == 0;
        self.no_nodes += u64::from(no_nodes && answers.own == Answer::Refused(5));
        if let Answer::Verified(counts) | Answer::Inconclusive(counts) = &answers.own {
            self.add_verdict(&case.plan, counts);
        }
        self.typed.add(&case.plan, &answers.typed);
        self.texts.add(case, answers);
        self.standing.add(case, answers);
    }

    fn add_verdict(&mut self, plan: &[u8], counts: &Counts) {
        self.many_states += u64::from(counts.states >= NEAR_MOST_STATES);
        self.most_states = self.most_states.max(counts.states);
        self.many_meetings += u64::from(counts.meetings > MANY_MEETINGS);
        self.most_meetings = self.most_meetings.max(counts.meetings);
        let nodes = NODES.read(plan);
        self.all_pairs += u64::from(counts.pairs == ALL_PAIRS);
        self.filled += u64::from(counts.states > 1 && counts.pairs == nodes * counts.states);
        self.few_pairs += u64::from(counts.pairs < nodes);
        let largest = COUNTS.iter().all(|count| count.read(plan) == count.most);
        self.largest += u64::from(largest);
        self.empty_final += u64::from(counts.final_set == 0);
        self.held_final += u64::from(counts.final_set != 0);
    }

    /// How often each thing asked for occurred.
    fn asked(&self) -> Vec<(String, u64)> {
        let mut asked = self.own.asked(refusals::own(), "");
        let others = [
            (
                format!("states {NEAR_MOST_STATES} or more"),
                self.many_states,
            ),
            (format!("meetings over {MANY_MEETINGS}"), self.many_meetings),
            (format!("pairs {ALL_PAIRS}"), self.all_pairs),
            ("every state at every node".to_string(), self.filled),
            ("pairs below the nodes".to_string(), self.few_pairs),
            ("every count the largest".to_string(), self.largest),
            ("final set empty".to_string(), self.empty_final),
            ("final set not empty".to_string(), self.held_final),
            ("refused 5, nodes 0 with jobs".to_string(), self.no_nodes),
        ];
        asked.extend(others);
        asked.extend(self.typed.asked(ORDER, "text: "));
        asked.extend(self.texts.asked());
        asked.extend(self.recess.asked());
        asked.extend(self.standing.asked());
        asked.extend(self.read_backs.asked());
        asked
    }

    /// What was asked for and did not occur.
    pub fn missing(&self) -> Vec<String> {
        let never = self.asked().into_iter().filter(|(_, count)| *count == 0);
        never.map(|(name, _)| name).collect()
    }
}

impl fmt::Display for Coverage {
    fn fmt(&self, out: &mut fmt::Formatter) -> fmt::Result {
        let mut line = |name: &str, count: u64| writeln!(out, "{name:<40}{count:>8}");
        line("plans", self.plans)?;
        for (name, count) in self.asked() {
            line(&name, count)?;
        }
        line("most states", self.most_states.into())?;
        line("most meetings", self.most_meetings.into())
    }
}
