//! The running tally of pairs (order 2): the addition by itself, and the pairs
//! of verdicts against a recount of the sets.

mod dice;
mod draft;

use dice::Dice;
use draft::{counts, events, set, Draft, NONE, P};
use reference::{add_members, judge, judge_text, Answer, Item};

/// No right tally is higher: 256 nodes of 64 states.
const MOST: u32 = 16_384;

/// The ends of what may be handed in, and some between. Few are right for the
/// sets of these tests.
const TALLIES: [u32; 8] = [0, 1, 2, 63, 64, 8_191, MOST - 1, MOST];

/// All sets of six states, the lowest being `first`.
fn small_sets(first: u32) -> impl Iterator<Item = u64> {
    (0..64).map(move |members: u64| members << first)
}

fn holds(set: u64, state: u32) -> bool {
    set >> state & 1 == 1
}

/// The members of a set, counted one by one.
fn members(set: u64) -> u32 {
    (0..64).map(|state| u32::from(holds(set, state))).sum()
}

/// The members of all sets, counted together.
fn recount(row: &[u64]) -> u32 {
    row.iter().map(|&set| members(set)).sum()
}

#[test]
fn all_pairs_of_small_sets() {
    // At both ends and in the middle of a mask.
    for first in [0, 29, 58] {
        for set in small_sets(first) {
            for added in small_sets(first) {
                let is_new = |&state: &u32| holds(added, state) && !holds(set, state);
                let new = (0..64).filter(is_new).count() as u32;
                for tally in TALLIES {
                    let expected = (set | added, tally + new);
                    assert_eq!(add_members(set, added, tally), expected);
                }
            }
        }
    }
}

#[test]
fn every_tally_that_may_be_handed_in() {
    let (set, added) = (set(&[0, 1, 5, 63]), set(&[1, 2, 62, 63]));
    for tally in 0..=MOST {
        let (union, after) = add_members(set, added, tally);
        assert_eq!(union, 0xC000_0000_0000_0027);
        assert_eq!(after, tally + 2);
    }
}

#[test]
fn the_most_that_comes_back() {
    assert_eq!(add_members(0, u64::MAX, 0), (u64::MAX, 64));
    assert_eq!(add_members(0, u64::MAX, MOST - 1), (u64::MAX, 16_447));
    assert_eq!(add_members(0, u64::MAX, MOST), (u64::MAX, 16_448));
    // One state is missing.
    for state in 0..64 {
        let one = 1 << state;
        assert_eq!(add_members(!one, u64::MAX, MOST), (u64::MAX, 16_385));
        assert_eq!(add_members(!one, one, MOST), (u64::MAX, 16_385));
        assert_eq!(add_members(one, u64::MAX, MOST), (u64::MAX, 16_447));
    }
}

#[test]
fn members_already_there_count_nothing() {
    for tally in TALLIES {
        for set in small_sets(0).chain([u64::MAX]) {
            for other in small_sets(0).chain([u64::MAX]) {
                let part = set & other;
                assert_eq!(add_members(set, part, tally), (set, tally));
                // Nor do they when they come again.
                let (union, after) = add_members(set, other, tally);
                assert_eq!(add_members(union, other, after), (union, after));
            }
        }
    }
}

#[test]
fn an_empty_addition_changes_nothing() {
    for tally in TALLIES {
        for set in small_sets(0).chain(small_sets(58)).chain([u64::MAX]) {
            assert_eq!(add_members(set, 0, tally), (set, tally));
        }
    }
}

#[test]
fn one_by_one_or_all_at_once() {
    for set in small_sets(0) {
        for added in small_sets(0) {
            let one_by_one = (0..6)
                .map(|state| added & 1 << state)
                .fold((set, 7), |(set, tally), one| add_members(set, one, tally));
            assert_eq!(add_members(set, added, 7), one_by_one);
        }
    }
}

/// Judges a plan, and gives its pairs after a recount of the row.
fn pairs(draft: &Draft) -> u32 {
    let (answer, row) = draft.judge();
    assert_recounted(answer, &row)
}

fn assert_recounted(answer: Answer, row: &[u64]) -> u32 {
    let counts = counts(answer);
    assert_eq!(counts.pairs, recount(row));
    assert!(counts.pairs <= row.len() as u32 * counts.states);
    counts.pairs
}

#[test]
fn known_plans() {
    let mut row = [0; 2];
    let answer = judge(&P, &mut row);
    assert_eq!(assert_recounted(answer, &row), 2);

    let of_kind_none = Draft {
        kind: NONE,
        ..Draft::p()
    };
    assert_eq!(pairs(&of_kind_none), 2);
    assert_eq!(pairs(&Draft::two_jobs()), 8);
    assert_eq!(pairs(&Draft::many_states(4)), 1);

    let one_node = Draft {
        jobs: vec![[1, 0, 0]],
        ..Draft::new(&[1], &[events(&[1])])
    };
    assert_eq!(pairs(&one_node), 1);

    let empty = Draft::new(&[], &[Item::Empty]);
    let quiet_step = Draft {
        steps: vec![[0, 1, 0]],
        ..empty.clone()
    };
    assert_eq!(pairs(&quiet_step), 2);
    let call = Draft {
        channels: vec![0],
        calls: vec![[0, 1, 0]],
        ..empty.clone()
    };
    assert_eq!(pairs(&call), 1);
    let accept_in_the_same_job = Draft {
        accepts: vec![[0, 1, 0]],
        ..call
    };
    assert_eq!(pairs(&accept_in_the_same_job), 1);
    let eight_nodes = Draft {
        jobs: vec![[8, 0, 7]],
        ..empty
    };
    assert_eq!(pairs(&eight_nodes), 1);
    assert_eq!(pairs(&Draft::no_jobs(&[], &[Item::Empty])), 0);
}

/// The two jobs under texts: each verdict has its own tally from 0 on.
#[test]
fn typed_patterns() {
    for (text, expected) in [("a;b;c", 8), ("0", 7), ("[abc]*", 7), ("a*", 7)] {
        let typed = |plan: &[u8], row: &mut [u64]| judge_text(plan, text.as_bytes(), row);
        let (answer, row) = Draft::two_jobs().judge_by(typed);
        assert_eq!(assert_recounted(answer, &row), expected, "{text}");
    }
}

/// As many times event 1 in sequence, again and again.
fn cycle(length: usize) -> Vec<Item> {
    let mut items = vec![events(&[1])];
    for _ in 1..length {
        items.extend([events(&[1]), Item::Sequence]);
    }
    items.push(Item::Star);
    items
}

/// Jobs of one size, entry at the first node and exit at the last, with a
/// quiet step from each node to the next, so that all hold state 0. Cycles of
/// 7 and 9 side by side: 64 states, from any of which event 1 in the end
/// reaches all but state 0.
fn chains(jobs: u64, size: u64) -> Draft {
    let items = [cycle(7), cycle(9), vec![Item::Choice]].concat();
    let ends = (0..jobs).map(|job| (job * size, (job + 1) * size - 1));
    Draft {
        jobs: ends
            .clone()
            .map(|(first, exit)| [size, first, exit])
            .collect(),
        steps: ends
            .flat_map(|(first, exit)| (first..exit).map(|node| [node, node + 1, 0]))
            .collect(),
        ..Draft::new(&[1], &items)
    }
}

fn assert_full(draft: &Draft) {
    let (answer, row) = draft.judge();
    assert!(row.iter().all(|&set| set == u64::MAX));
    let counts = counts(answer);
    assert_eq!((counts.states, counts.fill), (64, 100));
    assert_eq!(counts.pairs, 64 * row.len() as u32);
    assert_eq!(counts.pairs, recount(&row));
}

#[test]
fn every_node_holds_all_states() {
    // The moved states come along the quiet steps. 256 nodes, 256 steps.
    let mut one_job = chains(1, 256);
    assert_eq!(pairs(&one_job), 256);
    one_job.steps.push([0, 0, 1]);
    assert_full(&one_job);
    // They come along ordering edges too.
    let mut sixteen_jobs = chains(16, 16);
    assert_eq!(pairs(&sixteen_jobs), 256);
    sixteen_jobs.steps.push([0, 0, 1]);
    assert_full(&sixteen_jobs);
    // A meeting moves them. Its accept is in the last job.
    let mut meeting = chains(16, 16);
    meeting.channels = vec![1];
    meeting.calls = vec![[0, 0, 0]];
    meeting.accepts = vec![[240, 240, 0]];
    assert_full(&meeting);
    // All of that at once, so many additions bring members already there.
    meeting
        .steps
        .extend((0..16).map(|job| [16 * job, 16 * job, 1]));
    assert_full(&meeting);
    // A plan of fewer nodes, moved in its middle job.
    let mut three_jobs = chains(3, 5);
    three_jobs.steps.push([5, 5, 1]);
    assert_full(&three_jobs);
}

#[test]
fn nodes_that_gain_one_state_at_a_time() {
    // Event 1 on each step of a chain: node n holds one state alone.
    let mut chain = chains(1, 256);
    chain.steps.iter_mut().for_each(|step| step[2] = 1);
    assert_eq!(pairs(&chain), 256);
    // With a step back to the entry, round and round. 255 steps to a round,
    // and 255 is 3 modulo 63: the entry meets 21 states and state 0; each
    // other node meets 21.
    chain.steps.push([254, 0, 1]);
    assert_eq!(pairs(&chain), 256 * 21 + 1);
    // Nodes that are never reached count nothing.
    chain.steps.clear();
    assert_eq!(pairs(&chain), 1);
}

impl Dice {
    fn up_to(&mut self, most: u64) -> u64 {
        self.below(most + 1)
    }

    /// As many entries of two ends in one job, not from its exit, and a third
    /// number below the bound.
    fn entries(&mut self, count: u64, jobs: &[[u64; 3]], bound: u64) -> Vec<[u64; 3]> {
        let mut entries = vec![];
        for _ in 0..count {
            // Each entry here is the first node, each exit the last.
            let [size, first, exit] = jobs[self.below(jobs.len() as u64) as usize];
            let from = first + self.below(exit - first);
            entries.push([from, first + self.below(size), self.below(bound)]);
        }
        entries
    }

    /// A plan of up to 16 jobs and 256 nodes under one of the patterns here.
    fn draft(&mut self) -> Draft {
        let mut next = 0;
        let mut jobs = vec![];
        for _ in 0..=self.below(16) {
            let size = 2 + self.below(15);
            jobs.push([size, next, next + size - 1]);
            next += size;
        }
        let pattern = match self.below(3) {
            0 => Draft::two_jobs(),
            1 => Draft::many_states(1 + self.below(4) as usize),
            _ => chains(1, 2),
        };
        let channels: Vec<_> = (0..=self.below(8)).map(|_| self.below(4)).collect();
        let (steps, calls, accepts) = (self.up_to(64), self.up_to(32), self.up_to(32));
        Draft {
            kind: self.below(2),
            steps: self.entries(steps, &jobs, 4),
            calls: self.entries(calls, &jobs, channels.len() as u64),
            accepts: self.entries(accepts, &jobs, channels.len() as u64),
            jobs,
            channels,
            ..pattern
        }
    }
}

#[test]
fn plans_thrown_at_random() {
    let mut dice = Dice(2);
    let mut highest = 0;
    for _ in 0..2_000 {
        highest = highest.max(pairs(&dice.draft()));
    }
    assert!(highest > 2_048, "{highest}");
}
