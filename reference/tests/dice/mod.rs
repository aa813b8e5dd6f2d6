//! Numbers that look thrown at random, the same in every test run, and plans
//! made of them.

// No test file uses all of this.
#![allow(dead_code)]

use reference::Item;

use crate::draft::{events, Draft};

pub struct Dice(pub u64);

impl Dice {
    pub fn below(&mut self, bound: u64) -> u64 {
        self.0 = self
            .0
            .wrapping_mul(6_364_136_223_846_793_005)
            .wrapping_add(1_442_695_040_888_963_407);
        (self.0 >> 33) % bound
    }

    fn any_of(&mut self, events: &[u64]) -> Vec<u64> {
        let thrown = events.iter().copied();
        thrown.filter(|_| self.below(2) == 0).collect()
    }

    /// Postfix items, brackets nested at most so deep.
    fn pattern(&mut self, depth: u64, alphabet: &[u64]) -> Vec<Item> {
        let operator = match self.below(if depth == 0 { 4 } else { 10 }) {
            0 => return vec![Item::Empty],
            1..=3 => return vec![events(&self.any_of(alphabet))],
            4..=6 => Item::Sequence,
            7..=8 => Item::Choice,
            _ => Item::Star,
        };
        let mut items = self.pattern(depth - 1, alphabet);
        if operator != Item::Star {
            items.extend(self.pattern(depth - 1, alphabet));
        }
        items.push(operator);
        items
    }

    /// Up to so many entries of two ends in one job of the draft, not from its
    /// exit unless it stands, and a third number below the bound. None without
    /// jobs.
    fn ends(&mut self, most: u64, draft: &Draft, bound: u64) -> Vec<[u64; 3]> {
        let jobs = &draft.jobs;
        let mut ends = vec![];
        if jobs.is_empty() {
            return ends;
        }
        for _ in 0..self.below(most + 1) {
            let job = self.below(jobs.len() as u64) as usize;
            let first: u64 = jobs[..job].iter().map(|job| job[0]).sum();
            let [size, _, exit] = jobs[job];
            let [from, to] = [0; 2].map(|_| first + self.below(size));
            if from != exit || draft.standing.contains(&job) {
                ends.push([from, to, self.below(bound)]);
            }
        }
        ends
    }

    /// A plan of up to four jobs of up to four nodes each.
    pub fn small_plan(&mut self) -> Draft {
        self.plan(4, 4, 8)
    }

    /// A plan of at most so many jobs, nodes of each job and local steps. One
    /// in sixteen has no jobs. Of the jobs about one in four stands, never all.
    pub fn plan(&mut self, most_jobs: u64, most_nodes: u64, most_steps: u64) -> Draft {
        let mut jobs = vec![];
        let mut first = 0;
        let count = match self.below(16) {
            0 => 0,
            _ => 1 + self.below(most_jobs),
        };
        for _ in 0..count {
            let size = 1 + self.below(most_nodes);
            jobs.push([size, first + self.below(size), first + self.below(size)]);
            first += size;
        }
        let ends = self.below(count.max(1)) as usize;
        let mut standing: Vec<_> = (0..jobs.len()).filter(|_| self.below(3) == 0).collect();
        standing.retain(|&job| job != ends);
        for &job in &standing {
            jobs[job][2] = jobs[job][1];
        }
        let mut alphabet = self.any_of(&[1, 2, 3]);
        alphabet.push(4);
        let items = self.pattern(3, &alphabet);
        let channels: Vec<_> = (0..=self.below(3)).map(|_| self.below(5)).collect();
        let draft = Draft {
            kind: self.below(2),
            jobs,
            standing,
            ..Draft::new(&alphabet, &items)
        };
        Draft {
            steps: self.ends(most_steps, &draft, 5),
            calls: self.ends(most_steps / 2, &draft, channels.len() as u64),
            accepts: self.ends(most_steps / 2, &draft, channels.len() as u64),
            channels,
            ..draft
        }
    }
}
